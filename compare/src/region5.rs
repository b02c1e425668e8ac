//! Region 5 against the original's, which has other operations and another cv: how far apart they are, and where. Then region 5 beside region 2 at 1073.15 K, which both have, and how near its searches find a pressure back. Makes four tables of docs/DIFFERENCES.md.

use crate::climboat::{self, Pair};
use crate::draw::{same, Draw};
use crate::equations::{region_5, Property, REGION_2, REGION_5};
use crate::page::{self, grouped};
use crate::pairs::{search, LIMIT};
use crate::tally::Tally;
use crate::vacuum::DIGITS;
use copy::algo::polynomial::polys_i_ii_ij_jj_powi;
use copy::common::constant::RGAS_WATER;
use copy::r5::region5_gfe::{gamma0_tautau_reg5, r5Tstar, IJn};
use original::r5::region5_pT::pT2cv_reg5;
use std::iter::repeat_with;

/// How many last places a property may lie from the original's where the formula is the same: some operations of each are rounded in another place.
const BAR: u64 = 16;

const HEAD: &str = "| region 5 against the Rust | bar, last places | states | the same double | most last places apart | at | largest relative distance | at |\n|---|---|---|---|---|---|---|---|\n";

const CV_HEAD: &str = "| p, MPa | T, K | cv, kJ/(kg K) | the Rust's | relative distance | of which rounding |\n|---|---|---|---|---|---|\n";

const LINE_HEAD: &str = "| p, MPa | at 1073.15 K | v, m^3/kg | u, kJ/kg | s, kJ/(kg K) | h, kJ/kg | cp, kJ/(kg K) | cv, kJ/(kg K) | w, m/s |\n|---|---|---|---|---|---|---|---|---|\n";

const BACK_HEAD: &str = "| p, MPa | states | (T,v): largest relative error | most steps | (T,h): largest relative error | most steps | (T,s): largest relative error | most steps |\n|---|---|---|---|---|---|---|---|\n";

/// Where regions 2 and 5 are laid side by side.
const PRESSURES: [f64; 10] = [1.0e-8, 1.0e-4, 0.01, 0.1, 1.0, 10.0, 20.0, 30.0, 40.0, 50.0];

/// Where the two cv are, and at which temperatures pressures are searched back.
const CV_PRESSURES: [f64; 5] = [0.01, 0.1, 1.0, 10.0, 50.0];
const TEMPERATURES: [f64; 3] = [1073.15, 1500.0, 2273.15];

/// `compare region5` prints the tables, with --check it looks for them on the page; either way it holds the bar, and that the Rust's cv is the formula that it is said to be.
pub fn command(words: &[&str]) -> bool {
    if !matches!(words, [] | ["--check"]) {
        eprintln!("usage: compare region5 [--check]");
        return false;
    }
    let mut tally = Tally::new("region 5");
    let rows = rows(&mut tally);
    let tables = [HEAD.to_string() + &rows.iter().map(Row::told).collect::<String>(), cv_table(), line_table(), back_table(&mut tally)];
    if words.is_empty() {
        println!("{}", tables.join("\n"));
    }
    let kept = tally.told(&format!(" by more than {BAR} last places from the original's double, cv by the release's formula over its sums; its own cv bit for bit by the formula that it is said to be; every pressure searched back within its stop"));
    kept & (words.is_empty() || tables.iter().fold(true, |good, table| page::has("region5", table) & good))
}

/// 400,000 states uniform in p, 400,000 of every magnitude, and 200,000 at corners and edges, all inside the region.
fn states() -> Vec<(f64, f64)> {
    let mut draw = Draw::new(0x0c1b_0a70_0000_0081);
    let mut list = Vec::new();
    for (kind, n) in [(0, 400_000), (1, 400_000), (2, 200_000)] {
        list.extend(repeat_with(|| region_5(&mut draw, kind)).filter(|&state| search(5, Pair::Ts).inside(state)).take(n));
    }
    list
}

/// Each property, and cv a second time.
fn rows(tally: &mut Tally) -> Vec<Row> {
    let states = states();
    let mut rows = Vec::new();
    for r in &REGION_5 {
        let bar = if r.name == "region 5 cv" { None } else { Some(BAR) };
        rows.push(Row::of(r.name, bar, r.ours, r.rusts, &states, tally));
    }
    for &(p, t) in &states {
        tally.check(same(rusts_cv(p, t), pT2cv_reg5(p, t)), || format!("p = {p:?}, T = {t:?}: the Rust's cv is another formula than it is said to be"));
    }
    rows.push(Row::of("region 5 cv, the release's formula over the Rust's sums", Some(BAR), climboat::region5_cv, releases_cv, &states, tally));
    rows
}

/// What cv is made of, by the Rust's own sums and in its order: -tau^2 of the second derivatives in tau, and the two other factors of the release's Table 39.
fn rusts_sums(p: f64, t: f64) -> (f64, f64, f64) {
    let tau = r5Tstar / t;
    let (gammar_pi, gammar_pipi, gammar_pitau, gammar_tautau) = polys_i_ii_ij_jj_powi(p, tau, &IJn);
    let a = -tau * tau * (gamma0_tautau_reg5(tau) + gammar_tautau);
    let b = 1.0 + p * gammar_pi - tau * p * gammar_pitau;
    (a, b, 1.0 - p * p * gammar_pipi)
}

/// As the Rust puts them together.
fn rusts_cv(p: f64, t: f64) -> f64 {
    let (a, b, c) = rusts_sums(p, t);
    RGAS_WATER * (a - b * b) / c
}

/// As the release does.
fn releases_cv(p: f64, t: f64) -> f64 {
    let (a, b, c) = rusts_sums(p, t);
    RGAS_WATER * (a - b * b / c)
}

/// A property: how often it is the other's double, and the first of the states at which it is farthest from it.
struct Row {
    what: &'static str,
    bar: Option<u64>,
    states: u64,
    equal: u64,
    last_places: (u64, (f64, f64)),
    relative: (f64, (f64, f64)),
}

impl Row {
    fn of(what: &'static str, bar: Option<u64>, ours: Property, theirs: Property, states: &[(f64, f64)], tally: &mut Tally) -> Row {
        let mut row = Row { what, bar, states: 0, equal: 0, last_places: (0, (0.0, 0.0)), relative: (0.0, (0.0, 0.0)) };
        for &(p, t) in states {
            let (ours, theirs) = (ours(p, t), theirs(p, t));
            // every value of the region is above zero, so that the bits are in the order of the doubles
            let places = ours.to_bits().abs_diff(theirs.to_bits());
            let relative = (ours - theirs).abs() / ours;
            tally.check(ours > 0.0 && theirs > 0.0 && bar.is_none_or(|bar| places <= bar), || format!("{what}, p = {p:?}, T = {t:?}: {ours:?}, the other {theirs:?}"));
            row.states += 1;
            row.equal += u64::from(same(ours, theirs));
            if places > row.last_places.0 {
                row.last_places = (places, (p, t));
            }
            if relative > row.relative.0 {
                row.relative = (relative, (p, t));
            }
        }
        row
    }

    /// Its line of the table.
    fn told(&self) -> String {
        let Row { what, bar, states, equal, last_places: (places, far), relative: (relative, there) } = self;
        let bar = bar.map_or(String::from("none"), |bar| bar.to_string());
        format!("| {what} | {bar} | {} | {} | {} | {} | {relative:.2e} | {} |\n", grouped(*states), grouped(*equal), grouped(*places), written(far), written(there))
    }
}

fn written((p, t): &(f64, f64)) -> String {
    format!("p = {p:?}, T = {t:?}")
}

/// The two cv, and how much of their distance is there with one formula, too.
fn cv_table() -> String {
    let states = TEMPERATURES.into_iter().flat_map(|t| CV_PRESSURES.map(|p| (p, t)));
    let line = |(p, t): (f64, f64)| {
        let (ours, rusts) = (climboat::region5_cv(p, t), pT2cv_reg5(p, t));
        let rounding = (releases_cv(p, t) - ours).abs() / ours;
        let rounding = if rounding == 0.0 { String::from("0") } else { format!("{rounding:.1e}") };
        format!("| {p:?} | {t:?} | {} | {} | {:+.1e} | {rounding} |\n", seven_digits(ours), seven_digits(rusts), (rusts - ours) / ours)
    };
    CV_HEAD.to_string() + &states.map(line).collect::<String>()
}

/// What each region has at the temperature that both have, and by what part region 5's is larger.
fn line_table() -> String {
    let mut table = LINE_HEAD.to_string();
    for p in PRESSURES {
        let values = REGION_2.iter().zip(&REGION_5).map(|(two, five)| ((two.ours)(p, 1073.15), (five.ours)(p, 1073.15)));
        let cells = |of: fn(f64, f64) -> String| values.clone().map(|(two, five)| format!(" {} |", of(two, five))).collect::<String>();
        let two = cells(|two, _| seven_digits(two));
        let five = cells(|_, five| seven_digits(five));
        let jump = cells(|two, five| format!("{:+.1e}", (five - two) / two));
        table += &format!("| {p:?} | region 2 |{two}\n| | region 5 |{five}\n| | relative jump |{jump}\n");
    }
    table
}

/// Decade by decade how near each of the three searches finds the pressure back that its target is of, ten pressures to a decade at each temperature. Brent's stop allows 2·3.0e-8 of the pressure and 0.5e-8 MPa to each side, whatever the pressure.
fn back_table(tally: &mut Tally) -> String {
    let mut table = BACK_HEAD.to_string();
    for k in -8..=1 {
        let mut pressures = DIGITS.map(|digits| format!("{digits}e{k}").parse::<f64>().expect("a number")).to_vec();
        let top = if k == 1 { String::from("50") } else { format!("1e{}", k + 1) };
        if k == 1 {
            pressures.retain(|&p| p <= 50.0);
            pressures.push(50.0);
        }
        let states: Vec<(f64, f64)> = TEMPERATURES.into_iter().flat_map(|t| pressures.iter().map(move |&p| (p, t))).collect();
        let cells: String = [Pair::Tv, Pair::Th, Pair::Ts].into_iter().map(|pair| searched_back(pair, &states, tally)).collect();
        table += &format!("| 1e{k} to {top} | {} |{cells}\n", states.len());
    }
    table
}

/// Two cells of the table. An answer that is not within its stop of the pressure, by the bracket and what rounding moves, fails the command.
fn searched_back(pair: Pair, states: &[(f64, f64)], tally: &mut Tally) -> String {
    let search = search(5, pair);
    let (mut largest, mut steps) = (0.0f64, 0);
    for &(p, t) in states {
        let ours = search.ours(t, search.at(t, p), LIMIT);
        let distance = (ours.value - p).abs();
        let allowed = 2.0 * (2.0 * 3.0e-8 * p + 0.5e-8);
        tally.check(ours.number == 0 && distance <= allowed, || format!("{}: p = {p:?}, T = {t:?}: {ours:?}", search.name));
        largest = largest.max(distance / p);
        steps = steps.max(ours.steps);
    }
    format!(" {largest:.1e} | {steps} |")
}

/// So many that a jump of a millionth shows.
fn seven_digits(x: f64) -> String {
    let scientific = format!("{x:.6e}");
    let (_, exponent) = scientific.split_once('e').expect("an exponent");
    let decimals = 6 - exponent.parse::<i32>().expect("a whole number");
    format!("{x:.*}", decimals.max(0) as usize)
}
