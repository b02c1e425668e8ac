//! Entropy in region 2, and differences of two, against the original's, of which the logarithm alone is another: how far apart they are, and which operation widens that most. Makes a table of docs/DIFFERENCES.md.

use crate::climboat::{self, Pair};
use crate::draw::{same, Draw};
use crate::equations::{beside, region_2, states_of_region_2};
use crate::page::{self, grouped};
use crate::pairs::search;
use crate::tally::Tally;
use copy::common::constant::RGAS_WATER;
use copy::r2::region2_gfe::{n0, polys_0_j_powi_reg2, J0};
use copy::r2::region2_pT::{self as copys, r2Tstar};
use original::r2::region2_pT as rusts;
use std::iter::repeat_with;

/// What document 02, §7 asks of s at moderate states; held of the differences, too.
const BAR: f64 = 1.0e-13;

const MODERATE_PRESSURES: (f64, f64) = (0.001, 1.0);
const MODERATE_TEMPERATURES: (f64, f64) = (400.0, 900.0);

const HEAD: &str = "| entropy in region 2 | bar | compared | another double | largest distance, kJ/(kg K) | at | R times the distance of the logarithms there | widened most by |\n|---|---|---|---|---|---|---|---|\n";

/// p and T
type State = (f64, f64);

/// Where states are drawn: how one is, between which ends a second p at its T and a second T at its p are, and whether one belongs there.
struct Place {
    name: &'static str,
    bar: Option<f64>,
    state: fn(&mut Draw) -> State,
    pressures: fn(f64) -> (f64, f64),
    temperatures: fn(f64) -> (f64, f64),
    has: fn(State) -> bool,
}

const PLACES: [Place; 2] = [
    Place {
        name: "moderate states",
        bar: Some(BAR),
        state: |draw| (within(draw, MODERATE_PRESSURES), within(draw, MODERATE_TEMPERATURES)),
        pressures: |_| MODERATE_PRESSURES,
        temperatures: |_| MODERATE_TEMPERATURES,
        // in the corner that the saturation line cuts off the region, too
        has: |(p, t)| lies(MODERATE_PRESSURES, p) && lies(MODERATE_TEMPERATURES, t),
    },
    Place {
        name: "the region",
        bar: None,
        state: |draw| {
            let kind = draw.below(3);
            region_2(draw, kind)
        },
        pressures: |t| (search(2, Pair::Ts).ends)(t),
        temperatures: |p| (search(2, Pair::Pv).ends)(p),
        has: inside,
    },
];

fn lies((low, high): (f64, f64), x: f64) -> bool {
    (low..=high).contains(&x)
}

fn inside(state: State) -> bool {
    search(2, Pair::Ts).inside(state)
}

/// What is compared: s at one state, or the difference of two.
type Drawn = fn(&Place, &mut Draw) -> Vec<State>;

const TAKEN: [(&str, Drawn); 3] = [
    ("s", |place, draw| vec![(place.state)(draw)]),
    ("s(p1,T) - s(p2,T)", |place, draw| {
        let (p, t) = (place.state)(draw);
        vec![(p, t), (second(draw, p, (place.pressures)(t)), t)]
    }),
    ("s(p,T1) - s(p,T2)", |place, draw| {
        let (p, t) = (place.state)(draw);
        vec![(p, t), (p, second(draw, t, (place.temperatures)(p)))]
    }),
];

/// `compare entropy` prints the table, with --check it looks for it on the page; either way it holds the bar, and that nothing but the logarithm is another.
pub fn command(words: &[&str]) -> bool {
    if !matches!(words, [] | ["--check"]) {
        eprintln!("usage: compare entropy [--check]");
        return false;
    }
    let mut tally = Tally::new("entropy in region 2");
    let rows = rows(&mut tally);
    let table = HEAD.to_string() + &rows.iter().map(Row::told).collect::<String>();
    if words.is_empty() {
        print!("{table}");
        rows.iter().for_each(Row::tell_way);
    }
    let kept = tally.told(&format!(" from the Rust's formula with Climboat's logarithm, or at moderate states by more than {BAR:e} from the original"));
    kept & (words.is_empty() || page::has("entropy", &table))
}

/// A million of each kind in each place, and what `compare equations` draws outside the region.
fn rows(tally: &mut Tally) -> Vec<Row> {
    let kinds = PLACES.iter().flat_map(|place| TAKEN.map(|(what, drawn)| (place, what, drawn)));
    let mut rows = Vec::new();
    for ((place, what, drawn), seed) in kinds.zip(0x0c1b_0a70_0000_0071..) {
        let mut draw = Draw::new(seed);
        let all = repeat_with(|| drawn(place, &mut draw)).filter(|states| states.iter().all(|&state| (place.has)(state)));
        rows.push(Row::of(format!("{what}, {}", place.name), place.bar, all.take(1_000_000), tally));
    }
    let outside = states_of_region_2().into_iter().filter(|&state| !inside(state));
    rows.push(Row::of("s, drawn by `compare equations` outside the region".into(), None, outside.map(|state| vec![state]), tally));
    rows
}

/// Between two ends: uniform, of every magnitude alike, or at an end or next to it.
fn within(draw: &mut Draw, (low, high): (f64, f64)) -> f64 {
    match draw.below(6) {
        0 | 1 => draw.between(low, high),
        2 | 3 => draw.logarithmic(low, high),
        4 => beside(draw, low).clamp(low, high),
        _ => beside(draw, high).clamp(low, high),
    }
}

/// A second one between the ends, or within a thousandth of the first.
fn second(draw: &mut Draw, first: f64, ends: (f64, f64)) -> f64 {
    if draw.below(4) == 0 {
        first * draw.between(0.999, 1.001)
    } else {
        within(draw, ends)
    }
}

/// What a function gives at a state, or the difference of what it gives at two.
fn taken(s: fn(f64, f64) -> f64, states: &[State]) -> f64 {
    states.iter().map(|&(p, t)| s(p, t)).reduce(|first, second| first - second).expect("a state")
}

/// How many were met, how many of them are not the original's double, and the first of those that are farthest from it.
struct Row {
    what: String,
    bar: Option<f64>,
    compared: u64,
    others: u64,
    distance: f64,
    at: Vec<State>,
}

impl Row {
    fn of(what: String, bar: Option<f64>, drawn: impl Iterator<Item = Vec<State>>, tally: &mut Tally) -> Row {
        let mut row = Row { what, bar, compared: 0, others: 0, distance: 0.0, at: Vec::new() };
        for states in drawn {
            let [ours, rusts, explained] = [climboat::region2_s, rusts::pT2s_reg2, copys::pT2s_reg2].map(|s| taken(s, &states));
            let distance = (ours - rusts).abs();
            let told = || format!("{}: {ours:?}, the original {rusts:?}, {distance:e} apart; by its formula with Climboat's logarithm {explained:?}", written(&states));
            tally.check(bar.is_none_or(|bar| distance <= bar) && same(ours, explained), told);
            row.compared += 1;
            row.others += u64::from(!same(ours, rusts));
            if distance > row.distance {
                (row.distance, row.at) = (distance, states);
            }
        }
        row
    }

    /// Its line of the table.
    fn told(&self) -> String {
        let Row { what, bar, compared, others, distance, at } = self;
        let bar = bar.map_or(String::from("none"), |bar| format!("{bar:.1e}"));
        let counts = format!("| {what} | {bar} | {} | {} |", grouped(*compared), grouped(*others));
        let steps = at.iter().flat_map(|&state| steps(state));
        match steps.max_by(|a, b| a.wider.total_cmp(&b.wider)) {
            None => format!("{counts} 0 | - | - | - |\n"),
            Some(widest) => {
                let logarithms = RGAS_WATER * taken(|p, _| climboat::ln(p) - p.ln(), at).abs();
                let logarithms = if logarithms == 0.0 { String::from("0") } else { format!("{logarithms:.2e}") };
                format!("{counts} {distance:.2e} | {} | {logarithms} | {} |\n", written(at), widest.told())
            }
        }
    }

    /// How the two part at the farthest of its states, from the logarithm on; a difference has two such ways, and they are not told.
    fn tell_way(&self) {
        if let &[state] = &self.at[..] {
            let steps = steps(state);
            let largest = steps.iter().max_by(|a, b| a.result.abs().total_cmp(&b.result.abs())).expect("a step");
            let way: Vec<String> = steps.iter().filter(|step| step.wider != 0.0).map(|step| format!("{:.2e} at {}", step.apart, step.told())).collect();
            println!("entropy: {}, at {}: apart, in kJ/(kg K) of s, by {}; the largest number on the way is {}", self.what, written(&self.at), way.join(", by "), largest.told());
        }
    }
}

/// A result that has the logarithm in it, how far apart the two are there, as kJ/(kg K) of s, and how much farther than at the step before.
struct Step {
    operation: &'static str,
    result: f64,
    apart: f64,
    wider: f64,
}

impl Step {
    fn told(&self) -> String {
        let last_place = self.result.abs().next_up() - self.result.abs();
        format!("`{}` = {:.2}, last place {last_place:.2e}", self.operation, self.result)
    }
}

fn steps(state: State) -> Vec<Step> {
    let (p, t) = state;
    let [ours, rusts] = [climboat::ln(p), p.ln()].map(|logarithm| results(logarithm, state));
    let ends_in = |list: &[(&str, f64, f64)], s: f64| list.last().is_some_and(|&(.., last)| same(last, s));
    assert!(ends_in(&ours, climboat::region2_s(p, t)) && ends_in(&rusts, rusts::pT2s_reg2(p, t)), "the formula below is not the one that is compared");
    let mut steps: Vec<Step> = Vec::new();
    for ((operation, share, ours), (.., result)) in ours.into_iter().zip(rusts) {
        let apart = share * (ours - result).abs();
        let wider = apart - steps.last().map_or(0.0, |before| before.apart);
        steps.push(Step { operation, result, apart, wider });
    }
    steps
}

/// The Rust's formula from the logarithm on: each operation that has it in it, how much of s one of its result is, and the result.
fn results(logarithm: f64, (p, t): State) -> Vec<(&'static str, f64, f64)> {
    let tau = r2Tstar / t;
    let (mut gamma0, mut gamma0_tau) = (logarithm, 0.0);
    let mut list = vec![("pi.ln()", RGAS_WATER, gamma0)];
    for (n, j) in n0.into_iter().zip(J0) {
        let gamma0_item = n * tau.powi(j);
        gamma0 += gamma0_item;
        gamma0_tau += gamma0_item * f64::from(j);
        list.push(("gamma0 += gamma0_item", RGAS_WATER, gamma0));
    }
    gamma0_tau /= tau;
    let (gammar, gammar_tau) = polys_0_j_powi_reg2(p, tau);
    let gamma = gamma0 + gammar;
    let difference = tau * (gamma0_tau + gammar_tau) - gamma;
    list.push(("gamma0 + gammar", RGAS_WATER, gamma));
    list.push(("tau * (..) - (gamma0 + gammar)", RGAS_WATER, difference));
    list.push(("RGAS_WATER * (..)", 1.0, RGAS_WATER * difference));
    list
}

fn written(states: &[State]) -> String {
    match *states {
        [(p, t), (other, same)] if t == same => format!("T = {t:?}, p = {p:?} and {other:?}"),
        [(p, t), (_, other)] => format!("p = {p:?}, T = {t:?} and {other:?}"),
        _ => states.iter().map(|(p, t)| format!("p = {p:?}, T = {t:?}")).collect(),
    }
}
