//! Timings against the original crate's and Rust's own, of the public calls against the formulas in them, and of logs against single calls, as ratios from one run: medians of nine passes.

use crate::bars::{self, Bars, TimeBar};
use crate::by_log::LONGEST_LOG;
use crate::climboat::{self, Line, Pair, VESSELS_LIMIT};
use crate::draw::Draw;
#[cfg(feature = "original")]
use crate::pairs::{Search, LIMIT, SEARCHES};
use crate::question::{PV_REGIONS, REGIONS};
use std::cell::RefCell;
use std::hint::black_box;
use std::time::Instant;

/// One go over the inputs. It stays a call of its own, so that a short one is the same code as a long one.
#[inline(never)]
fn go<T>(inputs: &[T], f: &mut impl FnMut(&T) -> f64) {
    for x in inputs {
        black_box(f(black_box(x)));
    }
}

/// Nanoseconds for an input, of one pass over all of them in goes of so many, one behind the other.
pub fn pass_in_goes<T>(inputs: &[T], calls: usize, mut f: impl FnMut(&T) -> f64) -> f64 {
    let start = Instant::now();
    for part in inputs.chunks(calls) {
        go(part, &mut f);
    }
    start.elapsed().as_nanos() as f64 / inputs.len() as f64
}

/// The same in one go.
pub fn pass<T>(inputs: &[T], f: impl FnMut(&T) -> f64) -> f64 {
    pass_in_goes(inputs, usize::MAX, f)
}

/// The median of nine passes of each, taken in turn, so that a drift of the machine's clock meets all alike.
pub fn medians<const N: usize>(mut passes: [&mut dyn FnMut() -> f64; N]) -> [f64; N] {
    let mut times = [[0.0; 9]; N];
    for turn in 0..9 {
        for (times, pass) in times.iter_mut().zip(&mut passes) {
            times[turn] = pass();
        }
    }
    times.map(|mut nine| {
        nine.sort_by(f64::total_cmp);
        nine[4]
    })
}

/// A row of two ways over the same inputs, up to its ratio, and the ratio.
fn ratio<T>(what: &str, inputs: &[T], mut ours: impl FnMut(&T) -> f64, mut theirs: impl FnMut(&T) -> f64) -> (String, f64) {
    let [a, b] = medians([&mut || pass(inputs, &mut ours), &mut || pass(inputs, &mut theirs)]);
    (format!("| {what} | {a:.1} ns | {b:.1} ns | {:.2} |", a / b), a / b)
}

fn row<T>(what: &str, inputs: &[T], ours: impl FnMut(&T) -> f64, theirs: impl FnMut(&T) -> f64) {
    println!("{}", ratio(what, inputs, ours, theirs).0);
}

fn head(what: &str, theirs: &str) {
    println!("| {what} | Climboat | {theirs} | ratio |");
    println!("|---|---|---|---|");
}

/// A row with its bar and goal.
fn barred<T>(bars: &mut Bars, bar: Option<TimeBar>, what: &str, inputs: &[T], ours: impl FnMut(&T) -> f64, theirs: impl FnMut(&T) -> f64) -> String {
    let (row, ratio) = ratio(what, inputs, ours, theirs);
    row + &bars.hold(what, ratio, bar)
}

fn barred_head(what: &str, theirs: &str) {
    println!("| {what} | Climboat | {theirs} | ratio | bar | goal |");
    println!("|---|---|---|---|---|---|");
}

#[cfg(feature = "original")]
const TABLES: &[fn(&mut Bars)] = &[asked, |_| crate::door::table(), helpers, |_| calls(), logs, properties, saturation_line, searches, |_| crate::bound::tables(), |_| crate::many::table()];
#[cfg(not(feature = "original"))]
const TABLES: &[fn(&mut Bars)] = &[helpers, |_| calls(), logs];

/// Prints every table, and gives the bars that their rows were held against.
pub fn tables() -> Bars {
    let mut bars = Bars::default();
    for (place, table) in TABLES.iter().enumerate() {
        if place > 0 {
            println!();
        }
        table(&mut bars);
    }
    bars
}

/// Each a pressure and a temperature inside the region.
type States = Vec<(f64, f64)>;

/// The place of a region among those that are timed.
pub fn place(region: u32) -> usize {
    REGIONS.iter().position(|&named| named == region).expect("a region")
}

/// 20,000 states of each region.
pub fn states() -> [States; 3] {
    let mut draw = Draw::new(0x0c1b_0a70_0000_0006);
    let one = (0..20_000).map(|_| (draw.between(20.0, 100.0), draw.between(273.15, 623.15))).collect();
    let two = (0..20_000).map(|_| (draw.logarithmic(1.0e-8, 0.0006), draw.between(273.15, 1073.15))).collect();
    let five = (0..20_000).map(|_| (draw.logarithmic(1.0e-8, 50.0), draw.between(1073.15, 2273.15))).collect();
    [one, two, five]
}

/// A million states at which Climboat answers in region 1.
#[cfg(feature = "original")]
fn million(drawn: impl FnMut(u64) -> (f64, f64)) -> States {
    (0..).map(drawn).filter(|&(p, t)| climboat::property(1, 1, p, t).number == 0).take(1_000_000).collect()
}

/// Those inside region 1, uniform in p and logarithmic in turn.
#[cfg(feature = "original")]
pub fn inside_region_1() -> States {
    let mut draw = Draw::new(0x0c1b_0a70_0000_000a);
    million(|n| crate::equations::region_1(&mut draw, n % 2))
}

/// 20,000 temperatures and pressures of the saturation line.
fn saturated() -> [Vec<f64>; 2] {
    let mut draw = Draw::new(0x0c1b_0a70_0000_0007);
    [(0..20_000).map(|_| draw.between(273.15, 647.0)).collect(), (0..20_000).map(|_| draw.logarithmic(0.00062, 22.0)).collect()]
}

/// What document 02 asks, the public checked call against the original's formula, which checks nothing. Just above the saturation line a quick bound cannot tell the region, and the exact line is asked.
#[cfg(feature = "original")]
fn asked(bars: &mut Bars) {
    use original::{r1::region1_pT::pT2v_reg1, r4::region4_sat_pT::p_saturation};
    let mut draw = Draw::new(0x0c1b_0a70_0000_000b);
    let near = million(|_| {
        let t = draw.between(273.15, 623.15);
        (p_saturation(t) * draw.between(1.0, 1.004), t)
    });
    let mut row = |bar, what: &str, states: States| barred(bars, bar, what, &states, |s| climboat::property(1, 1, s.0, s.1).value, |s| pT2v_reg1(s.0, s.1));
    println!("| against the original, what was asked | Climboat | original | ratio | bar | goal | asked |");
    println!("|---|---|---|---|---|---|---|");
    println!("{} {:.1} |", row(Some(bars::CHECKED_CALL), "region 1 (p,T) to v by the public checked call, 1,000,000 states inside the region", inside_region_1()), bars::ASKED);
    println!("{} - |", row(None, "the same within 0.4 parts in 100 above the saturation line, 1,000,000 states", near));
}

/// The nine public calls, against the one formula that they are of: what the checks and the record cost, and how many evaluations a search is worth.
fn calls() {
    head("public call", "formula alone");
    let states = states();
    for (region, property, name, formula) in PROPERTIES {
        let states = &states[place(region)];
        row(&format!("region {region} (p,T) to {name}"), states, |s| climboat::property(region, property, s.0, s.1).value, |s| formula(s.0, s.1));
    }
    let [temperatures, pressures] = saturated();
    let mut draw = Draw::new(0x0c1b_0a70_0000_0009);
    let b23_temperatures: Vec<f64> = (0..20_000).map(|_| draw.between(623.15, 863.15)).collect();
    let b23_pressures: Vec<f64> = (0..20_000).map(|_| draw.between(16.6, 100.0)).collect();
    row("saturation pressure", &temperatures, |&t| climboat::line(Line::SaturationPressure, t).value, |&t| climboat::saturation_pressure(t));
    row("saturation temperature", &pressures, |&p| climboat::line(Line::SaturationTemperature, p).value, |&p| climboat::saturation_temperature(p));
    row("B23 pressure", &b23_temperatures, |&t| climboat::line(Line::B23Pressure, t).value, |&t| climboat::b23_pressure(t));
    row("B23 temperature", &b23_pressures, |&p| climboat::line(Line::B23Temperature, p).value, |&p| climboat::b23_temperature(p));
    for (pair, name) in [(Pair::Pv, "(p,v) to T"), (Pair::Tv, "(T,v) to p"), (Pair::Th, "(T,h) to p"), (Pair::Ts, "(T,s) to p")] {
        let regions: &[u32] = if pair == Pair::Pv { &PV_REGIONS } else { &REGIONS };
        for &region in regions {
            search(pair, region, &format!("region {region} {name}"), &states[place(region)][..2_000]);
        }
    }
}

/// Region, property, its name and its formula; the searches are of v, h and s.
const PROPERTIES: [(u32, u32, &str, fn(f64, f64) -> f64); 12] = [
    (1, 1, "v", climboat::region1_v),
    (1, 3, "s", climboat::region1_s),
    (1, 4, "h", climboat::region1_h),
    (1, 7, "w", climboat::region1_w),
    (2, 1, "v", climboat::region2_v),
    (2, 3, "s", climboat::region2_s),
    (2, 4, "h", climboat::region2_h),
    (2, 7, "w", climboat::region2_w),
    (5, 1, "v", climboat::region5_v),
    (5, 3, "s", climboat::region5_s),
    (5, 4, "h", climboat::region5_h),
    (5, 7, "w", climboat::region5_w),
];

/// Logs of the same states in a pass, so that it takes some tens of milliseconds.
const LOGS: [(); 200] = [(); 200];

/// One call over the longest log, against single calls that put their value and number into the same two runs; also where every place is refused.
fn logs(bars: &mut Bars) {
    println!("| log of 4,096 places | per place | single call | ratio | bar |");
    println!("|---|---|---|---|---|");
    let states = states();
    for (region, property, name, _) in PROPERTIES {
        log(bars, &format!("region {region} {name}"), (region, property), &states[place(region)][..LONGEST_LOG], 0);
    }
    let mut draw = Draw::new(0x0c1b_0a70_0000_000e);
    let steam: States = (0..LONGEST_LOG).map(|_| (draw.logarithmic(1.0e-8, 0.0006), draw.between(273.15, 623.15))).collect();
    let no_number: States = steam.iter().map(|&(_, t)| (f64::NAN, t)).collect();
    log(bars, "region 1 v, every place refused by 3", (1, 1), &steam, 3);
    log(bars, "region 1 v, every place refused by 1", (1, 1), &no_number, 1);
}

/// A row of the logs, over states at all of which the single call gives this number.
fn log(bars: &mut Bars, what: &str, (region, property): (u32, u32), states: &[(f64, f64)], number: u32) {
    assert!(states.iter().all(|&(p, t)| climboat::property(region, property, p, t).number == number), "{what}: a state with another number than {number}");
    let (p, t): (Vec<f64>, Vec<f64>) = states.iter().copied().unzip();
    let runs = RefCell::new((vec![0.0; states.len()], vec![0; states.len()]));
    let logged = |_: &()| {
        let (values, numbers) = &mut *runs.borrow_mut();
        f64::from(climboat::log(region, property, &p, &t, values, numbers))
    };
    assert!(logged(&()) == 0.0, "{what}: a log that is not filled");
    let one_by_one = |_: &()| {
        let (values, numbers) = &mut *runs.borrow_mut();
        for (place, (&p, &t)) in p.iter().zip(&t).enumerate() {
            (numbers[place], values[place]) = climboat::number_and_value(region, property, p, t);
        }
        0.0
    };
    let places = states.len() as f64;
    let [of_log, of_single] = medians([&mut || pass(&LOGS, logged), &mut || pass(&LOGS, one_by_one)]).map(|time| time / places);
    let ratio = of_log / of_single;
    println!("| {what} | {of_log:.1} ns | {of_single:.1} ns | {ratio:.2} |{}", bars.keep(&format!("log of 4,096 places, {what}"), ratio, bars::LOG));
}

/// A row of the searches, over those of the states that they find.
fn search(pair: Pair, region: u32, name: &str, states: &[(f64, f64)]) {
    let sought = match pair {
        Pair::Pv | Pair::Tv => "v",
        Pair::Th => "h",
        Pair::Ts => "s",
    };
    let (.., formula) = PROPERTIES.into_iter().find(|&(of, _, property, _)| of == region && property == sought).expect("v, h or s");
    let ours = |p: f64, t: f64, target: f64| climboat::search(pair, region, if pair == Pair::Pv { p } else { t }, target, VESSELS_LIMIT);
    let mut inputs: Vec<(f64, f64, f64)> = states.iter().map(|&(p, t)| (p, t, formula(p, t))).collect();
    inputs.retain(|&(p, t, target)| ours(p, t, target).number == 0);
    row(name, &inputs, |&(p, t, target)| ours(p, t, target).value, |&(p, t, _)| formula(p, t));
}

/// The twenty-one properties.
#[cfg(feature = "original")]
fn properties(bars: &mut Bars) {
    use crate::equations::{REGION_1, REGION_2, REGION_5};
    barred_head("property", "original");
    for (rows, states) in [&REGION_1, &REGION_2, &REGION_5].into_iter().zip(states()) {
        for r in rows {
            println!("{}", barred(bars, r.time, r.name, &states, |s| (r.ours)(s.0, s.1), |s| (r.rusts)(s.0, s.1)));
        }
    }
}

#[cfg(feature = "original")]
fn saturation_line(bars: &mut Bars) {
    use original::r4::region4_sat_pT::{T_saturation, p_saturation};
    let [temperatures, pressures] = saturated();
    let bar = Some(bars::SATURATION);
    barred_head("saturation line", "original");
    println!("{}", barred(bars, bar, "saturation pressure", &temperatures, |&t| climboat::saturation_pressure(t), |&t| p_saturation(t)));
    println!("{}", barred(bars, bar, "saturation temperature", &pressures, |&p| climboat::saturation_temperature(p), |&p| T_saturation(p)));
}

/// Fixed inputs and targets: of 2,000 states those at which both answer.
#[cfg(feature = "original")]
pub fn searched(search: &Search) -> Vec<(f64, f64)> {
    let mut draw = Draw::new(0x0c1b_0a70_0000_0008);
    let drawn = (0..2_000).map(|n| search.drawn(&mut draw, n % 2));
    let mut inputs: Vec<(f64, f64)> = drawn.map(|(fixed, x)| (fixed, search.at(fixed, x))).collect();
    // the original panics where the ends have residuals of one sign
    std::panic::set_hook(Box::new(|_| {}));
    inputs.retain(|&(fixed, target)| search.ours(fixed, target, LIMIT).number == 0 && std::panic::catch_unwind(|| (search.rusts)(fixed, target)).is_ok());
    let _ = std::panic::take_hook();
    inputs
}

/// The eleven searches. The original's of region 5 are bisection and secants, so they have no bar.
#[cfg(feature = "original")]
fn searches(bars: &mut Bars) {
    barred_head("search", "original");
    for search in &SEARCHES {
        println!("{}", barred(bars, search.time, search.name, &searched(search), |i| search.ours(i.0, i.1, LIMIT).value, |i| (search.rusts)(i.0, i.1)));
    }
}

/// The function, given a zero to add to an input, for which the result before has to be known: how long one call takes, and not how many are under way at once.
pub fn in_turn<T>(f: impl Fn(&T, f64) -> f64) -> impl FnMut(&T) -> f64 {
    let mut last = 0.0;
    move |x| {
        last = f(x, 0.0 * last);
        last
    }
}

/// The powers, the roots and the logarithm; of the roots and the logarithm also each one waiting for the one before.
fn helpers(bars: &mut Bars) {
    let mut draw = Draw::new(0x0c1b_0a70_0000_0005);
    let powers: Vec<(f64, i32)> = (0..200_000).map(|_| (draw.between(0.01, 8.0), draw.below(102) as i32 - 43)).collect();
    let roots: Vec<f64> = (0..200_000).map(|_| draw.logarithmic(1.0e-8, 1.0e8)).collect();
    let logs: Vec<f64> = (0..200_000).map(|_| draw.logarithmic(1.0e-8, 101.0)).collect();
    let rows = [
        barred(bars, None, "whole power, exponents -43 to 58", &powers, |p| climboat::powi(p.0, p.1), |p| p.0.powi(p.1)),
        barred(bars, None, "square root", &roots, |&x| climboat::sqrt(x), |&x| x.sqrt()),
        barred(bars, None, "square root, each waiting for the one before", &roots, in_turn(|x, zero| climboat::sqrt(x + zero)), in_turn(|x, zero| (x + zero).sqrt())),
        barred(bars, None, "fourth root", &roots, |&x| climboat::fourth_root(x), |&x| x.sqrt().sqrt()),
        barred(bars, Some(bars::LOGARITHM), "logarithm", &logs, |&x| climboat::ln(x), |&x| x.ln()),
        barred(bars, None, "logarithm, each waiting for the one before", &logs, in_turn(|x, zero| climboat::ln(x + zero)), in_turn(|x, zero| (x + zero).ln())),
    ];
    barred_head("helper", "Rust");
    rows.iter().for_each(|row| println!("{row}"));
}
