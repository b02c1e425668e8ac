//! The eleven pair searches against the original crate: how many answers differ, how far and why, each kind with the input that is shortest to write.
//! What an answer is held to is the original's own property, and of region 5, where that has another order of operations, the test copy's.

use crate::climboat::{self, Pair, Record, EXACT_END, LARGEST_LIMIT, NARROW, SMALL_RESIDUAL};
use crate::draw::{same, Draw};
use crate::pairs::{Search, LIMIT, SEARCHES};
use std::collections::BTreeMap;
use std::ops::RangeInclusive;
use std::panic;

/// How near to an end of its interval a state lies where rounding may lose the answer of one alone: Climboat's T_saturation lies within 1.0e-9 of the original's, its region 2 s within 1.0e-12 (`compare equations`).
const AT_END: f64 = 1.0e-9;

/// Below which the original's bisections stop as narrow, all of them.
pub const CRATES_WIDTH: f64 = 1.0e-6;

/// From which on the original searches region 5, and the step at which its secants stop there.
const CRATES_LEAST: f64 = 0.000611212677444;
const SECANT_STEP: f64 = 1.0e-8;

const SAME: &str = "the same double";
const UNEXPLAINED: &str = "UNEXPLAINED";

/// Every pair; whether every difference was explained.
pub fn compare() -> bool {
    // the original panics where the ends have residuals of one sign: that is counted, and not printed each time
    panic::set_hook(Box::new(|_| {}));
    let good = SEARCHES.iter().zip(0x0c1b_0a70_0000_0021..).fold(true, |good, (search, seed)| differ(search, seed) & good);
    let _ = panic::take_hook();
    good
}

/// At the drawn states that lie inside the region; the round inputs give examples alone.
fn differ(search: &Search, seed: u64) -> bool {
    let (mut kinds, mut elsewhere) = (BTreeMap::new(), Kind::default());
    for input in round(search) {
        search.meet(&input, false, &mut kinds, &mut elsewhere);
    }
    let states = search.states(&mut Draw::new(seed)).into_iter().filter(|&(fixed, x)| search.inside(search.state(fixed, x)));
    for (fixed, x) in states {
        search.meet(&Input { fixed, target: search.at(fixed, x), of: Some(x) }, true, &mut kinds, &mut elsewhere);
    }
    let states: u64 = kinds.values().map(|kind| kind.met).sum();
    println!("{}: {states} states against the original, each also under the limits {LARGEST_LIMIT} and {}", search.name, LARGEST_LIMIT + 1);
    for (name, kind) in &kinds {
        println!("  {name}: {}", kind.told(name == SAME));
    }
    if elsewhere.met > 0 {
        println!("  of all answers, at another root than the state: {}", elsewhere.told(false));
    }
    !kinds.contains_key(UNEXPLAINED)
}

/// Inputs that are short to write, in the ranges and beyond them: with targets of their own, with those of a short state, and with those at an end.
fn round(search: &Search) -> Vec<Input> {
    let mut pressures = decades(1..=9, -9, 2);
    pressures.extend([0.000611212677444, 16.5291643]);
    let temperatures = round_temperatures(search.region);
    let targets: Vec<f64> = match search.pair {
        Pair::Pv | Pair::Tv => [decades(1..=9, -4, 7), vec![0.0, 5.0e-324]].concat(),
        Pair::Th => (-10..=if search.region == 5 { 75 } else { 50 }).map(|n| 100.0 * f64::from(n)).chain((1..=9).map(f64::from)).collect(),
        Pair::Ts => (-4..=if search.region == 5 { 40 } else { 26 }).map(|n| 0.5 * f64::from(n)).collect(),
    };
    let (fixed, points) = if search.seeks_t() { (pressures, temperatures) } else { (temperatures, pressures) };
    let at_ends = match (search.seeks_t(), search.region) {
        (true, _) => decades(10..=99, -9, 1),
        (false, 5) => (1074..=2273).map(f64::from).collect(),
        (false, _) => (273..=1073).map(f64::from).collect(),
    };
    let mut inputs = Vec::new();
    for &fixed in &fixed {
        inputs.extend(targets.iter().map(|&target| Input { fixed, target, of: None }));
        inputs.extend(points.iter().map(|&x| Input { fixed, target: search.at(fixed, x), of: Some(x) }));
    }
    for fixed in fixed.into_iter().chain(at_ends) {
        let (low, high) = (search.ends)(fixed);
        // where it is an end of (p,v), Climboat's is another double than the original's
        let saturation = climboat::saturation_temperature(fixed);
        let ends = if search.seeks_t() { vec![low, high, saturation] } else { vec![low, high] };
        inputs.extend(ends.into_iter().map(|x| Input { fixed, target: search.at(fixed, x), of: Some(x) }));
    }
    inputs.retain(|input| input.of.is_none_or(|x| search.inside(search.state(input.fixed, x))));
    inputs
}

fn round_temperatures(region: u32) -> Vec<f64> {
    let (whole, edges): (Vec<i32>, &[f64]) = match region {
        5 => ((10..=23).map(|n| 100 * n).collect(), &[1073.15, 2273.15]),
        _ => ((270..=282).chain((3..=11).map(|n| 100 * n)).collect(), &[273.15, 623.15, 863.15, 1073.15]),
    };
    whole.into_iter().map(f64::from).chain(edges.iter().copied()).collect()
}

/// The doubles of so many digits, from one power of ten to another.
fn decades(digits: RangeInclusive<u32>, from: i32, to: i32) -> Vec<f64> {
    (from..=to).flat_map(|k| digits.clone().map(move |m| format!("{m}e{k}").parse().unwrap())).collect()
}

/// The inputs of a search, and the point that the target was computed at.
struct Input {
    fixed: f64,
    target: f64,
    of: Option<f64>,
}

/// How often a kind of difference was met, how far apart the two answers were at most, and the inputs that are shortest to write.
#[derive(Default)]
struct Kind {
    met: u64,
    distance: f64,
    relative: f64,
    inputs: String,
    answers: String,
}

impl Kind {
    fn meet(&mut self, counted: bool, ours: Record, answer: Option<f64>, target: f64, inputs: &str) {
        self.met += u64::from(counted);
        if let (0, Some(y)) = (ours.number, answer) {
            self.distance = self.distance.max((ours.value - y).abs());
            self.relative = self.relative.max((ours.value - y).abs() / y.abs());
        }
        if self.inputs.is_empty() || inputs.len() < self.inputs.len() {
            let theirs = answer.map_or(String::from("a panic"), |y| format!("{y:?}"));
            let number = if ours.number == 0 { String::new() } else { format!("refusal {}, ", ours.number) };
            self.answers = format!("target {target:?}, {number}value {:?}, the original {theirs}", ours.value);
            self.inputs = inputs.into();
        }
    }

    fn told(&self, plain: bool) -> String {
        let mut line = if self.met > 0 { self.met.to_string() } else { String::from("round inputs alone") };
        if self.distance > 0.0 {
            line += &format!(", at most {:.1e} apart, {:.1e} in proportion", self.distance, self.relative);
        }
        if !plain {
            line += &format!("; {}: {}", self.inputs, self.answers);
        }
        line
    }
}

impl Search {
    fn meet(&self, input: &Input, counted: bool, kinds: &mut BTreeMap<String, Kind>, elsewhere: &mut Kind) {
        let ours = self.ours(input.fixed, input.target, LIMIT);
        let answer = panic::catch_unwind(|| (self.rusts)(input.fixed, input.target)).ok();
        let inputs = self.written(input);
        let kind = kinds.entry(self.kind(input, ours, answer)).or_default();
        kind.meet(counted, ours, answer, input.target, &inputs);
        if ours.number == 0 && input.of.is_some_and(|x| (ours.value - x).abs() > 1.0e-3 * x + self.our_reach(&ours)) {
            elsewhere.meet(counted, ours, answer, input.target, &inputs);
        }
    }

    fn written(&self, input: &Input) -> String {
        let (fixed, sought, target) = match self.pair {
            Pair::Pv => ("p", "T", "v"),
            Pair::Tv => ("T", "p", "v"),
            Pair::Th => ("T", "p", "h"),
            Pair::Ts => ("T", "p", "s"),
        };
        let (low, high) = (self.ends)(input.fixed);
        match input.of {
            Some(x) if x == low => format!("{fixed} = {:?}, {target} at the lower end", input.fixed),
            Some(x) if x == high => format!("{fixed} = {:?}, {target} at the upper end", input.fixed),
            Some(x) => format!("{fixed} = {:?}, {target} at {sought} = {x:?}", input.fixed),
            None => format!("{fixed} = {:?}, {target} = {:?}", input.fixed, input.target),
        }
    }

    /// What an outcome and the original's answer, none where it panics, are to each other; unexplained if the outcome does not say what it is of, is another one under the largest limit, or is searched under a larger one.
    fn kind(&self, input: &Input, ours: Record, answer: Option<f64>) -> String {
        let (low, high) = (self.ends)(input.fixed);
        let from = if low == -9999.0 || high == -9999.0 { " with -9999 as an end" } else { "" };
        match (ours.number, answer) {
            _ if !self.says_what(input.fixed, input.target, &ours) || !self.stays(input.fixed, input.target, &ours) => UNEXPLAINED.into(),
            (0, Some(y)) => self.both(input, ours, y).into(),
            (0, None) if self.at_end(input.fixed, input.of.unwrap_or(ours.value)) => "answered, the original panics: at an end".into(),
            (0, None) if self.below_the_crates(&ours) => "answered, the original panics: below its own lower end".into(),
            (7, None) if input.of.is_some_and(|x| self.at_end(input.fixed, x)) => "refused by 7, the original panics: at an end".into(),
            (7, None) if input.of.is_some() => "refused by 7 though a state has the target, the original panics".into(),
            (number @ 1..=7, None) => format!("refused by {number}, the original panics{from}"),
            (number @ 1..=7, Some(y)) if y == -9999.0 || !y.is_finite() => format!("refused by {number}, the original gives -9999 or no finite value"),
            (number @ 1..=4, Some(_)) => format!("refused by {number}, the original answers{from}"),
            (5, Some(_)) if high - low <= AT_END => "refused by 5, the original answers".into(),
            (6, Some(_)) if [ours.lower, ours.upper].iter().any(|&x| !self.residual(input.fixed, input.target, x).is_finite()) => "refused by 6, the original answers".into(),
            (7, Some(y)) if self.at_end(input.fixed, input.of.unwrap_or(y)) => "refused by 7, the original answers: at an end".into(),
            (7, Some(_)) if self.by_secants() && input.of.is_none() => "refused by 7, the original's secants answer".into(),
            _ => UNEXPLAINED.into(),
        }
    }

    /// The kind of two answers. Ours must satisfy the reason that it gives.
    fn both(&self, input: &Input, ours: Record, y: f64) -> &'static str {
        let x = ours.value;
        let (reach, theirs) = (self.our_reach(&ours), self.their_reach(y));
        if !self.stopped(input, x, ours.reason, reach) {
            UNEXPLAINED
        } else if same(x, y) {
            SAME
        } else if (x - y).abs() <= reach + theirs {
            "no farther apart than both stops allow"
        } else if self.below_the_crates(&ours) {
            "below the original's own lower end"
        } else if self.small(input, y) && self.small(input, 0.5 * (x + y)) {
            "judged by residual: both in one band of small residuals"
        } else if ours.reason != EXACT_END {
            UNEXPLAINED
        } else if self.small(input, y) || self.stopped(input, y, NARROW, theirs) {
            "judged by residual: ours at an end, the original's at a second root"
        } else if self.bisection() && x == (self.ends)(input.fixed).0 {
            "judged by residual: ours at the lower end, the original's no root"
        } else {
            UNEXPLAINED
        }
    }

    fn at_end(&self, fixed: f64, x: f64) -> bool {
        let (low, high) = (self.ends)(fixed);
        let near = AT_END * x.min(1.0);
        (x - low).abs() <= near || (x - high).abs() <= near
    }

    /// Whether an outcome under the original's limit gives back what was asked, and at each end of its bracket the original's own residual, or one as near as Climboat's property comes: 0 for 6 where that is not finite, and 0 without a bracket.
    pub fn says_what(&self, fixed: f64, target: f64, ours: &Record) -> bool {
        let near = |end: f64, given: f64| match self.residual(fixed, target, end) {
            _ if !ours.has_bracket() => given == 0.0,
            residual if ours.number == 6 && !residual.is_finite() => given == 0.0,
            residual => (given - residual).abs() <= self.apart(),
        };
        let ends = near(ours.lower, ours.lower_residual) && near(ours.upper, ours.upper_residual);
        ends && self.question(fixed, target, LIMIT).with(*ours).same(ours)
    }

    /// How far Climboat's property may lie from the original's: the bar of `compare equations`.
    fn apart(&self) -> f64 {
        if self.region == 2 && self.pair == Pair::Ts {
            1.0e-12
        } else {
            0.0
        }
    }

    /// How far from a narrow answer its root can lie: half of bisection's width, and both ends of Brent's bracket.
    fn reach(&self, x: f64, width: f64) -> f64 {
        if self.bisection() {
            0.5 * width
        } else {
            2.0 * (2.0 * 3.0e-8 * x.abs() + 0.5e-8)
        }
    }

    /// Whether the original looks for it in region 5 by secants, which keep no bracket; it has (T,v) by bisection.
    fn by_secants(&self) -> bool {
        self.region == 5 && self.pair != Pair::Tv
    }

    /// Whether ours lies where the original does not search region 5, or within its stop of there.
    fn below_the_crates(&self, ours: &Record) -> bool {
        self.region == 5 && ours.value < CRATES_LEAST + CRATES_WIDTH
    }

    /// Of the original's answer: as ours, but for region 5, where it searches in other ways.
    fn their_reach(&self, y: f64) -> f64 {
        match self.region {
            5 if self.by_secants() => SECANT_STEP,
            5 => 0.5 * CRATES_WIDTH,
            _ => self.reach(y, CRATES_WIDTH),
        }
    }

    /// Ours, by its own narrow rule; none for an exact end.
    fn our_reach(&self, ours: &Record) -> f64 {
        match ours.reason {
            EXACT_END => 0.0,
            _ => self.reach(ours.value, self.width.map_or(0.0, |width| width(ours.upper))),
        }
    }

    fn small(&self, input: &Input, x: f64) -> bool {
        self.stopped(input, x, SMALL_RESIDUAL, 0.0)
    }

    /// Whether the search may stop at x for the reason, by the original's own property. Narrow: the residual changes its sign within reach.
    fn stopped(&self, input: &Input, x: f64, reason: u32, reach: f64) -> bool {
        let (low, high) = (self.ends)(input.fixed);
        let at = self.residual(input.fixed, input.target, x);
        let zero = at.abs() <= self.apart();
        let changes = |z: f64| {
            let there = self.residual(input.fixed, input.target, z.clamp(low, high));
            at * there <= 0.0 || zero || there.abs() <= self.apart()
        };
        match reason {
            SMALL_RESIDUAL if self.bisection() => at.abs() < 1.0e-8,
            EXACT_END | SMALL_RESIDUAL => zero,
            NARROW => changes(x - reach) || changes(x + reach),
            _ => false,
        }
    }
}
