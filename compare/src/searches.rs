//! The eleven pair searches against the test copy: every column of every answer, bit for bit, under limits up to the largest; and each outcome under the limits that its step count speaks of.

use crate::climboat::{Pair, Record, INSIDE, LARGEST_LIMIT, NARROW, OUTSIDE};
use crate::draw::Draw;
use crate::pairs::{Search, LIMIT, SEARCHES};
use crate::patience::{enough, Outcome, Turned};
use crate::tally::Tally;
use copy::run::Run;
use std::collections::BTreeMap;

/// Under each an input is searched, under one more, drawn from 3 to 60, and under the largest.
const LIMITS: [u32; 6] = [0, 1, 2, 5, 20, LIMIT];

/// Targets of every size, whatever the state.
const ANYWHERE: [f64; 14] = [0.0, -1.0, 1.0, -5.0e-324, 5.0e-324, 1.0e-310, -1.0e-310, 1.0e-300, -1.0e-8, 1.0e8, -1.0e8, 1.0e300, f64::MAX, f64::MIN];

/// Every pair; whether nothing differed.
pub fn compare() -> bool {
    SEARCHES.iter().zip(0x0c1b_0a70_0000_0021..).fold(true, |good, (search, seed)| hold(search, seed) & good)
}

/// The limits above what is enough have a draw of their own.
fn hold(search: &Search, seed: u64) -> bool {
    let (mut draw, mut above) = (Draw::new(seed), Draw::new(seed + 0x30));
    let inputs = inputs(search, &mut draw);
    let mut held = Held { search, tally: Tally::new(search.name), counts: Counts::default(), turned: Turned::default(), unsettled: 0 };
    for &(fixed, target) in &inputs {
        for limit in LIMITS.into_iter().chain([3 + draw.below(58) as u32]) {
            held.run(fixed, target, limit);
        }
        held.patience(&mut above, fixed, target);
    }
    held.told(inputs.len())
}

fn inputs(search: &Search, draw: &mut Draw) -> Vec<(f64, f64)> {
    let states = search.states(draw).into_iter().map(|(fixed, x)| (fixed, search.at(fixed, x)));
    let mut inputs: Vec<(f64, f64)> = states.collect();
    for n in 0..1_500 {
        let (fixed, _) = search.drawn(draw, n / 500);
        inputs.extend(targets(search, draw, fixed).map(|target| (fixed, target)));
    }
    // the test copy has no checks of its own
    inputs.retain(|&(fixed, target)| search.passes(fixed, target));
    let exact: Vec<(f64, f64)> = inputs.iter().flat_map(|&(fixed, target)| met_exactly(search, fixed, target)).collect();
    inputs.extend(exact);
    inputs
}

/// One search: what was compared, what it came to, what 8 turned into, and how often it was 8 even under the largest limit.
struct Held<'a> {
    search: &'a Search,
    tally: Tally,
    counts: Counts,
    turned: Turned,
    unsettled: u64,
}

impl Held<'_> {
    /// Climboat's outcome, which is to be the test copy's.
    fn run(&mut self, fixed: f64, target: f64, limit: u32) -> Outcome {
        let ours = Outcome::of(self.search.question(fixed, target, limit));
        let run = (self.search.copys)(fixed, target, limit as i32);
        let copys = ours.question.with(marked(self.search, fixed, run));
        self.tally.check(ours.record.same(&copys), || format!("{fixed:e}, {target:e}, limit {limit}: {:?}; the test copy {copys:?}", ours.record));
        self.counts.meet(run);
        ours
    }

    /// From the outcome under the largest limit: under the least that is enough for it, under one less, and under one above that is drawn. One that is too large is refused: of that the test copy knows nothing.
    fn patience(&mut self, above: &mut Draw, fixed: f64, target: f64) {
        let settled = self.run(fixed, target, LARGEST_LIMIT);
        let refused = Outcome::of(self.search.question(fixed, target, LARGEST_LIMIT + 1));
        self.tally.check(refused.stands(), || format!("{fixed:e}, {target:e}, limit {}: {:?}", LARGEST_LIMIT + 1, refused.record));
        let Some(least) = enough(&settled.record) else {
            self.unsettled += 1;
            return;
        };
        let more = LARGEST_LIMIT - above.below(u64::from(LARGEST_LIMIT.saturating_sub(least)).max(1)) as u32;
        for limit in [Some(least), least.checked_sub(1), Some(more)].into_iter().flatten() {
            let other = self.run(fixed, target, limit);
            let agree = self.turned.hold(&settled, &other);
            self.tally.check(agree, || format!("{fixed:e}, {target:e}, limit {limit}: {:?}; under {LARGEST_LIMIT} {:?}", other.record, settled.record));
        }
    }

    fn told(self, inputs: usize) -> bool {
        let limits = format!("the limits {LIMITS:?}, one from 3 to 60, {LARGEST_LIMIT}, the least that is enough, one less and one above, and under {}, which is refused by 11", LARGEST_LIMIT + 1);
        let patience = format!("under one less than enough {}, at 8 even under {LARGEST_LIMIT} {}", self.turned.told(), self.unsettled);
        self.tally.told(&format!(", bit for bit; {inputs} inputs under {limits}; {}; {patience}", self.counts.told()))
    }
}

/// Targets for an input that is fixed: past both ends of what is reached, in between, of every size, and on the cold side of the least volume.
fn targets(search: &Search, draw: &mut Draw, fixed: f64) -> impl Iterator<Item = f64> {
    let (low, high) = (search.ends)(fixed);
    let reached: Vec<f64> = (0..=32).map(|n| search.at(fixed, low + (high - low) * f64::from(n) / 32.0)).collect();
    let least = reached.iter().copied().fold(f64::INFINITY, f64::min);
    let most = reached.iter().copied().fold(f64::NEG_INFINITY, f64::max);
    let span = most - least;
    let past = [most + span, most + 1.0e-6 * span, 0.999 * least, least - 1.0e-6 * span, least - span];
    let between = [draw.between(least, most), draw.between(least, most)];
    let mut cold = Vec::new();
    if search.region == 1 && search.pair == Pair::Pv {
        let at = |n| search.at(fixed, 273.15 + 0.1 * f64::from(n));
        let least = (0..=100).map(at).fold(f64::INFINITY, f64::min);
        cold.extend([draw.between(least, at(0)), draw.between(least, at(0))]);
    }
    past.into_iter().chain(between).chain(cold).chain(ANYWHERE)
}

/// For Brent's search, targets at an end of a narrow answer's bracket that it meets exactly: a residual of zero, now and then in a bracket that is narrow too.
fn met_exactly(search: &Search, fixed: f64, target: f64) -> impl Iterator<Item = (f64, f64)> + '_ {
    let run = (search.copys)(fixed, target, LIMIT as i32);
    let ends = if run.reason == NARROW && !search.bisection() { vec![run.lower, run.upper] } else { Vec::new() };
    let targets = ends.into_iter().map(move |x| search.at(fixed, x));
    let met = targets.filter(move |&target| search.passes(fixed, target) && search.at(fixed, (search.copys)(fixed, target, LIMIT as i32).value) == target);
    met.map(move |target| (fixed, target))
}

/// With the mark, which the test copy has not, by the (p,T) rule.
fn marked(search: &Search, fixed: f64, run: Run) -> Record {
    let mark = match run.number {
        0 if search.inside(search.state(fixed, run.value)) => INSIDE,
        0 => OUTSIDE,
        _ => 0,
    };
    Record { mark, ..run.into() }
}

/// Answers by their reason, refusals by their number, and the largest number of steps.
#[derive(Default)]
struct Counts {
    reasons: [u64; 5],
    refused: BTreeMap<u32, u64>,
    steps: u32,
}

impl Counts {
    fn meet(&mut self, run: Run) {
        if run.number == 0 {
            self.reasons[run.reason as usize] += 1;
        } else {
            *self.refused.entry(run.number).or_default() += 1;
        }
        self.steps = self.steps.max(run.steps);
    }

    fn told(&self) -> String {
        let [_, _, exact_end, small_residual, narrow] = self.reasons;
        let refused: Vec<String> = self.refused.iter().map(|(number, n)| format!("{n} by {number}")).collect();
        let steps = self.steps;
        format!("{exact_end} exact ends, {small_residual} small residuals, {narrow} narrow; refused {}; at most {steps} steps", refused.join(", "))
    }
}
