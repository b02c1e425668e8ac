//! Any two doubles: pairs of random bit patterns and plausible pairs, each over every public call, against the second reading of the refusal table; and every search under a second limit, against what the step counts promise.

use crate::by_log::ByLog;
use crate::climboat::{Record, EXACT_END, INSIDE, NARROW, OUTSIDE, SMALL_RESIDUAL, VALUE};
use crate::draw::Draw;
use crate::patience::{Outcome, Turned};
use crate::plausible;
use crate::question::{Question, LINES, PAIRS, PROPERTIES, PV_REGIONS, REGIONS};
use copy::run::same_sign;
use std::thread;

/// Pairs of each kind if no number is given.
const HOW_MANY: u64 = 10_000_000;

/// Pairs from one seed, so that a shorter run is the beginning of a longer one and the threads do not matter.
const BLOCK: u64 = 10_000;

/// Seeds far apart: neighbouring ones begin alike.
const SPREAD: u64 = 0x9e37_79b9_7f4a_7c15;

const THREADS: u64 = 2;

/// The numbers of the table that a call gives.
const NUMBERS: [u32; 12] = [1, 2, 3, 4, 5, 6, 7, 8, 9, 10, 11, 21];

type Kind = fn(&mut Draw) -> (f64, f64);

const KINDS: [(&str, Kind); 2] = [
    ("random bit patterns", |draw| (f64::from_bits(draw.bits()), f64::from_bits(draw.bits()))),
    ("plausible pairs", plausible::pair),
];

/// `compare doubles`, with the number of pairs of each kind if it is given.
pub fn command(words: &[&str]) -> bool {
    let pairs = match words {
        [] => Some(HOW_MANY),
        [n] => n.parse().ok().filter(|&n| n > 0),
        _ => None,
    };
    if pairs.is_none() {
        eprintln!("usage: compare doubles [how many pairs of each kind]");
    }
    pairs.is_some_and(compare)
}

/// n pairs of each kind; whether nothing differed.
fn compare(n: u64) -> bool {
    let mut good = true;
    for ((name, kind), seed) in KINDS.iter().zip(0x0c1b_0a70_0000_0041u64..) {
        let counts = thread::scope(|scope| {
            let threads: Vec<_> = (0..THREADS).map(|first| scope.spawn(move || asked(*kind, seed, n, first))).collect();
            threads.into_iter().fold(Counts::new(), |counts, thread| counts.with(&thread.join().expect("a thread of doubles.rs")))
        });
        println!("{n} {name}, each over every call:");
        good &= counts.told();
    }
    good
}

/// The blocks of one thread.
fn asked(kind: Kind, seed: u64, n: u64, first: u64) -> Counts {
    let mut counts = Counts::new();
    for block in (first..n.div_ceil(BLOCK)).step_by(THREADS as usize) {
        let mut draw = Draw::new(seed ^ block.wrapping_mul(SPREAD));
        for _ in 0..BLOCK.min(n - block * BLOCK) {
            let (a, b) = kind(&mut draw);
            for question in questions(&mut draw, a, b) {
                let record = counts.meet(&question);
                if matches!(question, Question::Search(..)) {
                    let second = question.under(plausible::limit(&mut draw));
                    counts.hold(&Outcome { question, record }, &Outcome::of(second));
                }
            }
        }
    }
    counts.by_log.ask_rest();
    counts
}

/// Every call with one pair: the lines take each of the two, the searches a limit of their own.
fn questions(draw: &mut Draw, a: f64, b: f64) -> Vec<Question> {
    let mut list = Vec::new();
    for region in REGIONS {
        list.extend((1..=7).map(|property| Question::Property(region, property, a, b)));
        list.extend(PAIRS.map(|pair| Question::Search(pair, region, a, b, plausible::limit(draw))));
    }
    list.extend(LINES.into_iter().flat_map(|line| [a, b].map(|x| Question::Line(line, x))));
    let region = plausible::unknown(draw, &REGIONS);
    list.push(Question::Property(region, 1 + draw.below(7) as u32, a, b));
    let known = REGIONS[draw.below(3) as usize];
    list.push(Question::Property(known, plausible::unknown(draw, &PROPERTIES), a, b));
    list.extend(PAIRS.map(|pair| Question::Search(pair, region, a, b, plausible::limit(draw))));
    list
}

/// Whether what Climboat gives has the form of an answer or a refusal at all, whatever the second reading says.
fn formed(question: &Question, record: &Record) -> bool {
    let Record { number, reason, steps, mark, value, lower, upper, lower_residual, upper_residual, .. } = *record;
    let search = matches!(question, Question::Search(..));
    let columns = [value, lower, upper, lower_residual, upper_residual];
    let without_bracket = steps == 0 && columns[1..].iter().all(|x| x.to_bits() == 0);
    let in_bracket = search && lower < upper;
    let opposite = in_bracket && !same_sign(lower_residual, upper_residual);
    let form = match number {
        0 if reason == VALUE => !search && mark == 0 && without_bracket,
        0 => [EXACT_END, SMALL_RESIDUAL, NARROW].contains(&reason) && [INSIDE, OUTSIDE].contains(&mark) && opposite && lower <= value && value <= upper,
        6 => in_bracket && value.to_bits() == 0,
        10 => opposite && value.to_bits() == 0,
        8 => opposite && lower <= value && value <= upper,
        _ => NUMBERS.contains(&number) && without_bracket && value.to_bits() == 0,
    };
    form && says_what(question, record) && columns.into_iter().all(f64::is_finite) && (number == 0 || (reason == 0 && mark == 0))
}

/// Whether region, kind and property are numbers that a call can have, and the inputs have come back bit for bit, any NaN too.
fn says_what(question: &Question, record: &Record) -> bool {
    let Record { number, region, kind, property, first, second, .. } = *record;
    let inputs = [first, second].map(f64::to_bits) == question.inputs().map(f64::to_bits);
    let (regions, properties): (&[u32], &[u32]) = match kind {
        1 => (&REGIONS, &PROPERTIES),
        2..=5 => (&[0], &[0]),
        6 => (&PV_REGIONS, &[0]),
        7..=9 => (&REGIONS, &[0]),
        _ => return false,
    };
    // 21 alone may lack what its call names
    let named = |list: &[u32], n: u32| list.contains(&n) || (number == 21 && n == 0);
    inputs && kind == question.kind() && named(regions, region) && named(properties, property)
}

/// How often each call gave each outcome: a refusal at its number, an answer after them by its reason and mark.
struct Counts {
    met: [[u64; OUTCOMES]; ROWS],
    turned: Turned,
    differ: u64,
    by_log: ByLog,
}

/// For each kind a row where a number names nothing, and one for each region.
const OF_A_KIND: usize = 1 + REGIONS.len();
const ROWS: usize = 10 * OF_A_KIND;
const REFUSALS: usize = 22;
const OUTCOMES: usize = REFUSALS + 15;

fn row(question: &Question) -> usize {
    let asked = question.asked();
    let nothing_named = asked.kind == 1 && asked.property == 0;
    let region = REGIONS.iter().position(|&region| region == asked.region && !nothing_named);
    OF_A_KIND * asked.kind as usize + region.map_or(0, |place| 1 + place)
}

fn outcome(record: &Record) -> usize {
    match record.number {
        0 => REFUSALS + (3 * record.reason + record.mark) as usize,
        number => number as usize,
    }
}

impl Counts {
    fn new() -> Counts {
        Counts { met: [[0; OUTCOMES]; ROWS], turned: Turned::default(), differ: 0, by_log: ByLog::new("  (p,T) by the log") }
    }

    fn with(mut self, other: &Counts) -> Counts {
        for (here, there) in self.met.as_flattened_mut().iter_mut().zip(other.met.as_flattened()) {
            *here += there;
        }
        self.turned.with(&other.turned);
        self.differ += other.differ;
        self.by_log.add(&other.by_log);
        self
    }

    fn meet(&mut self, question: &Question) -> Record {
        let (ours, second) = (question.climboat(), question.table());
        if ours.same(&second) && formed(question, &ours) {
            self.met[row(question)][outcome(&ours)] += 1;
        } else {
            self.differs(|| format!("{}: {ours:?}; the second reading {second:?}", question.digits()));
        }
        self.by_log.ask(question, &second);
        ours
    }

    /// One search under two limits.
    fn hold(&mut self, one: &Outcome, other: &Outcome) {
        if !self.turned.hold(one, other) {
            self.differs(|| format!("{}: {:?}; under the limit {} {:?}", one.question.digits(), one.record, other.question.limit(), other.record));
        }
    }

    fn differs(&mut self, told: impl FnOnce() -> String) {
        self.differ += 1;
        if self.differ <= 5 {
            println!("  differs at {}", told());
        }
    }

    /// Prints what was met, and answers whether nothing differed.
    fn told(self) -> bool {
        for (row, met) in self.met.iter().enumerate().filter(|(_, met)| met.iter().any(|&n| n > 0)) {
            let call = ["", "(p,T)", "saturation pressure", "saturation temperature", "B23 pressure", "B23 temperature", "(p,v)", "(T,v)", "(T,h)", "(T,s)"][row / OF_A_KIND];
            let region = match (row / OF_A_KIND, row % OF_A_KIND) {
                (2..=5, _) => String::new(),
                (_, 0) => String::from("an unknown region or property, "),
                (_, place) => format!("region {} ", REGIONS[place - 1]),
            };
            let parts: Vec<String> = met.iter().enumerate().filter(|(_, n)| **n > 0).map(|(outcome, n)| format!("{n} {}", outcome_told(outcome))).collect();
            println!("  {region}{call}: {}", parts.join(", "));
        }
        let never: Vec<String> = NUMBERS.iter().filter(|&&n| self.met.iter().all(|met| met[n as usize] == 0)).map(u32::to_string).collect();
        println!("  {} searches under a second limit: {}", self.turned.held, self.turned.told());
        println!("  refusals that never occurred: {}; {} differ", if never.is_empty() { String::from("none") } else { never.join(", ") }, self.differ);
        self.by_log.told() & (self.differ == 0)
    }
}

fn outcome_told(outcome: usize) -> String {
    let Some(answer) = outcome.checked_sub(REFUSALS) else {
        return format!("refused by {outcome}");
    };
    let reason = ["", "values", "exact ends", "small residuals", "narrow"][answer / 3];
    let mark = ["", " inside", " outside"][answer % 3];
    format!("{reason}{mark}")
}
