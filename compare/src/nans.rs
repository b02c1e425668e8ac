//! NaN with every bit of the payload, and the other doubles that are strange, in each place of an input of every public call: each comes back bit for bit, refused in document 01's order.

use crate::by_log::ByLog;
use crate::climboat::{Pair, Record, LARGEST_LIMIT};
use crate::draw::Draw;
use crate::question::{Question, LINES, PAIRS, REGIONS};
use crate::tally::Tally;

/// Pairs of NaN that are drawn.
const DRAWN: usize = 2_000_000;

const SIGN: u64 = 1 << 63;
const INFINITE: u64 = 0x7ff << 52;
const QUIET: u64 = 1 << 51;

/// Regions and properties of (p,T) that name nothing, beside the twenty-one that do.
pub const NOTHING_NAMED: [(u32, u32); 7] = [(0, 1), (3, 7), (u32::MAX, 4), (1, 0), (2, 8), (1, u32::MAX), (0, 0)];

/// The number that refuses an input of a kind which is nearer to zero than every normal double, first and second; 0 where none does. A volume must be above zero.
const BELOW: [[u32; 2]; 9] = [[3, 2], [2, 0], [3, 0], [2, 0], [3, 0], [3, 4], [2, 4], [2, 0], [2, 0]];

/// Whether none differed.
pub fn compare() -> bool {
    let (nans, others) = (nans(), others());
    let mut tally = Tally::new("NaN and other strange inputs");
    let mut by_log = ByLog::new("NaN and other strange inputs by (p,T), by the log");
    let listed: Vec<u64> = nans.iter().chain(&others).copied().collect();
    // beside each in the other place one from the far end of the list
    for (&x, &y) in listed.iter().zip(listed.iter().rev()) {
        meet(&mut tally, &mut by_log, x, y);
    }
    let mut draw = Draw::new(0x0c1b_0a70_0000_0044);
    for _ in 0..DRAWN {
        meet(&mut tally, &mut by_log, draw.bits() | INFINITE, draw.bits() | INFINITE);
    }
    let good = tally.told(&format!(", every column bit for bit; {} NaN by their payload, {DRAWN} pairs drawn, {} infinities, zeros and subnormals", nans.len(), others.len()));
    good & by_log.told()
}

/// Both signs of NaN, quiet and signalling, whose payload is one bit, two bits, all ones (the largest), or, of a quiet one, none (the least).
pub fn nans() -> Vec<u64> {
    let bits = (0..51).map(|n| 1 << n);
    let mut payloads: Vec<u64> = bits.clone().flat_map(|one| bits.clone().filter(move |&other| other <= one).map(move |other| one | other)).collect();
    payloads.push(QUIET - 1);
    let signalling = payloads.iter().map(|payload| INFINITE | payload);
    let quiet = payloads.iter().chain([&0]).map(|payload| INFINITE | QUIET | payload);
    signalling.chain(quiet).flat_map(both_signs).collect()
}

/// Both signs of infinity, of zero, and of subnormals with one bit and with all.
pub fn others() -> Vec<u64> {
    let subnormals = (0..52).map(|n| 1 << n).chain([(1 << 52) - 1]);
    [INFINITE, 0].into_iter().chain(subnormals).flat_map(both_signs).collect()
}

fn both_signs(bits: u64) -> [u64; 2] {
    [bits, bits | SIGN]
}

fn meet(tally: &mut Tally, by_log: &mut ByLog, x: u64, y: u64) {
    for question in questions(f64::from_bits(x), f64::from_bits(y)) {
        let ours = question.climboat();
        let owed = match refusal(&question) {
            Some(number) => Record { number, ..question.asked() },
            None => searched(&question, ours),
        };
        tally.check(ours.same(&owed), || format!("{}: {ours:?}, its inputs {:016x} {:016x}; owed {owed:?}", question.digits(), ours.first.to_bits(), ours.second.to_bits()));
        by_log.ask(&question, &owed);
    }
}

/// What is owed where a search decides: by the second reading; where the original crate is not at hand, the outcome as it is, with what was asked.
#[cfg(feature = "original")]
fn searched(question: &Question, _ours: Record) -> Record {
    question.table()
}

#[cfg(not(feature = "original"))]
fn searched(question: &Question, ours: Record) -> Record {
    question.with(ours)
}

/// Every call with x in each place beside an ordinary number, and with x and y together, also where nothing is named and where the limit is too large.
fn questions(x: f64, y: f64) -> Vec<Question> {
    let mut list: Vec<Question> = LINES.map(|line| Question::Line(line, x)).into();
    let named = REGIONS.into_iter().flat_map(|region| (1..=7).map(move |property| (region, property)));
    for (region, property) in named.chain(NOTHING_NAMED) {
        list.extend([(x, ordinary(region)), (1.0, x), (x, y)].map(|(p, t)| Question::Property(region, property, p, t)));
    }
    for pair in PAIRS {
        for region in REGIONS.into_iter().chain([3]) {
            let ordinary = if pair == Pair::Pv { 1.0 } else { ordinary(region) };
            let inputs = [(x, 1.0), (ordinary, x), (x, y)];
            let limits = |(fixed, target)| [0, LARGEST_LIMIT, LARGEST_LIMIT + 1].map(|limit| Question::Search(pair, region, fixed, target, limit));
            list.extend(inputs.into_iter().flat_map(limits));
        }
    }
    list
}

/// A temperature of the region.
fn ordinary(region: u32) -> f64 {
    if region == 5 {
        1500.0
    } else {
        300.0
    }
}

/// 21, then document 01's order: 11, 1, 2, 3, 4; none where the inputs pass.
fn refusal(question: &Question) -> Option<u32> {
    let Record { region, kind, property, .. } = question.asked();
    let inputs = question.inputs();
    let (nothing_named, too_large) = match *question {
        Question::Property(..) => (region == 0 || property == 0, false),
        Question::Line(..) => (false, false),
        Question::Search(.., limit) => (region == 0, limit > LARGEST_LIMIT),
    };
    if nothing_named {
        Some(21)
    } else if too_large {
        Some(11)
    } else if !inputs.into_iter().all(f64::is_finite) {
        Some(1)
    } else {
        let numbers = BELOW[kind as usize - 1].into_iter().zip(inputs);
        let refused = numbers.filter(|&(number, x)| number > 0 && x.abs() < f64::MIN_POSITIVE && (number != 4 || x <= 0.0));
        refused.map(|(number, _)| number).min()
    }
}
