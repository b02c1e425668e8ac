//! Questions by (p,T) asked by the log: every comparison of a log is made here, of what comes back, of each place with what it is owed, and of all that must stay as it was.

use crate::climboat::Record;
use crate::lent::Lent;
use crate::question::{Question, PROPERTIES, REGIONS};
use crate::tally::Tally;
use std::mem;

/// The longest log, by document 02, §1.
pub const LONGEST_LOG: usize = 4_096;

/// What comes back, read from document 02, §1, and not from Climboat: 13 where the four lengths differ or exceed the longest log's, else 0. Before that 21, as in every call, where a number names nothing.
fn comes_back(region: u32, property: u32, lengths: [usize; 4]) -> u32 {
    let [length, ..] = lengths;
    if gathers_at(region, property).is_none() {
        21
    } else if lengths.into_iter().any(|other| other != length) || length > LONGEST_LOG {
        13
    } else {
        0
    }
}

/// What a place of a log holds.
#[derive(Clone, Copy, Debug)]
pub struct Reading {
    number: u32,
    value: f64,
}

impl Reading {
    /// Of a place at which the single call gives this record: value 0 where it refuses, number 0 where it answers.
    pub fn owed(record: &Record) -> Reading {
        match record.number {
            0 => Reading { number: 0, value: record.value },
            number => Reading { number, value: 0.0 },
        }
    }

    fn same(&self, other: &Reading) -> bool {
        self.number == other.number && self.value.to_bits() == other.value.to_bits()
    }
}

/// States that are yet to be asked, with what each is owed.
#[derive(Clone, Default)]
struct Gathered {
    p: Vec<f64>,
    t: Vec<f64>,
    owed: Vec<Reading>,
}

impl Gathered {
    fn clear(&mut self) {
        self.p.clear();
        self.t.clear();
        self.owed.clear();
    }
}

/// Where the questions of a region and a property are gathered; nowhere if these name nothing.
fn gathers_at(region: u32, property: u32) -> Option<usize> {
    let region = REGIONS.iter().position(|&named| named == region)?;
    let property = PROPERTIES.iter().position(|&named| named == property)?;
    Some(region * PROPERTIES.len() + property)
}

pub struct ByLog {
    /// of the places of logs that are filled, and of logs that are refused
    tally: Tally,
    answers: u64,
    filled: u64,
    refused: u64,
    lent: Lent,
    gathered: Vec<Gathered>,
}

impl ByLog {
    pub fn new(what: &'static str) -> ByLog {
        let gathered = vec![Gathered::default(); REGIONS.len() * PROPERTIES.len()];
        ByLog { tally: Tally::new(what), answers: 0, filled: 0, refused: 0, lent: Lent::default(), gathered }
    }

    /// A question, if it is one by (p,T), with what the single call is owed: it is asked with others of its region and property, as many as the longest log takes.
    pub fn ask(&mut self, question: &Question, owed: &Record) {
        let Question::Property(region, property, p, t) = *question else {
            return;
        };
        let Some(place) = gathers_at(region, property) else {
            // whoever names nothing is refused whole, so there is no other to ask it with
            self.call(region, property, &[p], &[t], [1, 1], &[]);
            return;
        };
        let gathered = &mut self.gathered[place];
        gathered.p.push(p);
        gathered.t.push(t);
        gathered.owed.push(Reading::owed(owed));
        if gathered.p.len() == LONGEST_LOG {
            self.ask_gathered(region, property, place);
        }
    }

    fn ask_gathered(&mut self, region: u32, property: u32, place: usize) {
        let mut gathered = mem::take(&mut self.gathered[place]);
        self.fill(region, property, &gathered.p, &gathered.t, &gathered.owed);
        gathered.clear();
        self.gathered[place] = gathered;
    }

    /// Asks what is gathered yet.
    pub fn ask_rest(&mut self) {
        for region in REGIONS {
            for property in PROPERTIES {
                let place = gathers_at(region, property).expect("both are named");
                if !self.gathered[place].p.is_empty() {
                    self.ask_gathered(region, property, place);
                }
            }
        }
    }

    /// One log of as many places as there are pressures.
    pub fn fill(&mut self, region: u32, property: u32, p: &[f64], t: &[f64], owed: &[Reading]) {
        self.call(region, property, p, t, [p.len(); 2], owed);
    }

    /// One call over p, T and two runs of these lengths: filled with what each place is owed, or refused with nothing written.
    pub fn call(&mut self, region: u32, property: u32, p: &[f64], t: &[f64], lengths: [usize; 2], owed: &[Reading]) {
        let all = [p.len(), t.len(), lengths[0], lengths[1]];
        let due = comes_back(region, property, all);
        let came = self.lent.log(region, property, p, t, lengths);
        let spoilt = self.lent.spoilt(p, t, due == 0);
        let told = || format!("region {region}, property {property}, p, T, values and numbers of the lengths {all:?}: {came} came back, {due} is owed; {}", spoilt.as_deref().unwrap_or("nothing spoilt"));
        let good = came == due && spoilt.is_none();
        if due != 0 {
            self.refused += 1;
            self.tally.check(good, told);
            return;
        }
        self.filled += 1;
        if !good {
            self.tally.differs(told);
        }
        assert_eq!(owed.len(), p.len(), "a log with less owed than it has places");
        for (place, ((value, number), owed)) in self.lent.readings().zip(owed).enumerate() {
            let found = Reading { number, value };
            self.answers += u64::from(number == 0);
            self.tally.check(found.same(owed), || format!("{}, place {place} of {}: {found:?}; owed {owed:?}", Question::Property(region, property, p[place], t[place]).digits(), p.len()));
        }
    }

    /// What the places of the last log hold.
    pub fn readings(&self) -> Vec<Reading> {
        self.lent.readings().map(|(value, number)| Reading { number, value }).collect()
    }

    /// Counts what another has counted, too.
    #[cfg(feature = "original")]
    pub fn add(&mut self, other: &ByLog) {
        assert!(other.gathered.iter().all(|gathered| gathered.p.is_empty()), "questions that were gathered and not asked");
        self.tally.add(&other.tally);
        self.answers += other.answers;
        self.filled += other.filled;
        self.refused += other.refused;
    }

    /// Asks what is left, prints the line, and answers whether nothing differed.
    pub fn told(mut self) -> bool {
        self.ask_rest();
        let ByLog { tally, answers, filled, refused, .. } = self;
        let places = tally.tried() - refused;
        let filled = if filled > 0 { format!("; {places} places of {filled} logs, {answers} answers, number and value bit for bit") } else { String::new() };
        let refused = if refused > 0 { format!("; {refused} logs refused, nothing written") } else { String::new() };
        tally.told(&(filled + &refused))
    }
}
