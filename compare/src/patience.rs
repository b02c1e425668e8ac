//! What the step limit of a search may change, and what a step count promises: written from the promise, not from Climboat's definitions. Every comparison of two limits uses this one rule.

use crate::climboat::{Record, EXACT_END, LARGEST_LIMIT};
use crate::question::Question;

/// The least limit that is enough for an outcome: under it and every larger one it is the same record, under every smaller one it is 8. None for 8 itself, which a larger limit may turn into anything.
pub fn enough(record: &Record) -> Option<u32> {
    let bisection = matches!((record.kind, record.region), (6, 1) | (7, 2));
    match (record.number, record.reason) {
        (8, _) => None,
        (0, EXACT_END) => Some(0),
        (0, _) if bisection => Some(record.steps),
        // Brent's search tests the limit before its stop
        (0, _) => Some(record.steps + 1),
        (6, _) => Some(record.steps),
        (10, _) => Some(record.steps + 1),
        _ => Some(0),
    }
}

/// Climboat's outcome of a search under one limit.
pub struct Outcome {
    pub question: Question,
    pub record: Record,
}

impl Outcome {
    pub fn of(question: Question) -> Outcome {
        Outcome { question, record: question.climboat() }
    }

    fn limit(&self) -> u32 {
        self.question.limit()
    }

    fn allowed(&self) -> bool {
        self.limit() <= LARGEST_LIMIT
    }

    /// Whether the two, of one search, are what each promises of the other; under a limit that is too large nothing is promised but the refusal.
    pub fn agrees(&self, other: &Outcome) -> bool {
        let both = self.allowed() && other.allowed();
        self.stands() && other.stands() && (!both || (self.keeps(other) && other.keeps(self)))
    }

    /// Whether it can be an outcome under its own limit: one that is enough, or 8 after all its steps; one that is too large is refused with nothing in the record but what was asked.
    pub fn stands(&self) -> bool {
        match enough(&self.record) {
            _ if !self.allowed() => self.record.same(&too_large(&self.question)),
            None => self.record.steps == self.limit(),
            Some(least) => least <= self.limit(),
        }
    }

    /// Whether the other is the same record, or 8 where its limit is not enough.
    fn keeps(&self, other: &Outcome) -> bool {
        match enough(&self.record) {
            None => true,
            Some(least) if least <= other.limit() => other.record.same(&self.record),
            Some(_) => other.record.number == 8,
        }
    }
}

/// 11, and before it 21.
fn too_large(question: &Question) -> Record {
    let asked = question.asked();
    Record { number: if asked.region == 0 { 21 } else { 11 }, ..asked }
}

/// How often 8 under a smaller limit turned into something else under a larger one.
#[derive(Default)]
pub struct Turned {
    pub held: u64,
    answers: u64,
    six: u64,
    ten: u64,
}

impl Turned {
    /// Whether two outcomes of one search agree, and what came of it.
    pub fn hold(&mut self, one: &Outcome, other: &Outcome) -> bool {
        self.held += 1;
        if let [8, number] | [number, 8] = [one, other].map(|outcome| outcome.record.number) {
            self.answers += u64::from(number == 0);
            self.six += u64::from(number == 6);
            self.ten += u64::from(number == 10);
        }
        one.agrees(other)
    }

    pub fn with(&mut self, other: &Turned) {
        self.held += other.held;
        self.answers += other.answers;
        self.six += other.six;
        self.ten += other.ten;
    }

    pub fn told(&self) -> String {
        let Turned { answers, six, ten, .. } = self;
        format!("8 turned into {answers} answers, {six} refusals by 6 and {ten} by 10")
    }
}
