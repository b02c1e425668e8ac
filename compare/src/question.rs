//! A question to one public call: its line of digits, Climboat's answer, and that of the second reading of the table.

use crate::climboat::{self, Line, Pair, Record, NOTHING};
#[cfg(feature = "original")]
use crate::table;

/// With the inputs in the order of the C interface.
#[derive(Clone, Copy)]
pub enum Question {
    Property(u32, u32, f64, f64),
    Line(Line, f64),
    Search(Pair, u32, f64, f64, u32),
}

pub const LINES: [Line; 4] = [Line::SaturationPressure, Line::SaturationTemperature, Line::B23Pressure, Line::B23Temperature];
pub const PAIRS: [Pair; 4] = [Pair::Pv, Pair::Tv, Pair::Th, Pair::Ts];

/// By their own numbers, and those of them that (p,v) takes.
pub const REGIONS: [u32; 3] = [1, 2, 5];
pub const PV_REGIONS: [u32; 2] = [1, 2];

pub const PROPERTIES: [u32; 7] = [1, 2, 3, 4, 5, 6, 7];

impl Question {
    #[inline]
    pub fn climboat(&self) -> Record {
        match *self {
            Question::Property(region, property, p, t) => climboat::property(region, property, p, t),
            Question::Line(line, x) => climboat::line(line, x),
            Question::Search(pair, region, fixed, target, limit) => climboat::search(pair, region, fixed, target, limit),
        }
    }

    #[cfg(feature = "original")]
    pub fn table(&self) -> Record {
        self.with(match *self {
            Question::Property(region, property, p, t) => table::property(region, property, p, t),
            Question::Line(line, x) => table::line(line, x),
            Question::Search(pair, region, fixed, target, limit) => table::search(pair, region, fixed, target, limit),
        })
    }

    /// The call by its number in a line of `replay`: 1 is (p,T), 2 to 5 are the lines, 6 to 9 the searches.
    pub fn kind(&self) -> u32 {
        match *self {
            Question::Property(..) => 1,
            Question::Line(line, _) => 2 + line as u32,
            Question::Search(pair, ..) => 6 + pair as u32,
        }
    }

    /// Region, property, limit and the two inputs; what the call does not take is 0.
    fn given(&self) -> (u32, u32, u32, [f64; 2]) {
        match *self {
            Question::Property(region, property, p, t) => (region, property, 0, [p, t]),
            Question::Line(_, x) => (0, 0, 0, [x, 0.0]),
            Question::Search(_, region, fixed, target, limit) => (region, 0, limit, [fixed, target]),
        }
    }

    pub fn inputs(&self) -> [f64; 2] {
        self.given().3
    }

    #[cfg(feature = "original")]
    pub fn limit(&self) -> u32 {
        self.given().2
    }

    /// The same search under another limit; a call that does not search has none.
    #[cfg(feature = "original")]
    pub fn under(&self, limit: u32) -> Question {
        match *self {
            Question::Search(pair, region, fixed, target, _) => Question::Search(pair, region, fixed, target, limit),
            other => other,
        }
    }

    /// The columns that say what a record is of, and no outcome: a region or a property that names nothing is 0.
    pub fn asked(&self) -> Record {
        let (region, property, _, [first, second]) = self.given();
        let regions: &[u32] = if matches!(self, Question::Search(Pair::Pv, ..)) { &PV_REGIONS } else { &REGIONS };
        let region = if regions.contains(&region) { region } else { 0 };
        let property = if property <= 7 { property } else { 0 };
        Record { region, kind: self.kind(), property, first, second, ..NOTHING }
    }

    /// An outcome with what it is of, and nothing in the room.
    pub fn with(&self, outcome: Record) -> Record {
        let Record { region, kind, property, first, second, room, .. } = self.asked();
        Record { region, kind, property, first, second, room, ..outcome }
    }

    /// As the program `replay` reads it, without the end of the line.
    pub fn digits(&self) -> String {
        let (region, property, limit, inputs) = self.given();
        let [first, second] = inputs.map(f64::to_bits);
        format!("{:02x} {region:x} {property:x} {limit:05x} {first:016x} {second:016x}", self.kind())
    }
}
