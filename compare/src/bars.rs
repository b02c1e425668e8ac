//! How many times as long as the original, as Rust's own or, of a log, as single calls, a row of the timings may take, and which rows took longer.
// without the original crate the logarithm's row and the logs' alone have bars
#![cfg_attr(not(feature = "original"), allow(dead_code))]

/// What document 02 asks of region 1 v by the public checked call; the bar of that row lies below it.
pub const ASKED: f64 = 3.0;

/// A ratio that a row must not pass, and the one that it is meant to reach.
#[derive(Clone, Copy)]
pub struct TimeBar {
    most: f64,
    goal: f64,
}

pub const CHECKED_CALL: TimeBar = TimeBar { most: 2.2, goal: 1.6 };
pub const REGION_1_V: TimeBar = TimeBar { most: 1.2, goal: 0.9 };
pub const PROPERTY: TimeBar = TimeBar { most: 1.8, goal: 1.2 };
pub const REGION_5: TimeBar = TimeBar { most: 2.5, goal: 1.5 };
pub const SEARCH: TimeBar = TimeBar { most: 1.5, goal: 1.1 };
pub const SEARCH_BY_LOGARITHM: TimeBar = TimeBar { most: 1.6, goal: 1.1 };
pub const SATURATION: TimeBar = TimeBar { most: 4.5, goal: 2.5 };
pub const LOGARITHM: TimeBar = TimeBar { most: 4.0, goal: 2.0 };

/// One call over 4,096 places costs no more for a place than the single call.
pub const LOG: f64 = 1.0;

/// The bars that rows were held against, and a line for each that was missed.
#[derive(Default)]
pub struct Bars {
    held: usize,
    missed: Vec<String>,
}

impl Bars {
    /// Holds a row's ratio, unrounded, against its bar, and gives the row's columns for bar and goal.
    pub fn hold(&mut self, what: &str, ratio: f64, bar: Option<TimeBar>) -> String {
        let Some(TimeBar { most, goal }) = bar else {
            return String::from(" - | - |");
        };
        self.keep(what, ratio, most) + &format!(" {goal:.1} |")
    }

    /// The same of a row that has a bar and no goal.
    pub fn keep(&mut self, what: &str, ratio: f64, most: f64) -> String {
        self.held += 1;
        // asked so that NaN, the ratio of no inputs, is a miss
        let kept = ratio <= most;
        if !kept {
            self.missed.push(format!("{what}: {ratio:.2} times the other's time, the bar is {most:.2}"));
        }
        format!(" {most:.1} |")
    }

    /// Prints the bars that were missed, or that all were kept, and answers whether they were.
    pub fn told(&self) -> bool {
        for line in &self.missed {
            println!("bar missed, {line}");
        }
        if self.missed.is_empty() {
            println!("all {} bars were kept", self.held);
        }
        self.missed.is_empty()
    }
}
