//! How far a long log is: one line on standard error that is written over. Nothing where that is no terminal, or where the columns go to a terminal too and show it themselves.
use crate::log::Tally;
use climboat::LONGEST_LOG;
use std::io::{self, IsTerminal, Write};

pub struct Progress {
    terminal: bool,
    /// the characters that stand on the line
    shown: usize,
}

impl Progress {
    pub fn new() -> Progress {
        Progress {
            terminal: io::stderr().is_terminal() && !io::stdout().is_terminal(),
            shown: 0,
        }
    }

    /// A log of one run is over before anybody looks.
    pub fn tell(&mut self, tally: Tally) {
        let Tally {
            places,
            refused,
            bad,
        } = tally;
        if !self.terminal || places <= LONGEST_LOG as u64 {
            return;
        }
        let line = format!("climboat: {places} places, {refused} refused, {bad} bad lines");
        put(&format!("\r{line:<0$}", self.shown));
        self.shown = self.shown.max(line.len());
    }

    /// Takes the line away, for another that is to stand there.
    pub fn clear(&mut self) {
        if self.shown > 0 {
            put(&format!("\r{:1$}\r", "", self.shown));
            self.shown = 0;
        }
    }
}

/// However the log ends, the last line is left, and another begins.
impl Drop for Progress {
    fn drop(&mut self) {
        if self.shown > 0 {
            put("\n");
        }
    }
}

fn put(text: &str) {
    // standard error may be closed, and there is no other place to say it
    let _ = write!(io::stderr(), "{text}");
}
