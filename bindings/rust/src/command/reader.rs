//! The lines of standard input, one at a time. One that is too long is never held in memory.
use crate::request::Wrong;
use std::borrow::Cow;
use std::io::{self, BufRead, BufReader, Read};

/// The longest line that is read, in bytes: what is longer is bad.
const LONGEST: usize = 4096;
/// The byte-order mark that some programs put before a file of UTF-8: it is no part of the first line.
const MARK: &[u8] = b"\xef\xbb\xbf";

/// What stands on a line.
pub enum Line<'a> {
    /// A blank line, or one that starts with #: it asks nothing, and stands for itself.
    Passed(&'a [u8]),
    Asking(Cow<'a, str>),
}

pub struct Lines<R> {
    input: BufReader<R>,
    line: Vec<u8>,
    number: u64,
}

impl<R: Read> Lines<R> {
    pub fn new(input: R) -> Lines<R> {
        Lines {
            input: BufReader::new(input),
            line: Vec::new(),
            number: 0,
        }
    }

    /// The next line with its number, which begins at 1; nothing where the input ends.
    pub fn next(&mut self) -> io::Result<Option<(u64, Result<Line<'_>, Wrong>)>> {
        self.line.clear();
        let mut start = self.input.by_ref().take(LONGEST as u64 + 1);
        if start.read_until(b'\n', &mut self.line)? == 0 {
            return Ok(None);
        }
        self.number += 1;
        if self.line.last() == Some(&b'\n') {
            self.line.pop();
        }
        if self.line.len() > LONGEST {
            self.input.skip_until(b'\n')?;
            let long = Wrong(format!("longer than {LONGEST} bytes"));
            return Ok(Some((self.number, Err(long))));
        }
        if self.number == 1 && self.line.starts_with(MARK) {
            self.line.drain(..MARK.len());
        }
        let asks = !self.line.trim_ascii().is_empty() && !self.line.starts_with(b"#");
        let line = match asks {
            true => Line::Asking(String::from_utf8_lossy(&self.line)),
            false => Line::Passed(&self.line),
        };
        Ok(Some((self.number, Ok(line))))
    }

    /// Whether all that has come is read. Whoever waits for an answer before asking on is to get it now.
    pub fn pauses(&self) -> bool {
        self.input.buffer().is_empty()
    }
}
