//! `log`: two columns p and T on the input, and beside each line the value and the number of that state, by the log's own call; or a chart of them.
use crate::answer::REFUSED;
use crate::chart;
use crate::progress::Progress;
use crate::reader::{Line, Lines};
use crate::readings::Readings;
use crate::request::{Log, Name, Notation, Word, Wrong};
use crate::{complain, WRONG};
use climboat::{property_log, LONGEST_LOG};
use std::io::{self, Read, Write};

/// The names of the columns, in their order.
const COLUMNS: [&str; 2] = ["p", "T"];

/// Answers the whole input, and gives the exit status: that of the worst line.
pub fn answer(
    log: Log,
    input: impl Read,
    output: &mut impl Write,
    notation: Notation,
) -> io::Result<u8> {
    let mut lines = Lines::new(input);
    let mut run = Run::new(log, notation);
    let mut told = Told::new(log, notation, output);
    let end = loop {
        match lines.next() {
            Ok(Some((number, line))) => run.take(number, line),
            Ok(None) => break Ok(()),
            Err(error) => break Err(error),
        }
        if run.is_full() || lines.pauses() {
            told.tell(&mut run)?;
        }
    };
    // what was read before the input failed is answered too
    told.tell(&mut run)?;
    end?;
    told.end()
}

/// `1 place`, `2 places`.
pub fn counted(count: u64, what: &str) -> String {
    let ending = if count == 1 { "" } else { "s" };
    format!("{count} {what}{ending}")
}

/// What a line of the log is.
enum Kind {
    /// Blank, or a remark.
    Passed,
    /// The names of the columns.
    Heading,
    /// A state, by its place in the run.
    Place(usize),
    Bad(Wrong),
}

struct Entry {
    number: u64,
    text: Vec<u8>,
    kind: Kind,
}

/// Lines that wait for one call, and the four runs that it is lent.
struct Run {
    log: Log,
    notation: Notation,
    /// whether the columns may still be named: on the first line that is neither blank nor a remark
    first: bool,
    entries: Vec<Entry>,
    p: Vec<f64>,
    t: Vec<f64>,
    values: Vec<f64>,
    numbers: Vec<u32>,
}

impl Run {
    fn new(log: Log, notation: Notation) -> Run {
        Run {
            log,
            notation,
            first: true,
            entries: Vec::new(),
            p: Vec::new(),
            t: Vec::new(),
            values: Vec::new(),
            numbers: Vec::new(),
        }
    }

    /// Every line counts: one that is no place waits in memory too.
    fn is_full(&self) -> bool {
        self.entries.len() == LONGEST_LOG
    }

    fn take(&mut self, number: u64, line: Result<Line, Wrong>) {
        let (kind, text) = match line {
            Ok(Line::Passed(line)) => (
                Kind::Passed,
                line.strip_suffix(b"\r").unwrap_or(line).into(),
            ),
            Ok(Line::Asking(line)) => (self.kind(&line), line.trim_ascii_end().into()),
            Err(wrong) => (Kind::Bad(wrong), Vec::new()),
        };
        self.first &= matches!(kind, Kind::Passed);
        self.entries.push(Entry { number, text, kind });
    }

    fn kind(&mut self, line: &str) -> Kind {
        let columns = columns(line);
        if self.first && columns == COLUMNS {
            return Kind::Heading;
        }
        match state(&columns, self.notation) {
            Ok([p, t]) => {
                self.p.push(p);
                self.t.push(t);
                Kind::Place(self.p.len() - 1)
            }
            Err(wrong) => Kind::Bad(wrong),
        }
    }

    /// Fills the values and the numbers of the places, in one call.
    fn ask(&mut self) -> io::Result<()> {
        self.values.resize(self.p.len(), 0.0);
        self.numbers.resize(self.p.len(), 0);
        let Log {
            region, property, ..
        } = self.log;
        let (values, numbers) = (&mut self.values, &mut self.numbers);
        property_log(region, property, &self.p, &self.t, values, numbers).map_err(io::Error::other)
    }

    fn outcome<'a>(&self, entry: &'a Entry) -> Outcome<'a> {
        match &entry.kind {
            Kind::Passed => Outcome::Passed,
            Kind::Heading => Outcome::Heading,
            &Kind::Place(place) => Outcome::Reading {
                value: self.values[place],
                number: self.numbers[place],
            },
            Kind::Bad(wrong) => Outcome::Bad(wrong),
        }
    }

    fn clear(&mut self) {
        self.entries.clear();
        self.p.clear();
        self.t.clear();
    }
}

/// What divides the columns of a line: a comma where it has one, else blanks.
fn divider(line: &[u8]) -> &'static str {
    match line.contains(&b',') {
        true => ",",
        false => " ",
    }
}

fn columns(line: &str) -> Vec<&str> {
    match divider(line.as_bytes()) {
        "," => line.split(',').map(str::trim_ascii).collect(),
        _ => line.split_ascii_whitespace().collect(),
    }
}

fn state(columns: &[&str], notation: Notation) -> Result<[f64; 2], Wrong> {
    let &[p, t] = columns else {
        let count = counted(columns.len() as u64, "column");
        return Err(Wrong(format!("{count}; a line of a log has two, p and T")));
    };
    let number = |name, text| {
        Word {
            name: Name::Column(name),
            text,
        }
        .number(notation)
    };
    Ok([number(COLUMNS[0], p)?, number(COLUMNS[1], t)?])
}

/// What has come of a log so far.
#[derive(Clone, Copy, Default)]
pub struct Tally {
    /// the places that were asked, answered or refused
    pub places: u64,
    pub refused: u64,
    pub bad: u64,
}

impl Tally {
    fn status(self) -> u8 {
        match self {
            Tally { bad: 1.., .. } => WRONG,
            Tally { refused: 1.., .. } => REFUSED,
            _ => 0,
        }
    }
}

/// What came of a line.
pub enum Outcome<'a> {
    Passed,
    Heading,
    Reading { value: f64, number: u32 },
    Bad(&'a Wrong),
}

/// Where the lines go that are answered: the columns at once, a chart when all are there.
struct Told<'a, W> {
    log: Log,
    notation: Notation,
    output: &'a mut W,
    chart: Option<Readings>,
    tally: Tally,
    progress: Progress,
}

impl<'a, W: Write> Told<'a, W> {
    fn new(log: Log, notation: Notation, output: &'a mut W) -> Told<'a, W> {
        Told {
            log,
            notation,
            output,
            chart: log.chart.then(Readings::default),
            tally: Tally::default(),
            progress: Progress::new(),
        }
    }

    /// Asks for the run, and tells each of its lines. Whoever waits for them before going on gets them.
    fn tell(&mut self, run: &mut Run) -> io::Result<()> {
        run.ask()?;
        for entry in &run.entries {
            let outcome = run.outcome(entry);
            self.count(entry.number, &outcome);
            match &mut self.chart {
                Some(readings) => readings.add(entry.number, &outcome),
                None => self.put(entry, &outcome)?,
            }
        }
        run.clear();
        self.progress.tell(self.tally);
        self.output.flush()
    }

    fn count(&mut self, line: u64, outcome: &Outcome) {
        match outcome {
            Outcome::Passed | Outcome::Heading => {}
            Outcome::Reading { number, .. } => {
                self.tally.places += 1;
                self.tally.refused += u64::from(*number != 0);
            }
            Outcome::Bad(wrong) => {
                self.tally.bad += 1;
                self.progress.clear();
                complain(&bad(line, wrong));
            }
        }
    }

    /// The line as it was, and what stands beside it.
    fn put(&mut self, entry: &Entry, outcome: &Outcome) -> io::Result<()> {
        let divider = divider(&entry.text);
        let beside = match outcome {
            Outcome::Passed => String::new(),
            Outcome::Heading => format!("{divider}{}{divider}number", self.log.property.symbol()),
            Outcome::Reading { value, number } => {
                format!(
                    "{divider}{}{divider}{number}",
                    self.notation.written(*value)
                )
            }
            Outcome::Bad(wrong) => return writeln!(self.output, "# {}", bad(entry.number, wrong)),
        };
        self.output.write_all(&entry.text)?;
        writeln!(self.output, "{beside}")
    }

    fn end(self) -> io::Result<u8> {
        if let Some(readings) = &self.chart {
            let svg = chart::svg(self.log, self.tally, readings);
            self.output.write_all(svg.as_bytes())?;
        }
        Ok(self.tally.status())
    }
}

fn bad(line: u64, wrong: &Wrong) -> String {
    format!("bad line {line}: {}", wrong.0)
}

#[cfg(test)]
mod tests {
    use super::*;
    use climboat::{Property, Region};

    struct Broken;

    impl Read for Broken {
        fn read(&mut self, _: &mut [u8]) -> io::Result<usize> {
            Err(io::Error::other("the input is gone"))
        }
    }

    #[test]
    fn what_was_read_before_the_input_failed_is_answered() {
        let log = Log {
            region: Region::One,
            property: Property::Volume,
            chart: false,
        };
        let input = b"NaN,300\n3,300\n0.1,400\n3,3".chain(Broken);
        let mut output = Vec::new();
        let failed = answer(log, input, &mut output, Notation::Decimal).unwrap_err();
        assert_eq!(failed.to_string(), "the input is gone");
        let told = "NaN,300,0.0,1\n3,300,0.0010021516796866943,0\n0.1,400,0.0,3\n";
        assert_eq!(String::from_utf8(output).unwrap(), told);
    }
}
