//! A command line as a request to the library, or what is wrong with its words.
use climboat::{
    b23_pressure, b23_temperature, saturation_pressure, saturation_temperature, Pair, Property,
    PvRegion, Reading, Refusal, Region, STEP_LIMIT,
};
use std::fmt;

/// How doubles are read and written.
#[derive(Clone, Copy, PartialEq)]
pub enum Notation {
    Decimal,
    /// The sixteen hexadecimal digits of a double's bits.
    Bits,
}

impl Notation {
    pub fn written(self, x: f64) -> String {
        match self {
            Notation::Decimal => format!("{x:?}"),
            Notation::Bits => format!("{:016x}", x.to_bits()),
        }
    }
}

/// The call of a line of the release for one of its two coordinates.
pub type Line = fn(f64) -> Result<Reading, Refusal>;

pub enum Request {
    Property {
        region: Region,
        property: Property,
        p: f64,
        t: f64,
    },
    Search {
        region: Region,
        pair: Pair,
        fixed: f64,
        target: f64,
        limit: u32,
    },
    Line(Line, f64),
}

/// A log, which is read from standard input: the property at every place of it.
#[derive(Clone, Copy)]
pub struct Log {
    pub region: Region,
    pub property: Property,
    /// whether it is drawn, or written as columns
    pub chart: bool,
}

/// What a command line asks for.
pub enum Command {
    One(Request),
    Log(Log),
}

/// What is wrong with a command line, or with a line of the input.
pub struct Wrong(pub String);

/// What a word is called where it is wrong.
#[derive(Clone, Copy)]
pub enum Name {
    /// Its place on the command line, which begins at 1.
    Word(usize),
    /// Its column in a log.
    Column(&'static str),
}

impl fmt::Display for Name {
    fn fmt(&self, f: &mut fmt::Formatter<'_>) -> fmt::Result {
        match self {
            Name::Word(place) => write!(f, "word {place}"),
            Name::Column(symbol) => write!(f, "column {symbol}"),
        }
    }
}

#[derive(Clone, Copy)]
pub struct Word<'a> {
    pub name: Name,
    pub text: &'a str,
}

impl Word<'_> {
    fn wrong(self, what: &str) -> Wrong {
        // a word may be as long as a line, and may hold anything
        let start: String = self.text.chars().take(40).collect();
        let rest = if start.len() < self.text.len() {
            ".."
        } else {
            ""
        };
        Wrong(format!("{}, {start:?}{rest}, {what}", self.name))
    }

    fn among<T: Copy>(
        self,
        choices: &[T],
        name: impl Fn(T) -> String,
        what: &str,
    ) -> Result<T, Wrong> {
        let found = choices
            .iter()
            .copied()
            .find(|&choice| name(choice) == self.text);
        found.ok_or_else(|| {
            let names: Vec<String> = choices.iter().copied().map(name).collect();
            self.wrong(&format!("is no {what}: it is one of {}", names.join(", ")))
        })
    }

    pub fn number(self, notation: Notation) -> Result<f64, Wrong> {
        if notation == Notation::Decimal {
            return self.text.parse().map_err(|_| self.wrong("is no number"));
        }
        let digits =
            self.text.len() == 16 && self.text.bytes().all(|byte| byte.is_ascii_hexdigit());
        let bits = u64::from_str_radix(self.text, 16).ok().filter(|_| digits);
        bits.map(f64::from_bits)
            .ok_or_else(|| self.wrong("is not the sixteen hexadecimal digits of a double"))
    }

    /// A whole number of any size: one that does not fit is as far above the largest limit as the library needs to know.
    fn limit(self) -> Result<u32, Wrong> {
        if self.text.is_empty() || !self.text.bytes().all(|byte| byte.is_ascii_digit()) {
            return Err(self.wrong("is no step limit: it is a whole number"));
        }
        Ok(self.text.parse().unwrap_or(u32::MAX))
    }
}

/// The words of a command line without its options.
struct Words<'a> {
    words: Vec<Word<'a>>,
    taken: usize,
    notation: Notation,
    limit: Option<(Word<'a>, u32)>,
    chart: Option<Word<'a>>,
}

impl<'a> Words<'a> {
    fn new(texts: &[&'a str], notation: Notation) -> Result<Words<'a>, Wrong> {
        let mut all = texts.iter().enumerate().map(|(place, text)| Word {
            name: Name::Word(place + 1),
            text,
        });
        let mut words = Words {
            words: Vec::new(),
            taken: 0,
            notation,
            limit: None,
            chart: None,
        };
        while let Some(word) = all.next() {
            match word.text {
                "--bits" => words.notation = Notation::Bits,
                "--chart" => words.chart = Some(word),
                "--limit" => {
                    let Some(limit) = all.next() else {
                        return Err(word.wrong("needs a step limit after it"));
                    };
                    if words.limit.is_some() {
                        return Err(word.wrong("is there twice"));
                    }
                    words.limit = Some((word, limit.limit()?));
                }
                text if text.starts_with("--") => {
                    return Err(
                        word.wrong("is no option of a request: those are --bits, --limit, --chart")
                    );
                }
                _ => words.words.push(word),
            }
        }
        Ok(words)
    }

    fn next(&mut self, what: &str) -> Result<Word<'a>, Wrong> {
        let word = self.words.get(self.taken).copied();
        self.taken += 1;
        word.ok_or_else(|| Wrong(format!("a word is missing: {what}")))
    }

    fn number(&mut self, what: &str) -> Result<f64, Wrong> {
        let notation = self.notation;
        self.next(what)?.number(notation)
    }

    fn property(&mut self) -> Result<Property, Wrong> {
        let symbol = |property: Property| property.symbol().to_string();
        let word = self.next("a property")?;
        word.among(Property::ALL, symbol, "property")
    }

    /// Nothing may be left over.
    fn end(self, command: Command) -> Result<(Command, Notation), Wrong> {
        if let Some(word) = self.words.get(self.taken) {
            let hint = match command {
                Command::One(_) => "",
                Command::Log(_) => ": a log comes on standard input",
            };
            return Err(word.wrong(&format!("is one too many{hint}")));
        }
        let searches = matches!(command, Command::One(Request::Search { .. }));
        if let (Some((word, _)), false) = (self.limit, searches) {
            return Err(word.wrong("is for a search alone: pv, Tv, Th, Ts"));
        }
        if let (Some(word), Command::One(_)) = (self.chart, &command) {
            return Err(word.wrong("is for a log alone"));
        }
        Ok((command, self.notation))
    }
}

/// What a command line may begin with.
#[derive(Clone, Copy)]
enum First {
    Region(Region),
    Saturation,
    B23,
}

impl First {
    fn name(self) -> String {
        match self {
            First::Region(region) => region.number().to_string(),
            First::Saturation => "sat".to_string(),
            First::B23 => "b23".to_string(),
        }
    }
}

/// What the words of a command line ask for.
pub fn command(texts: &[&str], notation: Notation) -> Result<(Command, Notation), Wrong> {
    let mut words = Words::new(texts, notation)?;
    let regions = Region::ALL.iter().copied().map(First::Region);
    let firsts: Vec<First> = regions.chain([First::Saturation, First::B23]).collect();
    let first =
        words
            .next("a region, or sat, or b23")?
            .among(&firsts, First::name, "region or line")?;
    let command = match first {
        First::Region(region) => of_region(&mut words, region)?,
        First::Saturation => of_line(&mut words, saturation_temperature, saturation_pressure)?,
        First::B23 => of_line(&mut words, b23_temperature, b23_pressure)?,
    };
    words.end(command)
}

/// The request that the words of a line make. A log is none: it has standard input for itself.
pub fn request(texts: &[&str], notation: Notation) -> Result<(Request, Notation), Wrong> {
    match command(texts, notation)? {
        (Command::One(request), notation) => Ok((request, notation)),
        (Command::Log(_), _) => Err(Wrong(
            "a log is asked for on the command line, not on a line of --lines".to_string(),
        )),
    }
}

fn of_line(words: &mut Words, temperature: Line, pressure: Line) -> Result<Command, Wrong> {
    let asked = words.next("T or p, which is asked for")?.among(
        &["T", "p"],
        str::to_string,
        "coordinate",
    )?;
    let (line, other) = match asked {
        "T" => (temperature, "the number p"),
        _ => (pressure, "the number T"),
    };
    Ok(Command::One(Request::Line(line, words.number(other)?)))
}

/// What may be asked of a region.
#[derive(Clone, Copy)]
enum Second {
    Property,
    Search(Pair),
    Log,
}

impl Second {
    fn name(self) -> String {
        match self {
            Second::Property => "pT".to_string(),
            Second::Search(pair) => pair.symbol().to_string(),
            Second::Log => "log".to_string(),
        }
    }
}

fn of_region(words: &mut Words, region: Region) -> Result<Command, Wrong> {
    let pairs = Pair::ALL.iter().copied().map(Second::Search);
    let seconds: Vec<Second> = [Second::Property]
        .into_iter()
        .chain(pairs)
        .chain([Second::Log])
        .collect();
    let word = words.next("a pair, pT or pv or Tv or Th or Ts, or log")?;
    match word.among(&seconds, Second::name, "pair or log")? {
        Second::Property => Ok(Command::One(Request::Property {
            region,
            property: words.property()?,
            p: words.number("the number p")?,
            t: words.number("the number T")?,
        })),
        Second::Search(pair) => {
            if let (Pair::Pv, Err(without)) = (pair, PvRegion::try_from(region)) {
                return Err(word.wrong(&format!("is no pair of this region: {without}")));
            }
            of_pair(words, region, pair)
        }
        Second::Log => Ok(Command::Log(Log {
            region,
            property: words.property()?,
            chart: words.chart.is_some(),
        })),
    }
}

fn of_pair(words: &mut Words, region: Region, pair: Pair) -> Result<Command, Wrong> {
    let (fixed, target) = pair.symbol().split_at(1);
    let fixed = words.number(&format!("the number {fixed}"))?;
    let target = words.number(&format!("the number {target}"))?;
    let limit = words.limit.map_or(STEP_LIMIT, |(_, limit)| limit);
    Ok(Command::One(Request::Search {
        region,
        pair,
        fixed,
        target,
        limit,
    }))
}
