//! A request's answer in words: a few lines for a reader, or one line. What it is of is read off the answer, not off the request.
use crate::request::{Notation, Request};
use climboat::{Asked, Bracket, Reading, Refusal};

/// The exit status of a refusal; an answer's is 0.
pub const REFUSED: u8 = 1;

/// What was answered: the first words, what they are of, and what else there is to say.
pub struct Answer {
    first: String,
    of: String,
    rest: Vec<(&'static str, String)>,
    pub status: u8,
}

impl Answer {
    pub fn to(request: Request, notation: Notation) -> Answer {
        match ask(request) {
            Ok(reading) => Words::new(reading.asked, notation).answer(reading),
            Err(refusal) => Words::new(refusal.asked, notation).refusal(refusal),
        }
    }

    /// The answer on one line.
    pub fn line(&self) -> String {
        let rest = self
            .rest
            .iter()
            .map(|(name, words)| format!("; {name}: {words}"));
        let start = format!("{}; {}", self.first, self.of);
        std::iter::once(start).chain(rest).collect()
    }

    /// The answer on a few lines, aligned.
    pub fn lines(&self) -> String {
        let widest = self
            .rest
            .iter()
            .map(|(name, _)| name.len())
            .max()
            .unwrap_or(0);
        let rest = self
            .rest
            .iter()
            .map(|(name, words)| format!("\n{:<1$} {words}", format!("{name}:"), widest + 1));
        let start = format!("{}\n{}", self.first, self.of);
        std::iter::once(start).chain(rest).collect()
    }
}

/// The library's answer.
fn ask(request: Request) -> Result<Reading, Refusal> {
    match request {
        Request::Property {
            region,
            property,
            p,
            t,
        } => climboat::property(region, property, p, t),
        Request::Search {
            region,
            pair,
            fixed,
            target,
            limit,
        } => climboat::search(pair, region, fixed, target, limit),
        Request::Line(line, coordinate) => line(coordinate),
    }
}

/// How an answer is written: what it is of, and the notation of its doubles.
struct Words {
    asked: Asked,
    notation: Notation,
}

impl Words {
    fn new(asked: Asked, notation: Notation) -> Words {
        Words { asked, notation }
    }

    fn double(&self, x: f64) -> String {
        self.notation.written(x)
    }

    /// A double of what was asked for, with its unit.
    fn value(&self, x: f64) -> String {
        format!("{} {}", self.double(x), self.asked.wanted().unit)
    }

    fn of(&self) -> String {
        format!("of {}", self.asked.words(|x| self.double(x)))
    }

    fn bracket(&self, bracket: Bracket) -> [(&'static str, String); 2] {
        let ends = format!(
            "{} to {}",
            self.double(bracket.lower),
            self.value(bracket.upper)
        );
        let residuals = format!(
            "{} and {} {}",
            self.double(bracket.lower_residual),
            self.double(bracket.upper_residual),
            self.asked.residual_unit()
        );
        [("bracket", ends), ("residuals", residuals)]
    }

    fn answer(&self, reading: Reading) -> Answer {
        let mut rest = Vec::new();
        if let Some(search) = reading.search {
            rest.push(("reason", reading.reason.to_string()));
            rest.push(("steps", search.steps.to_string()));
            rest.extend(self.bracket(search.bracket));
            rest.push((
                "inside the region",
                if search.inside { "yes" } else { "no" }.to_string(),
            ));
        }
        let symbol = self.asked.wanted().symbol;
        Answer {
            first: format!("{symbol} = {}", self.value(reading.value)),
            of: self.of(),
            rest,
            status: 0,
        }
    }

    fn refusal(&self, refusal: Refusal) -> Answer {
        let mut rest = Vec::new();
        if refusal.has_bracket() {
            rest.push(("steps", refusal.steps.to_string()));
            rest.extend(self.bracket(refusal.bracket));
        }
        if let Some(point) = refusal.last_point() {
            rest.push(("last point", self.value(point)));
        }
        let symbol = self.asked.wanted().symbol;
        Answer {
            first: format!("refused by {}: {}", refusal.number, refusal.sentence()),
            of: format!("{}, where {symbol} was asked for", self.of()),
            rest,
            status: REFUSED,
        }
    }
}
