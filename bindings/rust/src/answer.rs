//! What a call answers: a reading with its reason, or a refusal with its number, and what each is of.
use crate::archive::Record;
use crate::asked::Asked;
use std::fmt;

/// Why a value is an answer.
#[non_exhaustive]
#[derive(Clone, Copy, Debug, PartialEq, Eq, Hash)]
pub enum Reason {
    /// A call that does not search: the formula's own result.
    Value,
    /// The residual is zero at an end of the starting bracket.
    ExactEnd,
    /// The residual is below 1.0e-8 (bisection), or zero (Brent).
    SmallResidual,
    /// The bracket has become narrow enough: less than 1.0e-6 K wide in region 1 (p,v), less than 1.0e-6 times its upper end in region 2 (T,v), half of it within Brent's tolerance elsewhere.
    Narrow,
}

impl fmt::Display for Reason {
    fn fmt(&self, f: &mut fmt::Formatter<'_>) -> fmt::Result {
        f.write_str(match self {
            Reason::Value => "value",
            Reason::ExactEnd => "exact end",
            Reason::SmallResidual => "small residual",
            Reason::Narrow => "narrow",
        })
    }
}

/// The two ends between which a search last looked, in the unit of what it finds, and the residuals there.
///
/// A residual is the target less what the formula gives at the end, so that it can be computed again; [`Asked::residual_unit`] says what it is in.
///
/// ```
/// use climboat::{property, ts2p, Property, Region, STEP_LIMIT};
///
/// let bracket = ts2p(Region::Two, 500.0, 7.2, STEP_LIMIT)?.search.unwrap().bracket;
/// let entropy = property(Region::Two, Property::Entropy, bracket.lower, 500.0)?;
/// assert_eq!(bracket.lower_residual, 7.2 - entropy.value);
/// # Ok::<(), climboat::Refusal>(())
/// ```
#[non_exhaustive]
#[derive(Clone, Copy, Debug, PartialEq)]
pub struct Bracket {
    /// The lower end.
    pub lower: f64,
    /// The upper end.
    pub upper: f64,
    /// The residual at the lower end.
    pub lower_residual: f64,
    /// The residual at the upper end.
    pub upper_residual: f64,
}

/// What a search says beside its value.
#[non_exhaustive]
#[derive(Clone, Copy, Debug, PartialEq)]
pub struct Search {
    /// The evaluations after the two ends. They say what limit is enough for this answer: `steps` in region 1 (p,v) and region 2 (T,v), `steps + 1` in the other searches, 0 for an exact end.
    /// From there on it is the same answer, bit for bit; under every smaller limit it is refused by 8.
    ///
    /// ```
    /// use climboat::{tv2p, Cause, Region, STEP_LIMIT};
    ///
    /// let pressure = tv2p(Region::Two, 500.0, 0.1, STEP_LIMIT)?;
    /// let steps = pressure.search.unwrap().steps;
    /// assert_eq!(tv2p(Region::Two, 500.0, 0.1, steps)?, pressure);
    /// assert_eq!(tv2p(Region::Two, 500.0, 0.1, steps - 1).unwrap_err().cause(), Cause::StepsSpent);
    /// # Ok::<(), climboat::Refusal>(())
    /// ```
    pub steps: u32,
    /// The bracket at the test that ended the search; for an exact end, the starting bracket.
    pub bracket: Bracket,
    /// Whether the found point lies inside the named region. A point outside is still an answer of the formula; decide on [`Reading::is_inside`].
    pub inside: bool,
}

/// An answer.
///
/// ```
/// use climboat::{property, Property, Region};
///
/// let reading = property(Region::One, Property::Volume, 3.0, 300.0)?;
/// let (value, asked) = (reading.value, reading.asked);
/// let told = format!("{} = {value:.9} {} of {asked}", asked.wanted().symbol, asked.wanted().unit);
/// assert_eq!(told, "v = 0.001002152 m^3/kg of region 1, p = 3.0 MPa, T = 300.0 K");
/// # Ok::<(), climboat::Refusal>(())
/// ```
#[non_exhaustive]
#[derive(Clone, Copy, Debug, PartialEq)]
pub struct Reading {
    /// What the answer is of.
    pub asked: Asked,
    /// The value, in the unit of what was asked for ([`Asked::wanted`]).
    pub value: f64,
    /// Why the value is an answer.
    pub reason: Reason,
    /// What the search says; nothing for a call that does not search.
    pub search: Option<Search>,
}

impl Reading {
    /// Whether the value is not marked outside its region. This, not that there is a value, is what a decision is to be made on.
    ///
    /// A call that does not search gives no mark: its point is inside, or it is refused.
    ///
    /// ```
    /// use climboat::{pv2t, saturation_temperature, PvRegion, STEP_LIMIT};
    ///
    /// let boiling = saturation_temperature(0.101325)?;
    /// // water that boils at 0.09 MPa: below boiling at the pressure of the air, and outside the region
    /// let temperature = pv2t(PvRegion::One, 0.09, 0.0010408989121683818, STEP_LIMIT)?;
    /// assert!(temperature.value < boiling.value);
    /// assert!(boiling.is_inside() && !temperature.is_inside());
    /// # Ok::<(), climboat::Refusal>(())
    /// ```
    pub fn is_inside(&self) -> bool {
        self.search.is_none_or(|search| search.inside)
    }
}

/// Why there is no answer: the refusals of documents 01 and 02, and one of the interface.
///
/// The places of a log hold numbers: [`Cause::of`] names one.
///
/// ```
/// use climboat::Cause;
///
/// assert_eq!(Cause::of(3), Some(Cause::PressureOutOfRange));
/// assert!(Cause::PressureOutOfRange.sentence().starts_with("the pressure is out of range"));
/// assert_eq!(Cause::of(0), None); // answered
/// assert_eq!(Cause::of(99), Some(Cause::Unknown));
/// ```
#[non_exhaustive]
#[derive(Clone, Copy, Debug, PartialEq, Eq, Hash)]
pub enum Cause {
    /// 1: an input is NaN or infinite.
    NotFinite,
    /// 2: T is out of range.
    TemperatureOutOfRange,
    /// 3: p is out of range.
    PressureOutOfRange,
    /// 4: v is zero or below.
    VolumeNotPositive,
    /// 5: the lower end of the search is not below the upper end.
    EmptyBracket,
    /// 6: a residual that the search evaluated is not finite.
    ResidualNotFinite,
    /// 7: the residuals at both ends have the same sign. This is not "no such state".
    SameSign,
    /// 8: the steps are spent. Of all refusals this alone may be another outcome under a larger limit.
    StepsSpent,
    /// 9: a property, saturation or B23 result is not finite.
    ResultNotFinite,
    /// 10: the next point lies outside the bracket.
    PointOutside,
    /// 11: the step limit is above [`crate::LARGEST_STEP_LIMIT`], 65,535.
    LimitTooLarge,
    /// 13: the four runs of a log have not one length, or one above [`crate::LONGEST_LOG`], 4,096.
    LogLengths,
    /// 21: a region or property number names none that this call has. Of this crate's calls only [`crate::search`] can meet it: (p,v) has no region 5.
    NothingNamed,
    /// A number that this version has no name for.
    Unknown,
}

struct Row {
    number: u32,
    cause: Cause,
    /// whether the refusal carries the steps taken and the last bracket
    bracket: bool,
    sentence: &'static str,
}

const fn row(number: u32, cause: Cause, bracket: bool, sentence: &'static str) -> Row {
    Row {
        number,
        cause,
        bracket,
        sentence,
    }
}

#[rustfmt::skip]
const ROWS: [Row; 13] = [
    row(1, Cause::NotFinite, false, "an input is NaN or infinite; give finite numbers"),
    row(2, Cause::TemperatureOutOfRange, false, "the temperature is out of range for this region or line; check that it is in kelvin and that the region is the right one"),
    row(3, Cause::PressureOutOfRange, false, "the pressure is out of range for this region or line, or for this region at this temperature; check that it is in MPa and that the region is the right one"),
    row(4, Cause::VolumeNotPositive, false, "the volume is zero or below; give one above zero, in m^3/kg"),
    row(5, Cause::EmptyBracket, false, "the lower end of the search is not below the upper end, so there is nothing to search; move the pressure away from the edge of the region"),
    row(6, Cause::ResidualNotFinite, true, "a residual that the search evaluated is not finite; the target is too extreme, give one nearer to the region's own values"),
    row(7, Cause::SameSign, false, "the residuals at both ends of the search have the same sign, so it cannot begin; this does not mean that there is no such state, as one or more may lie between the ends; check the region and the units, or look for the state by (p,T)"),
    row(8, Cause::StepsSpent, true, "the steps are spent; the last point is no answer, give a larger step limit"),
    row(9, Cause::ResultNotFinite, false, "a property, saturation or B23 result is not finite, so there is no number to give; ask for another state"),
    row(10, Cause::PointOutside, true, "the next point of the search lies outside its bracket, so it cannot go on; the bracket is as far as it came, ask for the state by another pair"),
    row(11, Cause::LimitTooLarge, false, "the step limit is above 65,535; give one from 0 to 65,535"),
    row(13, Cause::LogLengths, false, "the four runs of a log have not one length, or one above 4,096; give runs of one length, and a longer log in runs of 4,096"),
    row(21, Cause::NothingNamed, false, "the region or the property is not one that this call has; name another: (p,v) has regions 1 and 2 alone"),
];

impl Cause {
    /// The cause that a number stands for; nothing for 0, which is no refusal.
    pub fn of(number: u32) -> Option<Cause> {
        let row = ROWS.iter().find(|row| row.number == number);
        (number != 0).then_some(row.map_or(Cause::Unknown, |row| row.cause))
    }

    fn row(self) -> Option<&'static Row> {
        ROWS.iter().find(|row| row.cause == self)
    }

    /// What it means, and what to do: a `; ` is between them.
    pub fn sentence(self) -> &'static str {
        self.row().map_or(
            "this version has no sentence for this number; see the table of refusals",
            |row| row.sentence,
        )
    }
}

/// No answer: the refusal's number, what it is of, and where the search was when it gave up.
///
/// It shows itself as a sentence that says what the number means and what to do, and as what it is of.
/// A refusal equals itself, one of a NaN too: see [`Asked`].
///
/// ```
/// use climboat::{property, Property, Region};
///
/// let refusal = property(Region::One, Property::Volume, 0.1, 400.0).unwrap_err();
/// assert!(refusal.to_string().starts_with("refused by 3: the pressure is out of range"));
/// assert!(refusal.to_string().ends_with("; of region 1, p = 0.1 MPa, T = 400.0 K, where v was asked for"));
///
/// let refusal = property(Region::One, Property::Volume, f64::NAN, 400.0).unwrap_err();
/// assert_eq!(refusal, refusal);
/// ```
#[non_exhaustive]
#[derive(Clone, Copy, Debug, PartialEq)]
pub struct Refusal {
    /// What the refusal is of. 13 is of a log and of no place in it: both inputs are 0.
    pub asked: Asked,
    /// The number of document 01's table, 13, or 21.
    pub number: u32,
    /// The last point for 8, else 0.
    pub value: f64,
    /// The steps taken for 6, 8 and 10, else 0. For 8 they are the limit; the least limit that is enough for a 6 is its steps, for a 10 one more.
    pub steps: u32,
    /// The last bracket for 6, 8 and 10, else 0 and 0, as are its residuals. For 6 a residual that is not finite is given as 0.
    pub bracket: Bracket,
}

impl Refusal {
    /// The number by name.
    pub fn cause(&self) -> Cause {
        Cause::of(self.number).unwrap_or(Cause::Unknown)
    }

    /// What the number means, and what to do.
    pub fn sentence(&self) -> &'static str {
        self.cause().sentence()
    }

    /// Whether the refusal carries the steps taken and the last bracket.
    pub fn has_bracket(&self) -> bool {
        self.cause().row().is_some_and(|row| row.bracket)
    }

    /// The last point, which is no answer, where the steps are spent.
    pub fn last_point(&self) -> Option<f64> {
        (self.cause() == Cause::StepsSpent).then_some(self.value)
    }
}

impl fmt::Display for Refusal {
    fn fmt(&self, f: &mut fmt::Formatter<'_>) -> fmt::Result {
        let (asked, wanted, bracket) = (self.asked, self.asked.wanted(), self.bracket);
        write!(f, "refused by {}: {}", self.number, self.sentence())?;
        // a log is refused whole, and of no place: it has no inputs to show
        let of = match self.cause() {
            Cause::LogLengths => format!("a log of {}", asked.place()),
            _ => asked.to_string(),
        };
        write!(f, "; of {of}, where {} was asked for", wanted.symbol)?;
        if self.has_bracket() {
            write!(f, "; steps {}", self.steps)?;
            let (lower, upper) = (bracket.lower, bracket.upper);
            write!(f, ", bracket {lower:?} to {upper:?} {}", wanted.unit)?;
            let (lower, upper) = (bracket.lower_residual, bracket.upper_residual);
            let unit = asked.residual_unit();
            write!(f, ", residuals {lower:?} and {upper:?} {unit}")?;
        }
        if let Some(point) = self.last_point() {
            write!(f, ", last point {point:?} {}", wanted.unit)?;
        }
        Ok(())
    }
}

impl std::error::Error for Refusal {}

impl Record {
    /// The record as an answer or a refusal.
    pub fn read(self) -> Result<Reading, Refusal> {
        let asked = self.asked();
        let [number, reason, steps, mark, ..] = self.numbers;
        let [value, lower, upper, lower_residual, upper_residual, ..] = self.doubles;
        let bracket = Bracket {
            lower,
            upper,
            lower_residual,
            upper_residual,
        };
        if number != 0 {
            return Err(Refusal {
                asked,
                number,
                value,
                steps,
                bracket,
            });
        }
        let reason = match reason {
            2 => Reason::ExactEnd,
            3 => Reason::SmallResidual,
            4 => Reason::Narrow,
            _ => Reason::Value,
        };
        let search = Search {
            steps,
            bracket,
            inside: mark == 1,
        };
        Ok(Reading {
            asked,
            value,
            reason,
            search: (reason != Reason::Value).then_some(search),
        })
    }
}

#[cfg(test)]
mod tests {
    use super::*;

    fn refusal(number: u32) -> Refusal {
        // region 2 (T,s)
        let record = Record {
            numbers: [number, 0, 3, 0, 2, 9, 0, 0],
            doubles: [1.5, 1.0, 2.0, 0.25, -0.5, 500.0, 7.2, 0.0],
        };
        record.read().unwrap_err()
    }

    /// Every number that has a name.
    fn numbers() -> Vec<u32> {
        (1..=11).chain([13, 21]).collect()
    }

    #[test]
    fn every_number_of_the_table_has_its_own_cause_and_sentence() {
        let numbers = numbers();
        assert_eq!(numbers.len(), ROWS.len());
        for &number in &numbers {
            assert_ne!(refusal(number).cause(), Cause::Unknown, "{number}");
            for &other in numbers.iter().filter(|&&other| other != number) {
                assert_ne!(
                    refusal(number).cause(),
                    refusal(other).cause(),
                    "{number} and {other}"
                );
                assert_ne!(
                    refusal(number).sentence(),
                    refusal(other).sentence(),
                    "{number} and {other}"
                );
            }
        }
    }

    #[test]
    fn a_number_that_is_not_named_yet_is_still_a_refusal() {
        for number in [12, 14, 20, 22, u32::MAX] {
            assert_eq!(refusal(number).cause(), Cause::Unknown);
            assert_eq!(Cause::of(number), Some(Cause::Unknown));
            assert!(refusal(number)
                .to_string()
                .starts_with(&format!("refused by {number}: ")));
        }
    }

    #[test]
    fn a_cause_is_named_by_its_number_as_a_refusal_is() {
        assert_eq!(Cause::of(0), None);
        for number in numbers().into_iter().chain([12, u32::MAX]) {
            let cause = Cause::of(number).unwrap();
            assert_eq!(cause, refusal(number).cause(), "{number}");
            assert_eq!(cause.sentence(), refusal(number).sentence(), "{number}");
        }
    }

    #[test]
    fn what_it_is_of_is_shown_behind_the_sentence() {
        for number in numbers() {
            let start = format!("refused by {number}: {}", refusal(number).sentence());
            let of = match number {
                // of no place, so without inputs
                13 => "; of a log of region 2, where p was asked for",
                _ => "; of region 2, T = 500.0 K, s = 7.2 kJ/(kg K), where p was asked for",
            };
            let shown = refusal(number).to_string();
            assert!(shown.starts_with(&(start + of)), "{shown}");
            // in a line of a log this is where it begins
            assert_eq!(shown.matches("; of ").count(), 1, "{shown}");
        }
    }

    #[test]
    fn steps_bracket_and_residuals_are_shown_where_the_table_gives_them() {
        for number in numbers() {
            let shown = refusal(number).to_string();
            let rest = match number {
                6 | 10 => "; steps 3, bracket 1.0 to 2.0 MPa, residuals 0.25 and -0.5 kJ/(kg K)",
                8 => "; steps 3, bracket 1.0 to 2.0 MPa, residuals 0.25 and -0.5 kJ/(kg K), last point 1.5 MPa",
                _ => "",
            };
            let end = format!(" was asked for{rest}");
            assert!(shown.ends_with(&end), "{shown}");
        }
    }

    #[test]
    fn seven_says_that_a_state_may_exist() {
        assert!(refusal(7)
            .sentence()
            .contains("does not mean that there is no such state"));
    }
}
