//! What a call is of: its kind, the region and the property that it names, and its inputs.
use crate::archive::Record;
use crate::choices::{Property, Region};
use std::fmt;

/// A quantity by its symbol and its unit, such as `p` in `MPa`.
///
/// ```
/// let energy = climboat::Property::InternalEnergy.quantity();
/// assert_eq!((energy.symbol, energy.unit), ("u", "kJ/kg"));
/// ```
#[non_exhaustive]
#[derive(Clone, Copy, Debug, PartialEq, Eq, Hash)]
pub struct Quantity {
    /// The symbol: `p`, `T`, or a property's.
    pub symbol: &'static str,
    /// The unit.
    pub unit: &'static str,
}

impl Quantity {
    /// What this version has no name for: `?` in `?`.
    pub const UNKNOWN: Quantity = Quantity::new("?", "?");

    pub(crate) const fn new(symbol: &'static str, unit: &'static str) -> Quantity {
        Quantity { symbol, unit }
    }
}

const PRESSURE: Quantity = Quantity::new("p", "MPa");
const TEMPERATURE: Quantity = Quantity::new("T", "K");
const VOLUME: Quantity = Property::Volume.quantity();
const ENTROPY: Quantity = Property::Entropy.quantity();
const ENTHALPY: Quantity = Property::Enthalpy.quantity();

/// Which of the calls it is, by the archive's numbers.
///
/// ```
/// use climboat::Kind;
///
/// let inputs = Kind::Ts.inputs();
/// assert_eq!((inputs[0].symbol, inputs[0].unit), ("T", "K"));
/// assert_eq!((inputs[1].symbol, inputs[1].unit), ("s", "kJ/(kg K)"));
/// assert_eq!((Kind::Ts.found().symbol, Kind::Ts.found().unit), ("p", "MPa"));
/// // a line of the release has no second input
/// assert_eq!(Kind::B23Temperature.inputs().len(), 1);
/// ```
#[non_exhaustive]
#[derive(Clone, Copy, Debug, PartialEq, Eq, Hash)]
pub enum Kind {
    /// (p,T) to a property.
    PT = 1,
    /// T to the pressure of the saturation line.
    SaturationPressure = 2,
    /// p to the temperature of the saturation line.
    SaturationTemperature = 3,
    /// T to the pressure of B23.
    B23Pressure = 4,
    /// p to the temperature of B23.
    B23Temperature = 5,
    /// (p,v) to T.
    Pv = 6,
    /// (T,v) to p.
    Tv = 7,
    /// (T,h) to p.
    Th = 8,
    /// (T,s) to p.
    Ts = 9,
    /// A number that this version has no name for.
    Unknown = 0,
}

impl Kind {
    /// Every kind that has a name.
    pub const ALL: &'static [Kind] = &[
        Kind::PT,
        Kind::SaturationPressure,
        Kind::SaturationTemperature,
        Kind::B23Pressure,
        Kind::B23Temperature,
        Kind::Pv,
        Kind::Tv,
        Kind::Th,
        Kind::Ts,
    ];

    /// The number that stands for the kind in the archive's records; 0 for [`Kind::Unknown`].
    pub fn number(self) -> u32 {
        self as u32
    }

    /// The inputs in the call's order: two, or one where there is no second.
    pub fn inputs(self) -> &'static [Quantity] {
        match self {
            Kind::PT => &[PRESSURE, TEMPERATURE],
            Kind::SaturationPressure | Kind::B23Pressure => &[TEMPERATURE],
            Kind::SaturationTemperature | Kind::B23Temperature => &[PRESSURE],
            Kind::Pv => &[PRESSURE, VOLUME],
            Kind::Tv => &[TEMPERATURE, VOLUME],
            Kind::Th => &[TEMPERATURE, ENTHALPY],
            Kind::Ts => &[TEMPERATURE, ENTROPY],
            Kind::Unknown => &[Quantity::UNKNOWN, Quantity::UNKNOWN],
        }
    }

    /// What the call finds. Of [`Kind::PT`] the property tells it ([`Asked::wanted`]), and the kind alone has no name for it.
    pub fn found(self) -> Quantity {
        match self {
            Kind::SaturationPressure | Kind::B23Pressure => PRESSURE,
            Kind::SaturationTemperature | Kind::B23Temperature => TEMPERATURE,
            Kind::Pv => TEMPERATURE,
            Kind::Tv | Kind::Th | Kind::Ts => PRESSURE,
            Kind::PT | Kind::Unknown => Quantity::UNKNOWN,
        }
    }

    /// Where the call asks, if it names no region.
    fn place(self) -> &'static str {
        match self {
            Kind::SaturationPressure | Kind::SaturationTemperature => "the saturation line",
            Kind::B23Pressure | Kind::B23Temperature => "B23",
            _ => "no region",
        }
    }
}

/// What an answer or a refusal is of, as the archive wrote it down.
///
/// It shows itself as where it asks, then the inputs in the call's order, in the shortest digits that read back.
/// Two are equal where they ask the same, the inputs compared by their bits: a NaN equals itself, and 0 is not -0.
/// The proofs know one NaN alone: that each comes back with its own bits is tested.
///
/// ```
/// use climboat::{property, pv2t, Kind, Property, PvRegion, Region, STEP_LIMIT};
///
/// let asked = pv2t(PvRegion::One, 0.2, 0.00103, STEP_LIMIT)?.asked;
/// assert_eq!((asked.kind, asked.region, asked.property), (Kind::Pv, Some(Region::One), None));
/// assert_eq!((asked.first, asked.second), (0.2, 0.00103));
/// assert_eq!(asked.to_string(), "region 1, p = 0.2 MPa, v = 0.00103 m^3/kg");
/// assert_eq!((asked.wanted().symbol, asked.wanted().unit), ("T", "K"));
///
/// // what came from the sensor comes back, the bits of a NaN too
/// let reading = f64::from_bits(0x7ff8_0000_0000_002a);
/// let refusal = property(Region::Two, Property::Volume, reading, 300.0).unwrap_err();
/// assert_eq!(refusal.asked.first.to_bits(), reading.to_bits());
/// assert_eq!(refusal.asked, refusal.asked);
/// # Ok::<(), climboat::Refusal>(())
/// ```
#[non_exhaustive]
#[derive(Clone, Copy, Debug)]
pub struct Asked {
    /// Which call it was.
    pub kind: Kind,
    /// The region that the call named; nothing where it names none, or one that the call has not.
    pub region: Option<Region>,
    /// The property that a (p,T) call asked for; nothing for every other kind.
    pub property: Option<Property>,
    /// The first input.
    pub first: f64,
    /// The second input, 0 where there is none.
    pub second: f64,
}

impl Asked {
    /// What was asked for: the property, or what the kind finds. The value is in its unit.
    pub fn wanted(&self) -> Quantity {
        self.property.map_or(self.kind.found(), Property::quantity)
    }

    /// What the residuals of a search are in: the target's unit, or `(relative)` where a residual is (v - v found)/v, in region 1 (p,v) and region 2 (T,v).
    ///
    /// ```
    /// use climboat::{tv2p, Region, STEP_LIMIT};
    ///
    /// let water = tv2p(Region::One, 300.0, 0.001, STEP_LIMIT)?;
    /// let steam = tv2p(Region::Two, 500.0, 0.1, STEP_LIMIT)?;
    /// assert_eq!(water.asked.residual_unit(), "m^3/kg");
    /// assert_eq!(steam.asked.residual_unit(), "(relative)");
    /// # Ok::<(), climboat::Refusal>(())
    /// ```
    pub fn residual_unit(&self) -> &'static str {
        match (self.kind, self.region) {
            (Kind::Pv, Some(Region::One)) | (Kind::Tv, Some(Region::Two)) => "(relative)",
            (kind, _) => kind.inputs().last().unwrap_or(&Quantity::UNKNOWN).unit,
        }
    }

    /// The words that it shows itself with, the inputs as `double` writes them.
    ///
    /// ```
    /// let boiling = climboat::saturation_temperature(1.0)?;
    /// let words = boiling.asked.words(|x| format!("{x:.3}"));
    /// assert_eq!(words, "the saturation line, p = 1.000 MPa");
    /// # Ok::<(), climboat::Refusal>(())
    /// ```
    pub fn words(&self, double: impl Fn(f64) -> String) -> String {
        let inputs = self.kind.inputs().iter().zip([self.first, self.second]);
        let inputs =
            inputs.map(|(input, x)| format!(", {} = {} {}", input.symbol, double(x), input.unit));
        std::iter::once(self.place()).chain(inputs).collect()
    }

    /// Where it asks: the region, or the line of the release.
    pub(crate) fn place(&self) -> String {
        match self.region {
            Some(region) => format!("region {}", region.number()),
            None => self.kind.place().to_string(),
        }
    }
}

impl fmt::Display for Asked {
    fn fmt(&self, f: &mut fmt::Formatter<'_>) -> fmt::Result {
        f.write_str(&self.words(|x| format!("{x:?}")))
    }
}

impl PartialEq for Asked {
    fn eq(&self, other: &Asked) -> bool {
        let choices = |asked: &Asked| (asked.kind, asked.region, asked.property);
        let bits = |asked: &Asked| (asked.first.to_bits(), asked.second.to_bits());
        choices(self) == choices(other) && bits(self) == bits(other)
    }
}

impl Eq for Asked {}

impl Record {
    /// The record of a log that came back with this number. It is of (p,T), and of no place: it has no inputs.
    pub fn of_log(number: u32, region: Region, property: Property) -> Record {
        let [region, property] = [region.number(), property.number()];
        let kind = Kind::PT.number();
        Record {
            numbers: [number, 0, 0, 0, region, kind, property, 0],
            ..Record::default()
        }
    }

    /// What the record is of.
    pub fn asked(&self) -> Asked {
        let [.., region, kind, property, _] = self.numbers;
        let [.., first, second, _] = self.doubles;
        Asked {
            kind: numbered(Kind::ALL, Kind::number, kind).unwrap_or(Kind::Unknown),
            region: numbered(Region::ALL, Region::number, region),
            property: numbered(Property::ALL, Property::number, property),
            first,
            second,
        }
    }
}

/// The choice that a number stands for, if there is one.
fn numbered<T: Copy>(choices: &[T], number: fn(T) -> u32, given: u32) -> Option<T> {
    choices
        .iter()
        .copied()
        .find(|&choice| number(choice) == given)
}

#[cfg(test)]
mod tests {
    use super::*;

    /// What a record of these numbers, with the inputs 0.5 and 300, is of.
    fn asked(region: u32, kind: u32, property: u32) -> Asked {
        let record = Record {
            numbers: [0, 0, 0, 0, region, kind, property, 0],
            doubles: [0.0, 0.0, 0.0, 0.0, 0.0, 0.5, 300.0, 0.0],
        };
        record.asked()
    }

    #[test]
    fn each_kind_shows_where_and_its_inputs() {
        #[rustfmt::skip]
        let shown = [
            (asked(1, 1, 7), "region 1, p = 0.5 MPa, T = 300.0 K", "w in m/s"),
            (asked(0, 2, 0), "the saturation line, T = 0.5 K", "p in MPa"),
            (asked(0, 3, 0), "the saturation line, p = 0.5 MPa", "T in K"),
            (asked(0, 4, 0), "B23, T = 0.5 K", "p in MPa"),
            (asked(0, 5, 0), "B23, p = 0.5 MPa", "T in K"),
            (asked(1, 6, 0), "region 1, p = 0.5 MPa, v = 300.0 m^3/kg", "T in K"),
            (asked(2, 7, 0), "region 2, T = 0.5 K, v = 300.0 m^3/kg", "p in MPa"),
            (asked(1, 8, 0), "region 1, T = 0.5 K, h = 300.0 kJ/kg", "p in MPa"),
            (asked(5, 9, 0), "region 5, T = 0.5 K, s = 300.0 kJ/(kg K)", "p in MPa"),
        ];
        for ((asked, words, wanted), &kind) in shown.into_iter().zip(Kind::ALL) {
            assert_eq!((asked.kind, asked.to_string().as_str()), (kind, words));
            let quantity = asked.wanted();
            assert_eq!(format!("{} in {}", quantity.symbol, quantity.unit), wanted);
        }
        assert_eq!(shown.len(), Kind::ALL.len());
    }

    #[test]
    fn residuals_of_a_bisection_are_relative() {
        let units = |kind| [1, 2, 5].map(|region| asked(region, kind, 0).residual_unit());
        assert_eq!(units(6)[..2], ["(relative)", "m^3/kg"]);
        assert_eq!(units(7), ["m^3/kg", "(relative)", "m^3/kg"]);
        assert_eq!(units(8), ["kJ/kg"; 3]);
        assert_eq!(units(9), ["kJ/(kg K)"; 3]);
    }

    #[test]
    fn what_has_no_name_is_still_told() {
        for kind in [0, 10, u32::MAX] {
            let asked = asked(0, kind, 0);
            assert_eq!((asked.kind, asked.kind.number()), (Kind::Unknown, 0));
            assert_eq!(asked.to_string(), "no region, ? = 0.5 ?, ? = 300.0 ?");
            assert_eq!(asked.wanted(), Quantity::UNKNOWN);
        }
        // what 21 leaves unnamed
        let nameless = asked(0, 1, 0);
        assert_eq!((nameless.region, nameless.property), (None, None));
        assert_eq!(nameless.to_string(), "no region, p = 0.5 MPa, T = 300.0 K");
        assert_eq!(nameless.wanted().symbol, "?");
    }

    #[test]
    fn inputs_are_compared_by_their_bits() {
        let of = |first: f64, second: f64| Asked {
            first,
            second,
            ..asked(2, 9, 0)
        };
        let quiet = f64::from_bits(0x7ff8_0000_0000_0000);
        let other = f64::from_bits(0x7ff8_0000_0000_0001);
        let all = [of(0.0, 1.0), of(-0.0, 1.0), of(quiet, 1.0), of(other, 1.0)];
        let all = all.into_iter().chain([of(1.0, quiet), of(1.0, other)]);
        let all = all.chain([asked(1, 9, 0), asked(5, 9, 0), asked(2, 8, 0)]);
        let all: Vec<Asked> = all.collect();
        for (place, one) in all.iter().enumerate() {
            for (other_place, other) in all.iter().enumerate() {
                assert_eq!(one == other, place == other_place, "{one:?} {other:?}");
            }
        }
    }
}
