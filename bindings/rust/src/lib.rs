//! Climboat for Rust: properties of water and steam by IAPWS-IF97, regions 1, 2 and 5, the saturation line and B23, or a refusal by number.
//!
//! Every call is one call of Climboat's proved archive. It takes any doubles and any step limit, and answers a [`Reading`] or a [`Refusal`]; it never panics. A whole log goes in one call of
//! [`property_log`], or of [`property_long_log`], which makes as many of the archive's as the log is long.
//! Units: MPa, K, m^3/kg, kJ/kg, kJ/(kg K), m/s. The caller always names the region.
//!
//! This holds in IEEE 754's default floating-point environment, which Rust takes for granted: exceptions masked, rounding to nearest, subnormals kept.
//! C code in the same program can change it (linking with `-ffast-math` turns flush-to-zero on): README.md, "The floating-point environment", says what was measured then.
//!
//! ```
//! use climboat::{property, pv2t, Property, PvRegion, Reason, Region, STEP_LIMIT};
//!
//! let volume = property(Region::One, Property::Volume, 3.0, 300.0)?;
//! assert_eq!(format!("{:.8e}", volume.value), "1.00215168e-3");
//!
//! let temperature = pv2t(PvRegion::One, 3.0, volume.value, STEP_LIMIT)?;
//! assert!((temperature.value - 300.0).abs() < 1.0e-4);
//! assert_eq!(temperature.reason, Reason::SmallResidual);
//! // a search may find a value outside its region: nothing is decided on that
//! assert!(temperature.is_inside());
//! # Ok::<(), climboat::Refusal>(())
//! ```
//!
//! A refusal is an error with a sentence. It says what it is of, as a reading does: the field `asked` is what the archive wrote down of the call, not what the caller remembers.
//!
//! ```
//! use climboat::{property, Cause, Kind, Property, Region};
//!
//! let refusal = property(Region::Two, Property::Volume, 0.0, 300.0).unwrap_err();
//! assert_eq!(refusal.number, 3);
//! assert_eq!(refusal.cause(), Cause::PressureOutOfRange);
//! assert!(refusal.to_string().starts_with("refused by 3: the pressure is out of range"));
//! assert_eq!((refusal.asked.kind, refusal.asked.first), (Kind::PT, 0.0));
//! assert_eq!(refusal.asked.to_string(), "region 2, p = 0.0 MPa, T = 300.0 K");
//! ```
#![deny(missing_docs)]
#![deny(unsafe_code)]

mod answer;
mod archive;
mod asked;
mod choices;

pub use answer::{Bracket, Cause, Reading, Reason, Refusal, Search};
pub use asked::{Asked, Kind, Quantity};
pub use choices::{Pair, Property, PvRegion, Region, WithoutPv};

/// The version of Climboat.
pub const VERSION: &str = env!("CARGO_PKG_VERSION");

/// What it follows: the crate that it ports, and the release whose equations these are.
pub const FOLLOWS: &str = "seuif97 2.3.8 and IAPWS R7-97(2012)";

/// The step limit that the vessels use. It is not the largest: see [`LARGEST_STEP_LIMIT`].
pub const STEP_LIMIT: u32 = 20_000;

/// The largest step limit that a search takes. A larger one is refused by 11.
///
/// Up to it a larger limit never changes an answer or a refusal other than 8: the outcome is the same in every part, bit for bit. 8 alone may turn into something else: an answer, 6 or 10.
///
/// ```
/// use climboat::{ts2p, Region, LARGEST_STEP_LIMIT, STEP_LIMIT};
///
/// let pressure = ts2p(Region::Two, 500.0, 7.2, STEP_LIMIT)?;
/// assert_eq!(ts2p(Region::Two, 500.0, 7.2, LARGEST_STEP_LIMIT)?, pressure);
/// assert_eq!(ts2p(Region::Two, 500.0, 7.2, LARGEST_STEP_LIMIT + 1).unwrap_err().number, 11);
/// # Ok::<(), climboat::Refusal>(())
/// ```
pub const LARGEST_STEP_LIMIT: u32 = 65_535;

/// The most places that [`property_log`] fills in one call. A longer log is refused by 13; [`property_long_log`] takes any.
pub const LONGEST_LOG: usize = 4_096;

/// A property of the named region at p and T.
///
/// ```
/// use climboat::{property, Property, Region};
///
/// let speed = property(Region::Two, Property::SpeedOfSound, 0.0035, 300.0)?;
/// assert_eq!(format!("{:.6} {}", speed.value, Property::SpeedOfSound.unit()), "427.920172 m/s");
/// # Ok::<(), climboat::Refusal>(())
/// ```
pub fn property(region: Region, property: Property, p: f64, t: f64) -> Result<Reading, Refusal> {
    archive::property(region.number(), property.number(), p, t).read()
}

/// A property of the named region at every p and T of a log, in one call of the archive.
///
/// `values` and `numbers` are filled with what [`property`] gives at each place: the value, 0 where it is refused, and the number of the refusal, 0 where it is answered. No refusal stops the
/// rest, and none is an error here: [`Cause::of`] names a place's number. The four lengths must be one, and at most [`LONGEST_LOG`]; else nothing is written, and the log is refused by 13. A log
/// without a place is filled.
///
/// ```
/// use climboat::{property_log, Cause, Property, Region};
///
/// let (p, t) = ([3.0, 0.1, f64::NAN], [300.0, 400.0, 300.0]);
/// let (mut values, mut numbers) = ([0.0; 3], [0; 3]);
/// property_log(Region::One, Property::Volume, &p, &t, &mut values, &mut numbers)?;
/// assert_eq!(values, [0.0010021516796866943, 0.0, 0.0]);
/// assert_eq!(numbers, [0, 3, 1]);
/// let causes = [None, Some(Cause::PressureOutOfRange), Some(Cause::NotFinite)];
/// assert_eq!(numbers.map(Cause::of), causes);
///
/// let refusal = property_log(Region::One, Property::Volume, &p, &t[1..], &mut values, &mut numbers).unwrap_err();
/// assert_eq!((refusal.number, refusal.cause()), (13, Cause::LogLengths));
/// assert!(refusal.to_string().ends_with("; of a log of region 1, where v was asked for"));
/// # Ok::<(), climboat::Refusal>(())
/// ```
pub fn property_log(
    region: Region,
    property: Property,
    p: &[f64],
    t: &[f64],
    values: &mut [f64],
    numbers: &mut [u32],
) -> Result<(), Refusal> {
    let number = archive::property_log(region.number(), property.number(), p, t, values, numbers);
    archive::Record::of_log(number, region, property)
        .read()
        .map(|_| ())
}

/// A property of the named region at every p and T of a log of any length, in runs of [`LONGEST_LOG`]: each place as [`property_log`] fills it.
///
/// The four lengths must be one; else nothing is written, and the log is refused by 13.
///
/// ```
/// use climboat::{property_log, property_long_log, Property, Region};
///
/// let (p, t) = (vec![3.0; 86_400], vec![300.0; 86_400]); // a reading each second of a day
/// let (mut values, mut numbers) = (vec![0.0; 86_400], vec![0; 86_400]);
/// assert!(property_log(Region::One, Property::Volume, &p, &t, &mut values, &mut numbers).is_err());
/// property_long_log(Region::One, Property::Volume, &p, &t, &mut values, &mut numbers)?;
/// assert!(values.iter().all(|&v| v == 0.0010021516796866943) && numbers.iter().all(|&n| n == 0));
/// # Ok::<(), climboat::Refusal>(())
/// ```
pub fn property_long_log(
    region: Region,
    property: Property,
    p: &[f64],
    t: &[f64],
    values: &mut [f64],
    numbers: &mut [u32],
) -> Result<(), Refusal> {
    if [t.len(), values.len(), numbers.len()] != [p.len(); 3] {
        // it refuses them, and writes nothing
        return property_log(region, property, p, t, values, numbers);
    }
    let asked = p.chunks(LONGEST_LOG).zip(t.chunks(LONGEST_LOG));
    let filled = values.chunks_mut(LONGEST_LOG);
    let filled = filled.zip(numbers.chunks_mut(LONGEST_LOG));
    for ((p, t), (values, numbers)) in asked.zip(filled) {
        property_log(region, property, p, t, values, numbers)?;
    }
    Ok(())
}

/// The pressure of the saturation line at T, from 273.15 to 647.096 K.
pub fn saturation_pressure(t: f64) -> Result<Reading, Refusal> {
    archive::saturation_pressure(t).read()
}

/// The temperature of the saturation line at p, from 0.000611212677 to 22.064 MPa.
///
/// ```
/// let boiling = climboat::saturation_temperature(0.1)?;
/// assert_eq!(format!("{:.6}", boiling.value), "372.755919");
/// # Ok::<(), climboat::Refusal>(())
/// ```
pub fn saturation_temperature(p: f64) -> Result<Reading, Refusal> {
    archive::saturation_temperature(p).read()
}

/// The pressure of B23, the boundary between regions 2 and 3, at T from 623.15 to 863.15 K.
pub fn b23_pressure(t: f64) -> Result<Reading, Refusal> {
    archive::b23_pressure(t).read()
}

/// The temperature of B23 at p, from 16.5291643 to 100 MPa.
pub fn b23_temperature(p: f64) -> Result<Reading, Refusal> {
    archive::b23_temperature(p).read()
}

/// Searches a region for the state with this pair: the first of the pair is fixed, the second is the target.
///
/// A found point may lie outside the region: [`Reading::is_inside`] says so.
/// What a larger limit can change, [`LARGEST_STEP_LIMIT`] says; which limit is enough, [`Search::steps`].
///
/// ```
/// use climboat::{search, Cause, Pair, Region};
///
/// let refusal = search(Pair::Ts, Region::Two, 500.0, 7.2, 0).unwrap_err();
/// assert_eq!(refusal.cause(), Cause::StepsSpent);
/// assert_eq!((refusal.steps, refusal.bracket.lower), (0, 1.0e-8));
/// ```
///
/// Pair and region are named at run time, so that a pair can meet a region that has not got it. (p,v) of region 5 is refused by 21, whatever the inputs and the limit, and the refusal is of no region.
/// [`pv2t`] takes a [`PvRegion`], with which this cannot be asked.
///
/// ```
/// use climboat::{search, Cause, Pair, Region, STEP_LIMIT};
///
/// let refusal = search(Pair::Pv, Region::Five, 0.5, 1.3845, STEP_LIMIT).unwrap_err();
/// assert_eq!((refusal.number, refusal.cause()), (21, Cause::NothingNamed));
/// assert!(refusal.sentence().ends_with("(p,v) has regions 1 and 2 alone"));
/// assert_eq!(refusal.asked.to_string(), "no region, p = 0.5 MPa, v = 1.3845 m^3/kg");
/// ```
pub fn search(
    pair: Pair,
    region: Region,
    fixed: f64,
    target: f64,
    limit: u32,
) -> Result<Reading, Refusal> {
    match pair {
        Pair::Pv => archive::pv2t(region.number(), fixed, target, limit).read(),
        Pair::Tv => tv2p(region, fixed, target, limit),
        Pair::Th => th2p(region, fixed, target, limit),
        Pair::Ts => ts2p(region, fixed, target, limit),
    }
}

/// (p,v) to T: p from 0.000611212677444 (region 1) or 1.0e-8 (region 2) to 100 MPa, v above zero. Region 5 has no (p,v): to name it does not compile ([`PvRegion`]).
pub fn pv2t(region: PvRegion, p: f64, v: f64, limit: u32) -> Result<Reading, Refusal> {
    archive::pv2t(region.number(), p, v, limit).read()
}

/// (T,v) to p: T from 273.15 to 623.15 (region 1) or 1073.15 K (region 2), or from 1073.15 to 2273.15 K (region 5), v above zero.
///
/// The ends of a narrow answer of region 2 are less than a millionth of the upper one apart, in a low vacuum too. Those of region 5, by Brent's rule, are up to 1.2e-7 times the pressure
/// plus 1.0e-8 MPa apart, which in a low vacuum is a larger part of it.
///
/// ```
/// use climboat::{property, tv2p, Property, Region, STEP_LIMIT};
///
/// let v = property(Region::Two, Property::Volume, 1.0e-5, 280.0).unwrap().value;
/// let p = tv2p(Region::Two, 280.0, v, STEP_LIMIT).unwrap().value;
/// assert!((p - 1.0e-5).abs() < 1.0e-6 * p);
/// ```
pub fn tv2p(region: Region, t: f64, v: f64, limit: u32) -> Result<Reading, Refusal> {
    archive::tv2p(region.number(), t, v, limit).read()
}

/// (T,h) to p: T as for [`tv2p`], h any finite number.
pub fn th2p(region: Region, t: f64, h: f64, limit: u32) -> Result<Reading, Refusal> {
    archive::th2p(region.number(), t, h, limit).read()
}

/// (T,s) to p: T as for [`tv2p`], s any finite number.
pub fn ts2p(region: Region, t: f64, s: f64, limit: u32) -> Result<Reading, Refusal> {
    archive::ts2p(region.number(), t, s, limit).read()
}

#[cfg(doctest)]
#[doc = include_str!("../../../docs/FROM-SEUIF97.md")]
struct FromSeuif97;
