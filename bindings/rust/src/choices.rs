//! What a caller chooses: the region, the property, and the pair of a search.
use crate::asked::{Kind, Quantity};
use std::fmt;

/// The region, always named by the caller.
///
/// A point on the saturation line belongs to region 1 or 2, and one at 1073.15 K to region 2 or 5, as named. The release's equations do not quite meet there.
///
/// ```
/// use climboat::{property, Property, Region};
///
/// let [steam, furnace] = [Region::Two, Region::Five]
///     .map(|region| property(region, Property::Enthalpy, 0.5, 1073.15).unwrap().value);
/// assert!(steam != furnace && (steam - furnace).abs() < 0.01);
/// ```
#[non_exhaustive]
#[derive(Clone, Copy, Debug, PartialEq, Eq, Hash)]
pub enum Region {
    /// Water: 273.15 to 623.15 K, from the saturation pressure to 100 MPa.
    One,
    /// Steam: 273.15 to 1073.15 K, from 1.0e-8 MPa to the saturation pressure, B23 or 100 MPa.
    Two,
    /// Steam: 1073.15 to 2273.15 K, from 1.0e-8 to 50 MPa. It has no (p,v): see [`PvRegion`].
    Five,
}

impl Region {
    /// Every region.
    pub const ALL: &'static [Region] = &[Region::One, Region::Two, Region::Five];

    /// The region's number in the release.
    pub fn number(self) -> u32 {
        match self {
            Region::One => 1,
            Region::Two => 2,
            Region::Five => 5,
        }
    }
}

/// A region that has (p,v).
///
/// ```
/// use climboat::{pv2t, PvRegion, Region, STEP_LIMIT};
///
/// let temperature = pv2t(PvRegion::One, 0.2, 0.00103, STEP_LIMIT)?;
/// assert_eq!(temperature.asked.region, Some(Region::One));
///
/// // where the region is known at run time alone
/// assert_eq!(PvRegion::try_from(Region::Two), Ok(PvRegion::Two));
/// let without = PvRegion::try_from(Region::Five).unwrap_err();
/// assert_eq!(without.to_string(), "region 5 has no (p,v); regions 1 and 2 have it");
/// # Ok::<(), climboat::Refusal>(())
/// ```
///
/// Region 5 has none, and a call that names it does not compile:
///
/// ```compile_fail,E0308
/// climboat::pv2t(climboat::Region::Five, 0.5, 1.3845, climboat::STEP_LIMIT);
/// ```
#[non_exhaustive]
#[derive(Clone, Copy, Debug, PartialEq, Eq, Hash)]
pub enum PvRegion {
    /// [`Region::One`].
    One,
    /// [`Region::Two`].
    Two,
}

impl PvRegion {
    /// Every region that has (p,v).
    pub const ALL: &'static [PvRegion] = &[PvRegion::One, PvRegion::Two];

    /// The region's number in the release.
    pub fn number(self) -> u32 {
        Region::from(self).number()
    }
}

impl From<PvRegion> for Region {
    fn from(region: PvRegion) -> Region {
        match region {
            PvRegion::One => Region::One,
            PvRegion::Two => Region::Two,
        }
    }
}

impl TryFrom<Region> for PvRegion {
    type Error = WithoutPv;

    fn try_from(region: Region) -> Result<PvRegion, WithoutPv> {
        let mut all = PvRegion::ALL.iter().copied();
        all.find(|&pv| Region::from(pv) == region)
            .ok_or(WithoutPv { region })
    }
}

/// A region that has no (p,v), where one that has it is needed. It shows itself as a sentence that names those that have it.
#[non_exhaustive]
#[derive(Clone, Copy, Debug, PartialEq, Eq, Hash)]
pub struct WithoutPv {
    /// The region that was named.
    pub region: Region,
}

impl fmt::Display for WithoutPv {
    fn fmt(&self, f: &mut fmt::Formatter<'_>) -> fmt::Result {
        let numbers = PvRegion::ALL.iter().map(|pv| pv.number().to_string());
        let numbers = numbers.collect::<Vec<_>>().join(" and ");
        let without = self.region.number();
        write!(
            f,
            "region {without} has no (p,v); regions {numbers} have it"
        )
    }
}

impl std::error::Error for WithoutPv {}

/// A property of water or steam.
#[non_exhaustive]
#[derive(Clone, Copy, Debug, PartialEq, Eq, Hash)]
pub enum Property {
    /// v, the specific volume.
    Volume,
    /// u, the specific internal energy.
    InternalEnergy,
    /// s, the specific entropy. In regions 2 and 5 it has ln p in it, which is proved to be less than 2^-48 off.
    Entropy,
    /// h, the specific enthalpy.
    Enthalpy,
    /// cp, the specific isobaric heat capacity.
    Cp,
    /// cv, the specific isochoric heat capacity.
    Cv,
    /// w, the speed of sound.
    SpeedOfSound,
}

impl Property {
    /// Every property.
    pub const ALL: &'static [Property] = &[
        Property::Volume,
        Property::InternalEnergy,
        Property::Entropy,
        Property::Enthalpy,
        Property::Cp,
        Property::Cv,
        Property::SpeedOfSound,
    ];

    /// The property's symbol: `v`, `u`, `s`, `h`, `cp`, `cv` or `w`.
    pub const fn symbol(self) -> &'static str {
        match self {
            Property::Volume => "v",
            Property::InternalEnergy => "u",
            Property::Entropy => "s",
            Property::Enthalpy => "h",
            Property::Cp => "cp",
            Property::Cv => "cv",
            Property::SpeedOfSound => "w",
        }
    }

    /// The property's unit.
    pub const fn unit(self) -> &'static str {
        match self {
            Property::Volume => "m^3/kg",
            Property::InternalEnergy | Property::Enthalpy => "kJ/kg",
            Property::Entropy | Property::Cp | Property::Cv => "kJ/(kg K)",
            Property::SpeedOfSound => "m/s",
        }
    }

    /// The property's symbol and unit together.
    pub const fn quantity(self) -> Quantity {
        Quantity::new(self.symbol(), self.unit())
    }

    /// The number that stands for the property in the archive's calls and records.
    pub fn number(self) -> u32 {
        match self {
            Property::Volume => 1,
            Property::InternalEnergy => 2,
            Property::Entropy => 3,
            Property::Enthalpy => 4,
            Property::Cp => 5,
            Property::Cv => 6,
            Property::SpeedOfSound => 7,
        }
    }
}

/// The pair of inputs of a search: the one that is fixed, and the target.
#[non_exhaustive]
#[derive(Clone, Copy, Debug, PartialEq, Eq, Hash)]
pub enum Pair {
    /// (p,v) to T.
    Pv,
    /// (T,v) to p.
    Tv,
    /// (T,h) to p.
    Th,
    /// (T,s) to p.
    Ts,
}

impl Pair {
    /// Every pair.
    pub const ALL: &'static [Pair] = &[Pair::Pv, Pair::Tv, Pair::Th, Pair::Ts];

    /// The pair's symbol: `pv`, `Tv`, `Th` or `Ts`.
    pub fn symbol(self) -> &'static str {
        match self {
            Pair::Pv => "pv",
            Pair::Tv => "Tv",
            Pair::Th => "Th",
            Pair::Ts => "Ts",
        }
    }

    /// The kind of the call that searches by this pair.
    ///
    /// ```
    /// use climboat::Pair;
    ///
    /// let symbols: Vec<&str> = Pair::Tv.kind().inputs().iter().map(|input| input.symbol).collect();
    /// assert_eq!((symbols.as_slice(), Pair::Tv.found()), (["T", "v"].as_slice(), "p"));
    /// ```
    pub fn kind(self) -> Kind {
        match self {
            Pair::Pv => Kind::Pv,
            Pair::Tv => Kind::Tv,
            Pair::Th => Kind::Th,
            Pair::Ts => Kind::Ts,
        }
    }

    /// The symbol of what is found: `T` or `p`.
    pub fn found(self) -> &'static str {
        self.kind().found().symbol
    }

    /// The unit of what is found, and of its bracket.
    pub fn unit(self) -> &'static str {
        self.kind().found().unit
    }
}

#[cfg(test)]
mod tests {
    use super::*;

    #[test]
    fn a_region_that_has_pv_is_itself_again_and_another_is_named() {
        for &region in Region::ALL {
            match PvRegion::try_from(region) {
                Ok(pv) => assert_eq!((Region::from(pv), pv.number()), (region, region.number())),
                Err(without) => assert_eq!((without.region, region), (region, Region::Five)),
            }
        }
        let all = PvRegion::ALL.iter().map(|&pv| Region::from(pv));
        assert_eq!(all.collect::<Vec<_>>(), [Region::One, Region::Two]);
    }
}
