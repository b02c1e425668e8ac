//! Every call there is, by what it is of, for the tests that go through all of them.
use climboat::*;

/// A call by its kind, its region and its property.
#[derive(Clone, Copy, Debug)]
pub struct Call {
    pub kind: Kind,
    pub region: Option<Region>,
    pub property: Option<Property>,
}

impl Call {
    /// Seven properties and three pairs in each region, (p,v) in two of them, and two coordinates of each line.
    pub fn all() -> Vec<Call> {
        let mut all = Vec::new();
        for &kind in Kind::ALL {
            let regions: Vec<Option<Region>> = match (kind, kind.inputs()) {
                (_, [_]) => vec![None],
                (Kind::Pv, _) => PvRegion::ALL.iter().map(|&pv| Some(pv.into())).collect(),
                _ => Region::ALL.iter().copied().map(Some).collect(),
            };
            let properties: Vec<Option<Property>> = match kind {
                Kind::PT => Property::ALL.iter().copied().map(Some).collect(),
                _ => vec![None],
            };
            for &region in &regions {
                let calls = properties.iter().map(|&property| Call {
                    kind,
                    region,
                    property,
                });
                all.extend(calls);
            }
        }
        assert_eq!(all.len(), 3 * (7 + 3) + 2 + 2 * 2);
        all
    }

    /// Asks it. A line has no second input, and only a search a limit.
    pub fn ask(self, first: f64, second: f64, limit: u32) -> Result<Reading, Refusal> {
        match (self.kind, self.region, self.property) {
            (Kind::PT, Some(region), Some(of)) => property(region, of, first, second),
            (Kind::SaturationPressure, None, None) => saturation_pressure(first),
            (Kind::SaturationTemperature, None, None) => saturation_temperature(first),
            (Kind::B23Pressure, None, None) => b23_pressure(first),
            (Kind::B23Temperature, None, None) => b23_temperature(first),
            (Kind::Pv, Some(region), None) => {
                pv2t(PvRegion::try_from(region).unwrap(), first, second, limit)
            }
            (Kind::Tv, Some(region), None) => tv2p(region, first, second, limit),
            (Kind::Th, Some(region), None) => th2p(region, first, second, limit),
            (Kind::Ts, Some(region), None) => ts2p(region, first, second, limit),
            _ => panic!("{self:?} is no call"),
        }
    }

    /// Asks it, and sees that what is written down is what was asked, the inputs by their bits.
    #[track_caller]
    pub fn told(self, first: f64, second: f64, limit: u32) -> Result<Reading, Refusal> {
        let answer = self.ask(first, second, limit);
        let asked = answer.map_or_else(|refusal| refusal.asked, |reading| reading.asked);
        let second = match self.kind.inputs() {
            [_] => 0.0,
            _ => second,
        };
        assert_eq!(
            (asked.kind, asked.region, asked.property),
            (self.kind, self.region, self.property),
            "{self:?} {first:?} {second:?} {limit}"
        );
        assert_eq!(
            (asked.first.to_bits(), asked.second.to_bits()),
            (first.to_bits(), second.to_bits()),
            "{self:?} {first:?} {second:?} {limit}"
        );
        answer
    }
}
