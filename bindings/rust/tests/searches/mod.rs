//! Every search there is, for the tests that go through all of them.
// not every file of tests needs all of it
#![allow(dead_code)]
use climboat::{Pair, Property, PvRegion, Region};

/// Each pair with each region that has it.
pub fn searches() -> Vec<(Pair, Region)> {
    let mut all = Vec::new();
    for &pair in Pair::ALL {
        let has = |region| pair != Pair::Pv || PvRegion::try_from(region).is_ok();
        let regions = Region::ALL.iter().copied().filter(|&region| has(region));
        all.extend(regions.map(|region| (pair, region)));
    }
    assert_eq!(all.len(), 2 + 3 * 3);
    all
}

/// The property that a pair has as its target.
pub fn target(pair: Pair) -> Property {
    let symbol = pair.kind().inputs()[1].symbol;
    let mut found = Property::ALL.iter().filter(|of| of.symbol() == symbol);
    *found.next().unwrap()
}
