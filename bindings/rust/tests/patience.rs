//! What the step limit of a search may change: nothing but 8; and what the steps of an outcome promise.
mod searches;

use climboat::*;
use searches::{searches, target};

type Outcome = Result<Reading, Refusal>;

/// One search without its limit.
#[derive(Clone, Copy, Debug)]
struct Asking {
    pair: Pair,
    region: Region,
    fixed: f64,
    target: f64,
}

impl Asking {
    fn under(self, limit: u32) -> Outcome {
        search(self.pair, self.region, self.fixed, self.target, limit)
    }
}

/// Pressures and temperatures in the regions, at their ends and beyond.
const PRESSURES: [f64; 9] = [
    1.0e-8,
    1.0e-5,
    0.000611213,
    0.003,
    0.2,
    3.0,
    16.5291643,
    50.0,
    100.0,
];
const TEMPERATURES: [f64; 11] = [
    273.15, 280.0, 300.0, 452.5, 500.0, 623.15, 700.0, 863.15, 1073.15, 1500.0, 2273.15,
];
/// Targets that are no state's.
const STRANGE: [f64; 8] = [
    f64::NAN,
    f64::INFINITY,
    0.0,
    -1.0,
    5.0e-324,
    1.0e-305,
    1.0,
    1.0e300,
];

/// Every target at every pressure and temperature that a search may be given.
fn of_search(pair: Pair, region: Region) -> Vec<Asking> {
    let (fixed, sought) = match pair {
        Pair::Pv => (&PRESSURES[..], &TEMPERATURES[..]),
        _ => (&TEMPERATURES[..], &PRESSURES[..]),
    };
    let mut all = Vec::new();
    for &fixed in fixed {
        let states = sought.iter().filter_map(|&x| {
            let (p, t) = if pair == Pair::Pv {
                (fixed, x)
            } else {
                (x, fixed)
            };
            Some(property(region, target(pair), p, t).ok()?.value)
        });
        all.extend(states.chain(STRANGE).map(|target| Asking {
            pair,
            region,
            fixed,
            target,
        }));
    }
    all
}

/// The least limit that is enough for an outcome that is not 8.
fn enough(outcome: Outcome) -> u32 {
    match outcome {
        Ok(reading) if reading.reason == Reason::ExactEnd => 0,
        Ok(reading) => {
            let asked = (reading.asked.kind, reading.asked.region);
            let steps = reading.search.unwrap().steps;
            match asked {
                (Kind::Pv, Some(Region::One)) | (Kind::Tv, Some(Region::Two)) => steps,
                // Brent's search tests the limit before its stop
                _ => steps + 1,
            }
        }
        Err(refusal) => match refusal.cause() {
            Cause::ResidualNotFinite => refusal.steps,
            Cause::PointOutside => refusal.steps + 1,
            _ => 0,
        },
    }
}

fn is_spent(outcome: Outcome) -> bool {
    outcome.is_err_and(|refusal| refusal.cause() == Cause::StepsSpent)
}

/// Equal, and in the same words: a zero's sign, which equality does not see, is among them.
#[track_caller]
fn assert_same(one: Outcome, other: Outcome) {
    assert_eq!(one, other);
    assert_eq!(format!("{one:?}"), format!("{other:?}"));
}

/// The limits around the one that is enough, and others up to the largest.
fn limits(least: u32) -> Vec<u32> {
    let mut limits = vec![0, 1, 5, 20, 1_000, STEP_LIMIT, STEP_LIMIT + 1];
    limits.extend([least.saturating_sub(1), least, least + 1]);
    limits.extend([LARGEST_STEP_LIMIT - 1, LARGEST_STEP_LIMIT]);
    limits.sort_unstable();
    limits
}

#[test]
fn the_steps_say_which_limits_are_enough() {
    for (pair, region) in searches() {
        let mut turned = 0;
        for asking in of_search(pair, region) {
            let settled = asking.under(LARGEST_STEP_LIMIT);
            assert!(!is_spent(settled), "{asking:?}");
            let least = enough(settled);
            turned += u32::from(least > 0);
            for limit in limits(least) {
                let outcome = asking.under(limit);
                if limit >= least {
                    assert_same(outcome, settled);
                } else {
                    assert!(is_spent(outcome), "{asking:?} {limit}: {outcome:?}");
                    assert_eq!(outcome.unwrap_err().steps, limit, "{asking:?}");
                }
            }
        }
        assert!(turned > 0, "{pair:?} {region:?} never takes a step");
    }
}

#[test]
fn a_larger_limit_changes_nothing_but_8() {
    for (pair, region) in searches() {
        let mut turned = 0;
        for asking in of_search(pair, region) {
            let limits = limits(enough(asking.under(LARGEST_STEP_LIMIT)));
            for (&smaller, &larger) in limits.iter().zip(&limits[1..]) {
                let (before, after) = (asking.under(smaller), asking.under(larger));
                if is_spent(before) {
                    turned += u32::from(after.is_ok());
                } else {
                    assert_same(before, after);
                }
            }
        }
        assert!(turned > 0, "{pair:?} {region:?}: 8 never became an answer");
    }
}

#[test]
fn the_limits_are_two() {
    assert_eq!((STEP_LIMIT, LARGEST_STEP_LIMIT), (20_000, 65_535));
    for (pair, region) in searches() {
        for asking in of_search(pair, region) {
            for limit in [65_536, 65_537, 1 << 17, u32::MAX] {
                let refusal = asking.under(limit).unwrap_err();
                assert_eq!(refusal.cause(), Cause::LimitTooLarge, "{asking:?} {limit}");
                assert_eq!((refusal.value, refusal.steps), (0.0, 0), "{asking:?}");
            }
        }
    }
}
