//! The residuals of a bracket: what the formula gives at its ends, and 0 where the table gives none.
mod searches;

use climboat::*;
use searches::{searches, target};

/// States of each region.
const STATES: [(Region, f64, f64); 11] = [
    (Region::One, 3.0, 300.0),
    (Region::One, 80.0, 300.0),
    (Region::One, 3.0, 500.0),
    (Region::One, 50.0, 620.0),
    (Region::Two, 1.0e-5, 280.0),
    (Region::Two, 0.0035, 300.0),
    (Region::Two, 1.0, 700.0),
    (Region::Two, 30.0, 800.0),
    (Region::Five, 0.5, 1500.0),
    (Region::Five, 30.0, 1500.0),
    (Region::Five, 30.0, 2000.0),
];
/// Limits that end a search early, and two that let it answer.
const LIMITS: [u32; 6] = [0, 1, 5, 15, STEP_LIMIT, LARGEST_STEP_LIMIT];

/// The residual at an end by (p,T), where the region answers there.
fn recomputed(pair: Pair, asked: Asked, end: f64) -> Option<f64> {
    let (p, t) = match pair {
        Pair::Pv => (asked.first, end),
        _ => (end, asked.first),
    };
    let found = property(asked.region?, target(pair), p, t).ok()?.value;
    Some(match asked.residual_unit() {
        "(relative)" => (asked.second - found) / asked.second,
        _ => asked.second - found,
    })
}

/// Compares what can be recomputed, and says how many ends that were.
fn compared(pair: Pair, asked: Asked, bracket: Bracket) -> u32 {
    let ends = [
        (bracket.lower, bracket.lower_residual),
        (bracket.upper, bracket.upper_residual),
    ];
    let mut compared = 0;
    for (end, residual) in ends {
        if let Some(again) = recomputed(pair, asked, end) {
            assert_eq!(residual.to_bits(), again.to_bits(), "{asked}: {bracket:?}");
            compared += 1;
        }
    }
    compared
}

/// The ends hold the target between them, or have it.
fn enclose(asked: Asked, bracket: Bracket) {
    let (lower, upper) = (bracket.lower_residual, bracket.upper_residual);
    let opposite = lower.is_sign_negative() != upper.is_sign_negative();
    assert!(
        opposite || lower == 0.0 || upper == 0.0,
        "{asked}: {bracket:?}"
    );
}

/// What an answer or a refusal by 8 is of, and its bracket.
fn searched(answer: Result<Reading, Refusal>) -> (Asked, Bracket) {
    match answer {
        Ok(reading) => (reading.asked, reading.search.unwrap().bracket),
        Err(refusal) => {
            assert_eq!(refusal.cause(), Cause::StepsSpent, "{refusal}");
            (refusal.asked, refusal.bracket)
        }
    }
}

/// Asks for a state by a pair under each limit: how many ends of refusals and of answers were compared.
fn state(pair: Pair, region: Region, p: f64, t: f64) -> [u32; 2] {
    let wanted = property(region, target(pair), p, t).unwrap().value;
    let fixed = if pair == Pair::Pv { p } else { t };
    let mut ends = [0, 0];
    for limit in LIMITS {
        let answer = search(pair, region, fixed, wanted, limit);
        let (asked, bracket) = searched(answer);
        enclose(asked, bracket);
        ends[usize::from(answer.is_ok())] += compared(pair, asked, bracket);
    }
    ends
}

#[test]
fn they_are_what_the_formula_gives_at_the_ends() {
    for (pair, region) in searches() {
        for (_, p, t) in STATES.into_iter().filter(|state| state.0 == region) {
            let ends = state(pair, region, p, t);
            assert!(
                ends.iter().all(|&count| count > 0),
                "{pair:?} {region:?} {p} {t}: {ends:?}"
            );
        }
    }
}

#[test]
fn an_exact_end_has_none_left() {
    for t in [273.15, 623.15] {
        let v = property(Region::One, Property::Volume, 100.0, t).unwrap();
        let reading = pv2t(PvRegion::One, 100.0, v.value, STEP_LIMIT).unwrap();
        assert_eq!((reading.value, reading.reason), (t, Reason::ExactEnd));
        let bracket = reading.search.unwrap().bracket;
        assert_eq!(compared(Pair::Pv, reading.asked, bracket), 2);
        assert_eq!(bracket.lower_residual == 0.0, t == bracket.lower);
        assert_eq!(bracket.upper_residual == 0.0, t == bracket.upper);
    }
}

#[test]
fn one_that_is_not_finite_is_0_each_end_by_itself() {
    let refused = |v: f64| tv2p(Region::Two, 900.0, v, STEP_LIMIT).unwrap_err();
    // divided by the least double both overflow; by one a little larger only that of the volume at the lower end
    let [both, lower] = [5.0e-324, 1.0e-305].map(refused);
    for refusal in [both, lower] {
        assert_eq!(refusal.cause(), Cause::ResidualNotFinite, "{refusal}");
    }
    assert_eq!(
        (both.bracket.lower_residual, both.bracket.upper_residual),
        (0.0, 0.0)
    );
    assert_eq!(lower.bracket.lower_residual, 0.0);
    let upper = recomputed(Pair::Tv, lower.asked, lower.bracket.upper);
    assert_eq!(Some(lower.bracket.upper_residual), upper);
    assert!(lower.bracket.upper_residual < -1.0e300);
}
