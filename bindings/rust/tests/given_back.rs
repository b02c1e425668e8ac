//! Inputs come back bit for bit: every NaN that differs in a bit or two, and doubles drawn from all of them.
mod calls;

use calls::Call;
use climboat::{Kind, LARGEST_STEP_LIMIT, STEP_LIMIT};

const INFINITY: u64 = 0x7ff0_0000_0000_0000;
const SIGN: u64 = 1 << 63;
/// The bits of a NaN that are its own, the one that makes it quiet among them.
const PAYLOAD: u32 = 52;
const QUIET: u64 = 1 << (PAYLOAD - 1);

/// Every single payload bit and every pair of them, all, none but the quiet one, quiet and signalling, of either sign.
fn nans() -> Vec<f64> {
    let single = (0..PAYLOAD).map(|bit| 1 << bit);
    let pairs = (0..PAYLOAD).flat_map(|one| (0..one).map(move |other| 1 << one | 1 << other));
    let ones = (1 << PAYLOAD) - 1;
    let payloads: Vec<u64> = single.chain(pairs).chain([ones, ones ^ QUIET]).collect();
    let mut nans: Vec<u64> = payloads
        .into_iter()
        .flat_map(|payload| [payload, payload | QUIET])
        .flat_map(|payload| [payload, payload | SIGN])
        .map(|payload| payload | INFINITY)
        .collect();
    nans.sort_unstable();
    nans.dedup();
    assert_eq!(nans.first(), Some(&(INFINITY | 1)));
    assert_eq!(nans.last(), Some(&u64::MAX));
    nans.into_iter().map(f64::from_bits).collect()
}

fn has_second(call: Call) -> bool {
    call.kind.inputs().len() == 2
}

#[test]
fn every_nan_in_each_place_of_each_call() {
    let nans = nans();
    assert!(nans.iter().all(|nan| nan.is_nan()));
    for call in Call::all() {
        for (place, &nan) in nans.iter().enumerate() {
            // another NaN, so that a place that took the other's would show
            let other = nans[nans.len() - 1 - place];
            let refused = |first, second| call.told(first, second, STEP_LIMIT).unwrap_err();
            assert_eq!(refused(nan, 1.0).number, 1, "{call:?}");
            assert_eq!(refused(nan, other).number, 1, "{call:?}");
            if has_second(call) {
                assert_eq!(refused(300.0, nan).number, 1, "{call:?}");
            }
        }
    }
}

#[test]
fn a_limit_that_is_too_large_hides_no_nan() {
    let searches = [Kind::Pv, Kind::Tv, Kind::Th, Kind::Ts];
    let mut calls = Call::all();
    calls.retain(|call| searches.contains(&call.kind));
    for call in calls {
        for nan in nans() {
            let refused = call.told(nan, -nan, LARGEST_STEP_LIMIT + 1).unwrap_err();
            assert_eq!(refused.number, 11, "{call:?}");
        }
    }
}

/// Bits that are spread evenly and the same at each run (splitmix64).
struct Drawn(u64);

impl Drawn {
    fn bits(&mut self) -> u64 {
        self.0 = self.0.wrapping_add(0x9e37_79b9_7f4a_7c15);
        let x = (self.0 ^ self.0 >> 30).wrapping_mul(0xbf58_476d_1ce4_e5b9);
        let x = (x ^ x >> 27).wrapping_mul(0x94d0_49bb_1331_11eb);
        x ^ x >> 31
    }
}

#[test]
fn drawn_doubles() {
    let mut drawn = Drawn(2026);
    for call in Call::all() {
        for _ in 0..5_000 {
            let [first, second] = [drawn.bits(), drawn.bits()].map(f64::from_bits);
            let [nan, other] = [first, second].map(|x| f64::from_bits(x.to_bits() | INFINITY));
            for (first, second) in [(first, second), (nan, second), (first, other), (nan, other)] {
                let number = call
                    .told(first, second, STEP_LIMIT)
                    .map_or_else(|refusal| refusal.number, |_| 0);
                let finite = first.is_finite() && (second.is_finite() || !has_second(call));
                assert_eq!(number == 1, !finite, "{call:?} {first:?} {second:?}");
            }
        }
    }
}
