//! What an answer or a refusal is of is what was asked, whatever the call and whether it answers.
mod calls;

use calls::Call;
use climboat::{LARGEST_STEP_LIMIT, STEP_LIMIT};

/// Pressures, temperatures and targets among which every call finds answers, and doubles that no sensor should give.
#[rustfmt::skip]
const DOUBLES: [f64; 30] = [
    1.0e-8, 0.0035, 0.2, 1.0, 3.0, 30.0, 50.0, 80.0,
    273.15, 300.0, 500.0, 650.0, 700.0, 1500.0,
    0.001, 0.00103, 0.0012, 0.1, 115.0, 1650.0, 2500.0, 3000.0, 5200.0, 0.39, 7.2, 8.5,
    f64::NAN, f64::NEG_INFINITY, -0.0, 5.0e-324,
];
const LIMITS: [u32; 5] = [0, 3, STEP_LIMIT, LARGEST_STEP_LIMIT, LARGEST_STEP_LIMIT + 1];

#[test]
fn every_answer_and_every_refusal_is_of_its_question() {
    for call in Call::all() {
        let mut told = [0, 0];
        for (first, second) in DOUBLES
            .iter()
            .flat_map(|&first| DOUBLES.map(|second| (first, second)))
        {
            for limit in LIMITS {
                let answer = call.told(first, second, limit);
                told[usize::from(answer.is_ok())] += 1;
            }
        }
        assert!(told.iter().all(|&count| count > 0), "{call:?}: {told:?}");
    }
}

#[test]
fn an_answer_equals_itself_and_no_other() {
    let mut all = Vec::new();
    for call in Call::all() {
        for (first, second) in [(1.0, 300.0), (300.0, 1.0), (f64::NAN, 1.0), (-0.0, 0.0)] {
            all.push(call.ask(first, second, STEP_LIMIT));
        }
    }
    for (place, one) in all.iter().enumerate() {
        for (other_place, other) in all.iter().enumerate() {
            assert_eq!(one == other, place == other_place, "{one:?} {other:?}");
        }
    }
}
