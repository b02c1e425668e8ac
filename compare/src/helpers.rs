//! The float helpers of document 01's module 2 against Rust's own.

use crate::climboat;
use crate::draw::{same, signed_short, Draw};
use crate::roots;
use crate::tally::Tally;

/// Every helper; whether all agreed.
pub fn compare() -> bool {
    let all = [powers(), roots::compare(), logarithms(), signs()];
    all.iter().all(|&ok| ok)
}

fn powers() -> bool {
    let mut tally = Tally::new("whole power, exponents -43 to 58");
    let mut draw = Draw::new(0x0c1b_0a70_0000_0001);
    let mut bases = signed_short();
    while bases.len() < 100_100 {
        bases.push(draw.double());
    }
    for &x in &bases {
        for n in -43..=58 {
            tally.check(same(climboat::powi(x, n), x.powi(n)), || format!("{x:e} to the {n}"));
        }
    }
    // beyond the tables' exponents the helper is total too, the least i32 included
    for &x in &bases[..2_000] {
        for n in [i32::MIN, i32::MIN + 1, -65_536, -44, 59, 1_000, i32::MAX] {
            tally.check(same(climboat::powi(x, n), x.powi(n)), || format!("{x:e} to the {n}"));
        }
    }
    tally.told(&format!("; {} bases", bases.len()))
}

fn logarithms() -> bool {
    let mut tally = Tally::new("logarithm");
    let mut draw = Draw::new(0x0c1b_0a70_0000_0003);
    let mut largest = (0.0f64, 1.0f64);
    let bound = (159.0 + 133.0) * 2.0f64.powi(-56); // what is proved, and libm's own: 0.52 of a unit in the last place at 18.4, which is 2^-48
    let mut one = |x: f64| {
        let found = climboat::ln(x);
        if (1.0e-8..=101.0).contains(&x) {
            let distance = (found - x.ln()).abs();
            if distance > largest.0 {
                largest = (distance, x);
            }
            tally.check(distance <= bound, || format!("{x:e}"));
        } else {
            tally.check(found.is_nan(), || format!("{x:e}"));
        }
    };
    signed_short().into_iter().for_each(&mut one);
    for _ in 0..1_000_000 {
        one(draw.between(1.0e-8, 101.0));
        one(draw.logarithmic(1.0e-8, 101.0));
        one(draw.double());
    }
    let exact = climboat::ln(1.0).to_bits() == 0;
    let more = format!(
        "; largest distance from libm's {:e} at {:e}; ln 1 is 0: {}",
        largest.0, largest.1, exact
    );
    tally.told(&more) && exact
}

fn signs() -> bool {
    let mut tally = Tally::new("magnitude, smaller, sign taking, same sign, finite");
    let mut draw = Draw::new(0x0c1b_0a70_0000_0004);
    let mut one = |x: f64, y: f64| {
        let smaller = climboat::min(x, y);
        // Rust leaves open which of +0 and -0 it gives, and some processors answer a signalling NaN with a NaN
        let rusts = if x.is_nan() { y } else if y.is_nan() { x } else { x.min(y) };
        let agrees = same(smaller, rusts) || (x == 0.0 && y == 0.0 && smaller == 0.0);
        tally.check(agrees, || format!("smaller of {x:e} and {y:e}"));
        tally.check(same(climboat::abs(x), x.abs()), || format!("magnitude of {x:e}"));
        if !y.is_nan() {
            tally.check(same(climboat::copysign(x, y), x.copysign(y)), || format!("{x:e} with the sign of {y:e}"));
        }
        let alike = (x < 0.0 && y < 0.0) || (x > 0.0 && y > 0.0);
        tally.check(climboat::same_sign(x, y) == alike, || format!("same sign of {x:e} and {y:e}"));
        tally.check(climboat::is_finite(x) == x.is_finite(), || format!("finite {x:e}"));
    };
    let short = signed_short();
    for &x in &short {
        for &y in &short {
            one(x, y);
        }
    }
    for _ in 0..1_000_000 {
        let x = draw.double();
        let y = draw.double();
        one(x, y);
    }
    tally.told("")
}
