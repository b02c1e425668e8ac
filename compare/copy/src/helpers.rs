//! The helpers of document 01's module 2 that are not the Rust's own.

extern "C" {
    fn float_ln(x: f64) -> f64;
}

/// Climboat's own, since document 01 leaves open which double near ln x it is.
pub fn ln(x: f64) -> f64 {
    unsafe { float_ln(x) }
}

pub fn fourth_root(x: f64) -> f64 {
    x.sqrt().sqrt()
}

/// Document 01's rule, step by step. The saturation pressure at 623.15 is a constant of the Rust, and the compiler rounds `powi` of a constant in another way than `powi` of a variable.
pub fn powi(mut base: f64, exponent: i32) -> f64 {
    let mut left = exponent.unsigned_abs();
    let mut r = 1.0;
    while left != 0 {
        if left % 2 == 1 {
            r *= base;
        }
        left /= 2;
        if left != 0 {
            base *= base;
        }
    }
    if exponent < 0 {
        1.0 / r
    } else {
        r
    }
}
