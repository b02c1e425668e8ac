//! What a search of the test copy comes to, in the documents' columns, and the tests that the edits put into the Rust.

#[derive(Clone, Copy, Debug, PartialEq)]
pub struct Run {
    /// 0, or that of the refusal
    pub number: u32,
    /// 0 refused, 2 exact end, 3 small residual, 4 narrow
    pub reason: u32,
    pub value: f64,
    pub steps: u32,
    pub lower: f64,
    pub upper: f64,
    pub lower_residual: f64,
    pub upper_residual: f64,
}

/// An end of a bracket, and the residual that the Rust has for it.
type End = (f64, f64);

impl Run {
    /// An answer of the steps: a small residual, else narrow.
    pub fn found(small_residual: bool, value: f64, steps: u32, b: End, c: End) -> Run {
        Run { reason: if small_residual { 3 } else { 4 }, ..Run::refused(0, value, steps, b, c) }
    }

    pub fn exact_end(value: f64, lower: End, upper: End) -> Run {
        Run { reason: 2, ..Run::refused(0, value, 0, lower, upper) }
    }

    /// A refusal with the bracket between b and c, whichever is the lower.
    pub fn refused(number: u32, value: f64, steps: u32, b: End, c: End) -> Run {
        let ((lower, lower_residual), (upper, upper_residual)) = if b.0 < c.0 { (b, c) } else { (c, b) };
        Run { number, reason: 0, value, steps, lower, upper, lower_residual, upper_residual }
    }

    pub fn without_bracket(number: u32) -> Run {
        Run::refused(number, 0.0, 0, (0.0, 0.0), (0.0, 0.0))
    }
}

/// What is decided once both ends are evaluated, but for 7: 9, 5, 6, a zero at the lower end, a zero at the upper end.
pub fn at_the_ends(lower: f64, upper: f64, at_lower: f64, at_upper: f64) -> Option<Run> {
    // a residual that is not finite is given as 0, each by itself
    let given = |residual: f64| if residual.is_finite() { residual } else { 0.0 };
    let (low, high) = ((lower, given(at_lower)), (upper, given(at_upper)));
    if !lower.is_finite() || !upper.is_finite() {
        Some(Run::without_bracket(9))
    } else if lower >= upper {
        Some(Run::without_bracket(5))
    } else if !at_lower.is_finite() || !at_upper.is_finite() {
        Some(Run::refused(6, 0.0, 0, low, high))
    } else if at_lower == 0.0 {
        Some(Run::exact_end(lower, low, high))
    } else if at_upper == 0.0 {
        Some(Run::exact_end(upper, low, high))
    } else {
        None
    }
}

/// Both below zero, or both above.
pub fn same_sign(a: f64, b: f64) -> bool {
    (a < 0.0 && b < 0.0) || (a > 0.0 && b > 0.0)
}

pub fn strictly_between(x: f64, b: f64, c: f64) -> bool {
    (b < x && x < c) || (c < x && x < b)
}
