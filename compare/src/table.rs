//! The refusal table and the steps of bisection, read a second time from the documents and not from Climboat: what every public call gives, over the test copy's functions. The test copy's own outcome of a search must be the same wherever this reading has one; Brent's steps are the test copy's.

use crate::climboat::{Line, Pair, Record, EXACT_END, INSIDE, LARGEST_LIMIT, NARROW, NOTHING, OUTSIDE, SMALL_RESIDUAL, VALUE};
use copy::common::boundaries::{B23_T2p, B23_p2T};
use copy::r1::region1_pT as r1;
use copy::r1::region1_pair_ext as pairs1;
use copy::r2::region2_pT as r2;
use copy::r2::region2_pair_ext as pairs2;
use copy::r4::region4_sat_pT::{T_saturation, p_saturation};
use copy::r5::region5_pT as r5;
use copy::r5::region5_pair_ext as pairs5;
use copy::run::Run;
use std::ops::RangeInclusive;

/// Of p and T, in this order.
type Property = fn(f64, f64) -> f64;

fn refused(number: u32) -> Record {
    Record { number, ..NOTHING }
}

/// The result of a call that does not search.
fn value(result: f64) -> Record {
    if result.is_finite() {
        Record { reason: VALUE, value: result, ..NOTHING }
    } else {
        refused(9)
    }
}

pub fn line(line: Line, x: f64) -> Record {
    let (range, number, formula): (_, _, fn(f64) -> f64) = match line {
        Line::SaturationPressure => (273.15..=647.096, 2, p_saturation),
        Line::SaturationTemperature => (0.000611212677..=22.064, 3, T_saturation),
        Line::B23Pressure => (623.15..=863.15, 2, B23_T2p),
        Line::B23Temperature => (16.5291643..=100.0, 3, B23_p2T),
    };
    if !x.is_finite() {
        refused(1)
    } else if !range.contains(&x) {
        refused(number)
    } else {
        value(formula(x))
    }
}

pub fn property(region: u32, property: u32, p: f64, t: f64) -> Record {
    let properties: [Property; 7] = match region {
        1 => [r1::pT2v_reg1, r1::pT2u_reg1, r1::pT2s_reg1, r1::pT2h_reg1, r1::pT2cp_reg1, r1::pT2cv_reg1, r1::pT2w_reg1],
        2 => [r2::pT2v_reg2, r2::pT2u_reg2, r2::pT2s_reg2, r2::pT2h_reg2, r2::pT2cp_reg2, r2::pT2cv_reg2, r2::pT2w_reg2],
        5 => [r5::pT2v_reg5, r5::pT2u_reg5, r5::pT2s_reg5, r5::pT2h_reg5, r5::pT2cp_reg5, r5::pT2cv_reg5, r5::pT2w_reg5],
        _ => return refused(21),
    };
    let Some(function) = (property as usize).checked_sub(1).and_then(|n| properties.get(n)) else {
        return refused(21);
    };
    checked(region, p, t, function)
}

/// The (p,T) rule of a region, and what a formula gives at a state inside.
pub fn checked(region: u32, p: f64, t: f64, formula: impl Fn(f64, f64) -> f64) -> Record {
    match state(region, p, t) {
        0 => value(formula(p, t)),
        number => refused(number),
    }
}

/// The (p,T) rule of a region: the number that refuses the state, 0 if it lies inside.
fn state(region: u32, p: f64, t: f64) -> u32 {
    if !p.is_finite() || !t.is_finite() {
        return 1;
    }
    if !temperatures(region).contains(&t) {
        return 2;
    }
    let boundary = boundary(t);
    if !boundary.is_finite() {
        return 9;
    }
    let inside = match region {
        1 => boundary <= p && p <= 100.0,
        2 => 1.0e-8 <= p && p <= 100.0 && p <= boundary,
        _ => 1.0e-8 <= p && p <= 50.0,
    };
    if inside {
        0
    } else {
        3
    }
}

fn temperatures(region: u32) -> RangeInclusive<f64> {
    match region {
        1 => 273.15..=623.15,
        2 => 273.15..=1073.15,
        _ => 1073.15..=2273.15,
    }
}

/// Where region 2 stops at t; up to 623.15, where region 1 begins. Region 5 reads none, and at its temperatures this is a number.
fn boundary(t: f64) -> f64 {
    if t <= 623.15 {
        p_saturation(t)
    } else if t <= 863.15 {
        B23_T2p(t)
    } else {
        100.0
    }
}

/// One search: the input that is fixed, where it looks, and what it compares with its target.
pub struct Search {
    pub pair: Pair,
    pub region: u32,
    /// bisection, by the width that a narrow bracket with this upper end stays below; none for Brent's search
    width: Option<fn(f64) -> f64>,
    pub ends: fn(f64) -> (f64, f64),
    property: Property,
    run: fn(f64, f64, i32) -> Run,
}

#[rustfmt::skip]
pub const SEARCHES: [Search; 11] = [
    Search { pair: Pair::Pv, region: 1, width: Some(|_| 1.0e-6), ends: |p| (273.15, if p >= 16.5291643 { 623.15 } else { T_saturation(p) }), property: r1::pT2v_reg1, run: pairs1::pv2T_reg1 },
    Search { pair: Pair::Pv, region: 2, width: None, ends: |p| (lowest_temperature(p), 1073.15), property: r2::pT2v_reg2, run: pairs2::pv2T_reg2 },
    Search { pair: Pair::Tv, region: 1, width: None, ends: |t| (p_saturation(t), 100.0), property: r1::pT2v_reg1, run: pairs1::Tv2p_reg1 },
    Search { pair: Pair::Tv, region: 2, width: Some(|upper| 1.0e-6 * upper), ends: |_| (1.0e-8, 100.0), property: r2::pT2v_reg2, run: pairs2::Tv2p_reg2 },
    Search { pair: Pair::Th, region: 1, width: None, ends: |t| (p_saturation(t), 100.0), property: r1::pT2h_reg1, run: pairs1::Th2p_reg1 },
    Search { pair: Pair::Th, region: 2, width: None, ends: |_| (1.0e-8, 100.0), property: r2::pT2h_reg2, run: pairs2::Th2p_reg2 },
    Search { pair: Pair::Ts, region: 1, width: None, ends: |t| (p_saturation(t), 100.0), property: r1::pT2s_reg1, run: pairs1::Ts2p_reg1 },
    Search { pair: Pair::Ts, region: 2, width: None, ends: |t| (1.0e-8, boundary(t)), property: r2::pT2s_reg2, run: pairs2::Ts2p_reg2 },
    Search { pair: Pair::Tv, region: 5, width: None, ends: |_| (1.0e-8, 50.0), property: r5::pT2v_reg5, run: pairs5::Tv2p_reg5 },
    Search { pair: Pair::Th, region: 5, width: None, ends: |_| (1.0e-8, 50.0), property: r5::pT2h_reg5, run: pairs5::Th2p_reg5 },
    Search { pair: Pair::Ts, region: 5, width: None, ends: |_| (1.0e-8, 50.0), property: r5::pT2s_reg5, run: pairs5::Ts2p_reg5 },
];

fn lowest_temperature(p: f64) -> f64 {
    if p < 0.000611213 {
        273.15
    } else if p <= p_saturation(623.15) {
        T_saturation(p)
    } else {
        B23_p2T(p)
    }
}

pub fn search(pair: Pair, region: u32, fixed: f64, target: f64, limit: u32) -> Record {
    let Some(search) = SEARCHES.iter().find(|search| search.pair == pair && search.region == region) else {
        return refused(21);
    };
    if let Some(number) = search.unfit(fixed, target, limit) {
        return refused(number);
    }
    let (lower, upper) = (search.ends)(fixed);
    let start = Record { lower, upper, ..NOTHING };
    let opening = search.opening(fixed, target, start);
    let decided = opening.or_else(|| search.width.map(|width| search.bisected(width, fixed, target, limit, start)));
    let run = Record::from((search.run)(fixed, target, limit as i32));
    // of Brent's steps the bracket is the test copy's, its residuals are not
    let read = search.with_residuals(fixed, target, decided.unwrap_or(run));
    let agree = read.same(&run) && (decided.is_some() || after_opening(&start, &run));
    assert!(agree, "the test copy reads otherwise than the table at {:016x} {:016x}: {start:?}, {read:?}, {run:?}", fixed.to_bits(), target.to_bits());
    search.marked(fixed, read)
}

/// Whether a run is one that the steps decided, from the same bracket.
fn after_opening(start: &Record, run: &Record) -> bool {
    let within = start.lower <= run.lower && run.upper <= start.upper;
    let still = start.lower == run.lower && run.upper == start.upper;
    run.has_bracket() && run.reason != EXACT_END && within && (run.steps > 0 || still)
}

impl Search {
    fn seeks_t(&self) -> bool {
        self.pair == Pair::Pv
    }

    /// Of the input that is fixed.
    pub fn range(&self) -> RangeInclusive<f64> {
        match (self.seeks_t(), self.region) {
            (false, region) => temperatures(region),
            (true, 1) => 0.000611212677444..=100.0,
            (true, _) => 1.0e-8..=100.0,
        }
    }

    /// 11, 1, 2, 3 and 4: the inputs alone.
    fn unfit(&self, fixed: f64, target: f64, limit: u32) -> Option<u32> {
        if limit > LARGEST_LIMIT {
            Some(11)
        } else if !fixed.is_finite() || !target.is_finite() {
            Some(1)
        } else if !self.range().contains(&fixed) {
            Some(if self.seeks_t() { 3 } else { 2 })
        } else if matches!(self.pair, Pair::Pv | Pair::Tv) && target <= 0.0 {
            Some(4)
        } else {
            None
        }
    }

    /// 9, 5, 6 at an end, a zero at the lower end, a zero at the upper end, 7; none where the steps decide.
    fn opening(&self, fixed: f64, target: f64, start: Record) -> Option<Record> {
        let Record { lower, upper, .. } = start;
        if !lower.is_finite() || !upper.is_finite() {
            return Some(refused(9));
        }
        if lower >= upper {
            return Some(refused(5));
        }
        let (at_lower, at_upper) = (self.residual(fixed, target, lower), self.residual(fixed, target, upper));
        if !at_lower.is_finite() || !at_upper.is_finite() {
            Some(Record { number: 6, ..start })
        } else if at_lower == 0.0 {
            Some(Record { reason: EXACT_END, value: lower, ..start })
        } else if at_upper == 0.0 {
            Some(Record { reason: EXACT_END, value: upper, ..start })
        } else if (at_lower > 0.0) == (at_upper > 0.0) {
            Some(refused(7))
        } else {
            None
        }
    }

    /// Bisection's steps, from ends whose residuals are finite and opposite.
    fn bisected(&self, width: fn(f64) -> f64, fixed: f64, target: f64, limit: u32, start: Record) -> Record {
        let mut bracket = start;
        let below = self.residual(fixed, target, start.lower) < 0.0;
        for steps in 1..=limit {
            let Record { lower, upper, .. } = bracket;
            let middle = 0.5 * (lower + upper);
            if middle < lower || upper < middle {
                return Record { number: 10, steps: steps - 1, ..bracket };
            }
            let at_middle = self.residual(fixed, target, middle);
            if !at_middle.is_finite() {
                return Record { number: 6, steps, ..bracket };
            } else if at_middle.abs() < 1.0e-8 {
                return Record { reason: SMALL_RESIDUAL, value: middle, steps, ..bracket };
            } else if (lower - upper).abs() < width(upper) {
                return Record { reason: NARROW, value: middle, steps, ..bracket };
            } else if (at_middle < 0.0) == below {
                bracket.lower = middle;
            } else {
                bracket.upper = middle;
            }
        }
        Record { number: 8, value: 0.5 * (bracket.lower + bracket.upper), steps: limit, ..bracket }
    }

    /// v, h or s at the point x.
    pub fn found(&self, fixed: f64, x: f64) -> f64 {
        if self.seeks_t() {
            (self.property)(fixed, x)
        } else {
            (self.property)(x, fixed)
        }
    }

    fn residual(&self, fixed: f64, target: f64, x: f64) -> f64 {
        let found = self.found(fixed, x);
        if self.width.is_some() {
            (target - found) / target
        } else {
            target - found
        }
    }

    /// With the residuals at both ends of the bracket that it reports; for 6 one that is not finite is 0, each by itself.
    fn with_residuals(&self, fixed: f64, target: f64, record: Record) -> Record {
        if !record.has_bracket() {
            return record;
        }
        let [lower_residual, upper_residual] = [record.lower, record.upper].map(|end| match self.residual(fixed, target, end) {
            residual if record.number == 6 && !residual.is_finite() => 0.0,
            residual => residual,
        });
        Record { lower_residual, upper_residual, ..record }
    }

    fn marked(&self, fixed: f64, record: Record) -> Record {
        if record.number != 0 {
            return record;
        }
        let (p, t) = if self.seeks_t() { (fixed, record.value) } else { (record.value, fixed) };
        let mark = if state(self.region, p, t) == 0 { INSIDE } else { OUTSIDE };
        Record { mark, ..record }
    }
}
