//! What Climboat's two archives offer, wrapped once: no function of them asks anything of its caller but what Rust's references have anyway, that nothing else points at what is lent to be written.
// without the original crate the equations and the searches have nothing to be compared with
#![cfg_attr(not(feature = "original"), allow(dead_code))]

use std::mem::MaybeUninit;

macro_rules! exports {
    ($($name:ident($($x:ident: $t:ty),*) -> $r:ty = $symbol:ident;)*) => {
        mod exports {
            extern "C" {
                $(pub fn $symbol($($x: $t),*) -> $r;)*
            }
        }
        $(#[inline]
        pub fn $name($($x: $t),*) -> $r {
            unsafe { exports::$symbol($($x),*) }
        })*
    };
}

exports! {
    abs(x: f64) -> f64 = float_abs;
    min(x: f64, y: f64) -> f64 = float_min;
    copysign(x: f64, y: f64) -> f64 = float_copysign;
    same_sign(a: f64, b: f64) -> bool = float_same_sign;
    is_finite(x: f64) -> bool = float_is_finite;
    powi(x: f64, n: i32) -> f64 = float_powi;
    sqrt(x: f64) -> f64 = float_sqrt;
    fourth_root(x: f64) -> f64 = float_fourth_root;
    ln(x: f64) -> f64 = float_ln;
    region1_v(p: f64, t: f64) -> f64 = region1_v;
    region1_u(p: f64, t: f64) -> f64 = region1_u;
    region1_s(p: f64, t: f64) -> f64 = region1_s;
    region1_h(p: f64, t: f64) -> f64 = region1_h;
    region1_cp(p: f64, t: f64) -> f64 = region1_cp;
    region1_cv(p: f64, t: f64) -> f64 = region1_cv;
    region1_w(p: f64, t: f64) -> f64 = region1_w;
    region2_v(p: f64, t: f64) -> f64 = region2_v;
    region2_u(p: f64, t: f64) -> f64 = region2_u;
    region2_s(p: f64, t: f64) -> f64 = region2_s;
    region2_h(p: f64, t: f64) -> f64 = region2_h;
    region2_cp(p: f64, t: f64) -> f64 = region2_cp;
    region2_cv(p: f64, t: f64) -> f64 = region2_cv;
    region2_w(p: f64, t: f64) -> f64 = region2_w;
    region5_v(p: f64, t: f64) -> f64 = region5_v;
    region5_u(p: f64, t: f64) -> f64 = region5_u;
    region5_s(p: f64, t: f64) -> f64 = region5_s;
    region5_h(p: f64, t: f64) -> f64 = region5_h;
    region5_cp(p: f64, t: f64) -> f64 = region5_cp;
    region5_cv(p: f64, t: f64) -> f64 = region5_cv;
    region5_w(p: f64, t: f64) -> f64 = region5_w;
    saturation_pressure(t: f64) -> f64 = saturation_pressure;
    saturation_temperature(p: f64) -> f64 = saturation_temperature;
    b23_pressure(t: f64) -> f64 = b23_pressure;
    b23_temperature(p: f64) -> f64 = b23_temperature;
}

type Numbers = *mut [u32; 8];
type Doubles = *mut [f64; 8];

#[allow(non_snake_case)]
extern "C" {
    fn climboat_pT_columns(region: u32, property: u32, p: f64, t: f64, numbers: Numbers, doubles: Doubles);
    fn climboat_saturation_pressure_columns(t: f64, numbers: Numbers, doubles: Doubles);
    fn climboat_saturation_temperature_columns(p: f64, numbers: Numbers, doubles: Doubles);
    fn climboat_B23_pressure_columns(t: f64, numbers: Numbers, doubles: Doubles);
    fn climboat_B23_temperature_columns(p: f64, numbers: Numbers, doubles: Doubles);
    fn climboat_pv2T_columns(region: u32, p: f64, v: f64, limit: u32, numbers: Numbers, doubles: Doubles);
    fn climboat_Tv2p_columns(region: u32, t: f64, v: f64, limit: u32, numbers: Numbers, doubles: Doubles);
    fn climboat_Th2p_columns(region: u32, t: f64, h: f64, limit: u32, numbers: Numbers, doubles: Doubles);
    fn climboat_Ts2p_columns(region: u32, t: f64, s: f64, limit: u32, numbers: Numbers, doubles: Doubles);
    // each run by where it begins and its length
    fn climboat_pT_log_runs(region: u32, property: u32, p: *const f64, p_length: usize, t: *const f64, t_length: usize, values: *mut f64, values_length: usize, numbers: *mut u32, numbers_length: usize) -> u32;
}

/// The calls of one number.
#[derive(Clone, Copy, PartialEq)]
pub enum Line {
    SaturationPressure,
    SaturationTemperature,
    B23Pressure,
    B23Temperature,
}

/// The input that is fixed and then the target.
#[derive(Clone, Copy, PartialEq)]
pub enum Pair {
    Pv,
    Tv,
    Th,
    Ts,
}

/// What a public call gives, as the C interface writes it.
#[derive(Clone, Copy, Debug)]
pub struct Record {
    pub number: u32,
    pub reason: u32,
    pub steps: u32,
    pub mark: u32,
    pub region: u32,
    pub kind: u32,
    pub property: u32,
    pub value: f64,
    pub lower: f64,
    pub upper: f64,
    pub lower_residual: f64,
    pub upper_residual: f64,
    pub first: f64,
    pub second: f64,
    /// the last place of each array, always 0
    pub room: (u32, f64),
}

/// Reasons and marks by their numbers; 0 is none.
pub const VALUE: u32 = 1;
pub const EXACT_END: u32 = 2;
pub const SMALL_RESIDUAL: u32 = 3;
pub const NARROW: u32 = 4;
pub const INSIDE: u32 = 1;
pub const OUTSIDE: u32 = 2;

/// The step limit that the vessels use, and the largest that a search takes.
pub const VESSELS_LIMIT: u32 = 20_000;
pub const LARGEST_LIMIT: u32 = 65_535;

/// Every column 0.
#[rustfmt::skip]
pub const NOTHING: Record = Record {
    number: 0, reason: 0, steps: 0, mark: 0, region: 0, kind: 0, property: 0,
    value: 0.0, lower: 0.0, upper: 0.0, lower_residual: 0.0, upper_residual: 0.0, first: 0.0, second: 0.0,
    room: (0, 0.0),
};

impl Record {
    /// In the places of the C interface.
    pub fn numbers(&self) -> [u32; 8] {
        [self.number, self.reason, self.steps, self.mark, self.region, self.kind, self.property, self.room.0]
    }

    pub fn doubles(&self) -> [f64; 8] {
        [self.value, self.lower, self.upper, self.lower_residual, self.upper_residual, self.first, self.second, self.room.1]
    }

    /// Every column, bit for bit.
    pub fn same(&self, other: &Record) -> bool {
        // place by place: == of two arrays calls the library's memcmp, which took a fifth of the comparisons' time
        let numbers = self.numbers().into_iter().zip(other.numbers()).all(|(a, b)| a == b);
        numbers && self.doubles().into_iter().zip(other.doubles()).all(|(a, b)| a.to_bits() == b.to_bits())
    }

    /// Whether it reports a bracket: an answer of a search, and the refusals 6, 8 and 10.
    pub fn has_bracket(&self) -> bool {
        matches!(self.number, 0 | 6 | 8 | 10) && self.reason != VALUE
    }
}

/// Without a mark, and without what was asked: the test copy has neither.
#[cfg(feature = "original")]
impl From<copy::run::Run> for Record {
    fn from(run: copy::run::Run) -> Record {
        let copy::run::Run { number, reason, value, steps, lower, upper, lower_residual, upper_residual } = run;
        Record { number, reason, value, steps, lower, upper, lower_residual, upper_residual, ..NOTHING }
    }
}

// inlined, as the header's are in C: where the record is copied on, the timings are of the copy too
#[inline]
pub fn property(region: u32, property: u32, p: f64, t: f64) -> Record {
    written([p, t], |numbers, doubles| unsafe { climboat_pT_columns(region, property, p, t, numbers, doubles) })
}

/// Of the same call the number and the value alone, with two arrays lent as they come: the least that a caller of single calls can do, for the timings.
#[inline]
pub fn number_and_value(region: u32, property: u32, p: f64, t: f64) -> (u32, f64) {
    let (mut numbers, mut doubles) = (MaybeUninit::uninit(), MaybeUninit::uninit());
    unsafe {
        climboat_pT_columns(region, property, p, t, numbers.as_mut_ptr(), doubles.as_mut_ptr());
        (numbers.assume_init()[0], doubles.assume_init()[0])
    }
}

/// One call over the four lent runs of a log, and what comes back.
#[inline]
pub fn log(region: u32, property: u32, p: &[f64], t: &[f64], values: &mut [f64], numbers: &mut [u32]) -> u32 {
    unsafe { climboat_pT_log_runs(region, property, p.as_ptr(), p.len(), t.as_ptr(), t.len(), values.as_mut_ptr(), values.len(), numbers.as_mut_ptr(), numbers.len()) }
}

#[inline]
pub fn line(line: Line, x: f64) -> Record {
    let call = match line {
        Line::SaturationPressure => climboat_saturation_pressure_columns,
        Line::SaturationTemperature => climboat_saturation_temperature_columns,
        Line::B23Pressure => climboat_B23_pressure_columns,
        Line::B23Temperature => climboat_B23_temperature_columns,
    };
    written([x, 0.0], |numbers, doubles| unsafe { call(x, numbers, doubles) })
}

#[inline]
pub fn search(pair: Pair, region: u32, fixed: f64, target: f64, limit: u32) -> Record {
    let call = match pair {
        Pair::Pv => climboat_pv2T_columns,
        Pair::Tv => climboat_Tv2p_columns,
        Pair::Th => climboat_Th2p_columns,
        Pair::Ts => climboat_Ts2p_columns,
    };
    written([fixed, target], |numbers, doubles| unsafe { call(region, fixed, target, limit, numbers, doubles) })
}

/// The record that a call with these inputs writes into the two arrays it is lent.
#[inline]
fn written(inputs: [f64; 2], call: impl FnOnce(Numbers, Doubles)) -> Record {
    // nothing that the answer can hold, so that a place left unwritten shows; an input may be any NaN, so its place has all its bits turned
    let [first, second] = inputs.map(|x| f64::from_bits(!x.to_bits()));
    let (mut numbers, mut doubles) = ([u32::MAX; 8], [f64::NAN; 8]);
    (doubles[5], doubles[6]) = (first, second);
    call(&mut numbers, &mut doubles);
    let [number, reason, steps, mark, region, kind, property, whole] = numbers;
    let [value, lower, upper, lower_residual, upper_residual, first, second, double] = doubles;
    Record { number, reason, steps, mark, region, kind, property, value, lower, upper, lower_residual, upper_residual, first, second, room: (whole, double) }
}
