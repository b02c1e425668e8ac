//! Plausible inputs of the public calls: over the ranges and around them, at their limits, and targets of real states.
// without the original crate states alone are drawn, and no targets
#![cfg_attr(not(feature = "original"), allow(dead_code))]

use crate::climboat::{self, LARGEST_LIMIT, VESSELS_LIMIT};
use crate::draw::Draw;
#[cfg(feature = "original")]
use crate::{
    climboat::Pair,
    table::{Search, SEARCHES},
};

/// Where document 01's ranges, boundaries and brackets change; the last is where region 1 (p,v) has an empty bracket.
pub const PRESSURES: [f64; 9] = [1.0e-8, 0.000611212677, 0.000611212677444, 0.000611213, 16.52916425260451, 16.5291643, 22.064, 100.0, 6.112126774443457e-4];
pub const TEMPERATURES: [f64; 5] = [273.15, 623.15, 647.096, 863.15, 1073.15];

/// Where region 5 begins and stops.
pub const PRESSURES_5: [f64; 2] = [1.0e-8, 50.0];
pub const TEMPERATURES_5: [f64; 2] = [1073.15, 2273.15];

/// The one NaN that is drawn: the bits of a NaN that arithmetic makes are left open.
pub const NAN: f64 = f64::from_bits(0x7ff8_0000_0000_0000);

/// x itself, or as often one of the doubles next to it.
pub fn beside(draw: &mut Draw, x: f64) -> f64 {
    let places = one_of(draw, &[0, 0, 0, 0, -1, 1, -2, 2]);
    let bits = x.to_bits().wrapping_add_signed(places);
    if x.is_nan() {
        NAN
    } else {
        f64::from_bits(bits)
    }
}

/// Of nearly every magnitude alike, and without a library's logarithm: the same draw on every machine.
pub fn magnitude(draw: &mut Draw, low: f64, high: f64) -> f64 {
    f64::from_bits(low.to_bits() + draw.below(high.to_bits() - low.to_bits() + 1))
}

pub fn one_of<T: Copy>(draw: &mut Draw, list: &[T]) -> T {
    list[draw.below(list.len() as u64) as usize]
}

pub fn pressure(draw: &mut Draw) -> f64 {
    match draw.below(8) {
        0 | 1 => draw.between(0.0, 101.0),
        2..=4 => magnitude(draw, 1.0e-9, 120.0),
        5 => {
            let edge = one_of(draw, &PRESSURES);
            beside(draw, edge)
        }
        6 => 0.000611212677444 * (1.0 + magnitude(draw, 1.0e-16, 1.0e-8)),
        _ => {
            let t = draw.between(273.15, 863.15);
            beside(draw, boundary(t))
        }
    }
}

/// Where region 2 stops at t.
pub fn boundary(t: f64) -> f64 {
    if t <= 623.15 {
        climboat::saturation_pressure(t)
    } else if t <= 863.15 {
        climboat::b23_pressure(t)
    } else {
        100.0
    }
}

pub fn temperature(draw: &mut Draw) -> f64 {
    match draw.below(8) {
        0..=2 => draw.between(272.0, 1075.0),
        3..=5 => draw.between(273.15, 624.0),
        6 => {
            let edge = one_of(draw, &TEMPERATURES);
            beside(draw, edge)
        }
        _ => {
            let p = magnitude(draw, 0.0006, 22.1);
            let t = climboat::saturation_temperature(p);
            beside(draw, t)
        }
    }
}

/// A pressure and a temperature, one time in three where a region ends.
pub fn state(draw: &mut Draw) -> (f64, f64) {
    let t = temperature(draw);
    let p = match draw.below(6) {
        0 => beside(draw, climboat::saturation_pressure(t)),
        1 => beside(draw, climboat::b23_pressure(t)),
        _ => pressure(draw),
    };
    (p, t)
}

/// About region 5. What is drawn for the other two is recorded, so they keep their own.
pub fn state_5(draw: &mut Draw) -> (f64, f64) {
    let p = match draw.below(6) {
        0 => draw.between(0.0, 51.0),
        1..=3 => magnitude(draw, 1.0e-9, 60.0),
        _ => {
            let edge = one_of(draw, &PRESSURES_5);
            beside(draw, edge)
        }
    };
    (p, temperature_5(draw))
}

pub fn temperature_5(draw: &mut Draw) -> f64 {
    match draw.below(4) {
        0 | 1 => draw.between(1070.0, 2280.0),
        _ => {
            let edge = one_of(draw, &TEMPERATURES_5);
            beside(draw, edge)
        }
    }
}

/// Of every four, three in the range of what is fixed.
#[cfg(feature = "original")]
pub fn fixed(draw: &mut Draw, search: &Search) -> f64 {
    let (low, high) = search.range().into_inner();
    match draw.below(4) {
        0 | 1 => magnitude(draw, low, high),
        2 => draw.between(low, high),
        _ if search.region == 5 => temperature_5(draw),
        _ if search.pair == Pair::Pv => pressure(draw),
        _ => temperature(draw),
    }
}

/// Mostly v, h or s of a point of the bracket or of an end, else one that is tiny, of its magnitude, or any.
#[cfg(feature = "original")]
pub fn target(draw: &mut Draw, search: &Search, fixed: f64) -> f64 {
    let (lower, upper) = (search.ends)(fixed);
    let target = match draw.below(16) {
        0..=4 => search.found(fixed, draw.between(lower, upper)),
        5..=8 if 0.0 < lower && lower < upper => search.found(fixed, magnitude(draw, lower, upper)),
        9 => beside(draw, search.found(fixed, lower)),
        10 => beside(draw, search.found(fixed, upper)),
        11 => draw.between(0.9, 1.1) * search.found(fixed, lower),
        12 => draw.between(0.9, 1.1) * search.found(fixed, upper),
        13 => f64::from_bits(draw.bits() >> (6 + draw.below(58))),
        14 => f64::from_bits(draw.bits()),
        _ => match search.pair {
            Pair::Th => draw.between(-10.0, if search.region == 5 { 7500.0 } else { 4500.0 }),
            Pair::Ts => draw.between(-0.1, if search.region == 5 { 20.0 } else { 15.0 }),
            _ => magnitude(draw, 0.0009, 6.0e7),
        },
    };
    if target.is_nan() {
        NAN
    } else {
        target
    }
}

/// The two doubles of a pair, or a state.
#[cfg(feature = "original")]
pub fn pair(draw: &mut Draw) -> (f64, f64) {
    match draw.below(16) as usize {
        n if n < SEARCHES.len() => {
            let fixed = fixed(draw, &SEARCHES[n]);
            (fixed, target(draw, &SEARCHES[n], fixed))
        }
        14.. => state_5(draw),
        _ => state(draw),
    }
}

/// The step limits that are recorded, the first that is too large among them, any that Brent's search or bisection may just meet, and any at all.
pub fn limit(draw: &mut Draw) -> u32 {
    match draw.below(16) {
        n @ 0..=7 => [0, 1, 2, 5, 20, VESSELS_LIMIT + 1, LARGEST_LIMIT, LARGEST_LIMIT + 1][n as usize],
        8..=11 => draw.below(12) as u32,
        12 => draw.below(64) as u32,
        13 => (draw.bits() as u32) >> draw.below(32),
        _ => VESSELS_LIMIT,
    }
}

/// A number of any size that names nothing: one that does is raised by the largest that does.
pub fn unknown(draw: &mut Draw, known: &[u32]) -> u32 {
    let any = draw.bits() as u32 >> draw.below(32);
    if known.contains(&any) {
        any + known[known.len() - 1]
    } else {
        any
    }
}
