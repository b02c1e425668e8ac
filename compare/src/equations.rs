//! The equations of regions 1 and 2, the saturation line and B23 against the original crate; those of region 5, whose operations are in another order than the original's, against the test copy.

use crate::bars::{self, TimeBar};
use crate::by_log::ByLog;
use crate::climboat;
use crate::draw::{same, Draw};
use crate::plausible::magnitude;
use crate::question::{Question, PROPERTIES};
use crate::table;
use crate::tally::Tally;
use copy::r5::region5_pT as copy5;
use original::common::boundaries::{B23_T2p, B23_p2T};
use original::r1::region1_pT as r1;
use original::r2::region2_pT as r2;
use original::r4::region4_sat_pT::{T_saturation, p_saturation};
use original::r5::region5_pT as r5;

pub type Property = fn(f64, f64) -> f64;

/// How far Climboat's double may lie from the original's: not at all, or by so much.
#[derive(Clone, Copy)]
pub enum Bar {
    Bits,
    Within(f64),
    /// no bar: the largest distance is told
    Told,
}

pub struct Row {
    pub name: &'static str,
    pub ours: Property,
    pub rusts: Property,
    /// what ours is held against: the original's, or the test copy's
    pub against: Property,
    pub bar: Bar,
    /// how long it may take
    pub time: Option<TimeBar>,
}

const fn row(name: &'static str, ours: Property, rusts: Property, bar: Bar) -> Row {
    Row { name, ours, rusts, against: rusts, bar, time: None }
}

/// Of region 5: the test copy has the same operations.
const fn row_5(name: &'static str, ours: Property, rusts: Property, copys: Property) -> Row {
    Row { name, ours, rusts, against: copys, bar: Bar::Bits, time: Some(bars::REGION_5) }
}

impl Row {
    const fn in_time(self, time: TimeBar) -> Row {
        Row { time: Some(time), ..self }
    }
}

pub const REGION_1: [Row; 7] = [
    row("region 1 v", climboat::region1_v, r1::pT2v_reg1, Bar::Bits).in_time(bars::REGION_1_V),
    row("region 1 u", climboat::region1_u, r1::pT2u_reg1, Bar::Bits).in_time(bars::PROPERTY),
    row("region 1 s", climboat::region1_s, r1::pT2s_reg1, Bar::Bits).in_time(bars::PROPERTY),
    row("region 1 h", climboat::region1_h, r1::pT2h_reg1, Bar::Bits).in_time(bars::PROPERTY),
    row("region 1 cp", climboat::region1_cp, r1::pT2cp_reg1, Bar::Bits).in_time(bars::PROPERTY),
    row("region 1 cv", climboat::region1_cv, r1::pT2cv_reg1, Bar::Bits).in_time(bars::PROPERTY),
    row("region 1 w", climboat::region1_w, r1::pT2w_reg1, Bar::Bits).in_time(bars::PROPERTY),
];

pub const REGION_2: [Row; 7] = [
    row("region 2 v", climboat::region2_v, r2::pT2v_reg2, Bar::Bits).in_time(bars::PROPERTY),
    row("region 2 u", climboat::region2_u, r2::pT2u_reg2, Bar::Bits).in_time(bars::PROPERTY),
    row("region 2 s", climboat::region2_s, r2::pT2s_reg2, Bar::Within(1.0e-12)).in_time(bars::PROPERTY),
    row("region 2 h", climboat::region2_h, r2::pT2h_reg2, Bar::Bits).in_time(bars::PROPERTY),
    row("region 2 cp", climboat::region2_cp, r2::pT2cp_reg2, Bar::Bits).in_time(bars::PROPERTY),
    row("region 2 cv", climboat::region2_cv, r2::pT2cv_reg2, Bar::Bits).in_time(bars::PROPERTY),
    row("region 2 w", climboat::region2_w, r2::pT2w_reg2, Bar::Bits).in_time(bars::PROPERTY),
];

pub const REGION_5: [Row; 7] = [
    row_5("region 5 v", climboat::region5_v, r5::pT2v_reg5, copy5::pT2v_reg5),
    row_5("region 5 u", climboat::region5_u, r5::pT2u_reg5, copy5::pT2u_reg5),
    row_5("region 5 s", climboat::region5_s, r5::pT2s_reg5, copy5::pT2s_reg5),
    row_5("region 5 h", climboat::region5_h, r5::pT2h_reg5, copy5::pT2h_reg5),
    row_5("region 5 cp", climboat::region5_cp, r5::pT2cp_reg5, copy5::pT2cp_reg5),
    row_5("region 5 cv", climboat::region5_cv, r5::pT2cv_reg5, copy5::pT2cv_reg5),
    row_5("region 5 w", climboat::region5_w, r5::pT2w_reg5, copy5::pT2w_reg5),
];

/// Every equation, those by (p,T) by the log too; whether all kept their bar.
pub fn compare() -> bool {
    let one = states(0x0c1b_0a70_0000_0011, region_1);
    let two = states_of_region_2();
    let five = states(0x0c1b_0a70_0000_0014, region_5);
    let mut by_log = ByLog::new("regions 1, 2 and 5, by the log");
    let mut good = true;
    for (region, rows, states) in [(1, &REGION_1, one), (2, &REGION_2, two), (5, &REGION_5, five)] {
        for (row, property) in rows.iter().zip(PROPERTIES) {
            good &= hold(row, &states, |p, t, value| by_log.ask(&Question::Property(region, property, p, t), &table::checked(region, p, t, |_, _| value)));
        }
    }
    good & lines() & by_log.told()
}

/// One equation; each state and its value are also given to the last.
fn hold(row: &Row, states: &[(f64, f64)], mut also: impl FnMut(f64, f64, f64)) -> bool {
    let mut tally = Tally::new(row.name);
    let mut largest = 0.0f64;
    for &(p, t) in states {
        let (a, b) = ((row.ours)(p, t), (row.against)(p, t));
        let distance = (a - b).abs();
        largest = largest.max(distance);
        let kept = match row.bar {
            Bar::Bits => same(a, b),
            Bar::Within(most) => distance <= most,
            Bar::Told => true,
        };
        tally.check(kept, || format!("p = {p:e}, T = {t:e}: {a:e}, the other {b:e}"));
        // the other's double, or ours where the two may lie apart
        also(p, t, if matches!(row.bar, Bar::Bits) { b } else { a });
    }
    let more = match row.bar {
        Bar::Bits => String::from(", bit for bit"),
        Bar::Within(most) => format!(", within {most:e}; largest distance {largest:e}"),
        Bar::Told => format!("; largest distance {largest:e}"),
    };
    tally.told(&more)
}

/// Those at corners and edges may lie outside the region.
pub fn states_of_region_2() -> Vec<(f64, f64)> {
    states(0x0c1b_0a70_0000_0012, region_2)
}

/// 400,000 states uniform in p, 400,000 logarithmic, and more than 200,000 at corners and edges.
fn states(seed: u64, region: fn(&mut Draw, u64) -> (f64, f64)) -> Vec<(f64, f64)> {
    let mut draw = Draw::new(seed);
    let mut list = Vec::new();
    for kind in [0, 1] {
        for _ in 0..400_000 {
            list.push(region(&mut draw, kind));
        }
    }
    for _ in 0..210_000 {
        list.push(region(&mut draw, 2));
    }
    list
}

/// One of the neighbours of x, or x itself.
pub fn beside(draw: &mut Draw, x: f64) -> f64 {
    f64::from_bits(x.to_bits().wrapping_add(draw.below(7)).wrapping_sub(3))
}

pub fn region_1(draw: &mut Draw, kind: u64) -> (f64, f64) {
    if kind < 2 {
        let t = draw.between(273.15, 623.15);
        let least = p_saturation(t);
        let p = if kind == 0 { draw.between(least, 100.0) } else { draw.logarithmic(least, 100.0) };
        return (p, t);
    }
    let t = match draw.below(3) {
        0 => draw.between(273.15, 623.15),
        1 => beside(draw, 273.15),
        _ => beside(draw, 623.15),
    };
    let p = match draw.below(5) {
        0 => beside(draw, 100.0),
        1 => beside(draw, 0.000611212677444),
        2 => draw.between(0.0006, 100.0),
        _ => beside(draw, p_saturation(t.clamp(273.15, 623.15))),
    };
    (p, t)
}

/// The highest pressure of region 2 at t.
pub fn most(t: f64) -> f64 {
    if t <= 623.15 {
        p_saturation(t)
    } else if t <= 863.15 {
        B23_T2p(t)
    } else {
        100.0
    }
}

pub fn region_2(draw: &mut Draw, kind: u64) -> (f64, f64) {
    if kind < 2 {
        let t = draw.between(273.15, 1073.15);
        let p = if kind == 0 { draw.between(1.0e-8, most(t)) } else { draw.logarithmic(1.0e-8, most(t)) };
        return (p, t);
    }
    let t = match draw.below(5) {
        0 => draw.between(273.15, 1073.15),
        1 => beside(draw, 273.15),
        2 => beside(draw, 623.15),
        3 => beside(draw, 863.15),
        _ => beside(draw, 1073.15),
    };
    let p = match draw.below(4) {
        0 => beside(draw, 1.0e-8),
        1 => beside(draw, 100.0),
        _ => beside(draw, most(t.clamp(273.15, 1073.15))),
    };
    // below 1.0e-8 lies no region, and Climboat's logarithm is NaN
    (p.max(1.0e-8), t)
}

/// Of every magnitude without a library's logarithm, so that the states are the same on every machine.
pub fn region_5(draw: &mut Draw, kind: u64) -> (f64, f64) {
    if kind < 2 {
        let t = draw.between(1073.15, 2273.15);
        let p = if kind == 0 { draw.between(1.0e-8, 50.0) } else { magnitude(draw, 1.0e-8, 50.0) };
        return (p, t);
    }
    let t = match draw.below(3) {
        0 => draw.between(1073.15, 2273.15),
        1 => beside(draw, 1073.15),
        _ => beside(draw, 2273.15),
    };
    let p = match draw.below(4) {
        0 => beside(draw, 1.0e-8),
        1 => beside(draw, 50.0),
        2 => draw.between(1.0e-8, 50.0),
        _ => magnitude(draw, 1.0e-8, 50.0),
    };
    // below 1.0e-8 lies no region, and Climboat's logarithm is NaN
    (p.max(1.0e-8), t)
}

/// The saturation line and B23, as functions of one number: the second is not read.
fn lines() -> bool {
    let rows = [
        (row("saturation pressure", |_, t| climboat::saturation_pressure(t), |_, t| p_saturation(t), Bar::Bits), 273.15, 647.096),
        (row("saturation temperature", |_, p| climboat::saturation_temperature(p), |_, p| T_saturation(p), Bar::Within(1.0e-9)), 0.000611212677, 22.064),
        (row("B23 pressure", |_, t| climboat::b23_pressure(t), |_, t| B23_T2p(t), Bar::Bits), 623.15, 863.15),
        (row("B23 temperature", |_, p| climboat::b23_temperature(p), |_, p| B23_p2T(p), Bar::Told), 16.5291643, 100.0),
    ];
    let mut draw = Draw::new(0x0c1b_0a70_0000_0013);
    let mut good = true;
    for (row, low, high) in rows {
        let mut list = vec![(0.0, low), (0.0, high)];
        for _ in 0..500_000 {
            list.push((0.0, draw.between(low, high)));
            list.push((0.0, draw.logarithmic(low, high)));
        }
        good &= hold(&row, &list, |_, _, _| ());
    }
    good
}
