//! The log against single calls, number and value of every place bit for bit: states of five kinds in logs of drawn lengths, every length, lengths that differ, numbers that name nothing, and the same states in another log.

use crate::by_log::{ByLog, Reading, LONGEST_LOG};
use crate::climboat;
use crate::draw::{signed_short, Draw};
use crate::nans::{self, NOTHING_NAMED};
use crate::plausible::{beside, boundary, magnitude, one_of, unknown, PRESSURES, PRESSURES_5, TEMPERATURES, TEMPERATURES_5};
use crate::question::{PROPERTIES, REGIONS};

/// Places of each kind for every region and property, or up to a log more.
const PLACES: usize = 1_000_000;

/// Lengths about those at which something changes.
const EDGE_LENGTHS: [usize; 7] = [0, 1, 2, 3, 4_095, 4_096, 4_097];

/// Lengths above the longest log's.
const TOO_LONG: [usize; 4] = [4_097, 4_098, 8_192, 100_000];

/// How many lengths are drawn for every region and property, from each of which the runs then differ.
const DRAWN_LENGTHS: usize = 20;

/// How many pairs of numbers that name nothing are drawn beside those that are listed.
const DRAWN_NAMES: usize = 60;

/// How many logs of every region and property are asked again in another.
const REARRANGED: usize = 24;

/// Pressures and temperatures.
type States = (Vec<f64>, Vec<f64>);

/// What states are drawn from: the numbers, and three lists of strange doubles.
struct Source {
    draw: Draw,
    strange: [Vec<f64>; 3],
}

/// A state of a kind, for a region.
type Kind = fn(&mut Source, u32) -> (f64, f64);

const KINDS: [(&str, Kind); 5] = [
    ("log, any bits in both", |source, _| (f64::from_bits(source.draw.bits()), f64::from_bits(source.draw.bits()))),
    ("log, edges crossed", edges),
    ("log, states inside the region", inside),
    ("log, near the saturation line", near_saturation),
    ("log, near B23 and region 5's temperatures", near_others),
];

impl Source {
    fn new(seed: u64) -> Source {
        let of_bits = |list: Vec<u64>| list.into_iter().map(f64::from_bits).collect();
        Source { draw: Draw::new(seed), strange: [signed_short(), of_bits(nans::nans()), of_bits(nans::others())] }
    }

    fn strange(&mut self) -> f64 {
        let list = self.draw.below(3) as usize;
        one_of(&mut self.draw, &self.strange[list])
    }

    /// From 0 to the longest log's, one in eight at an edge and two short.
    fn length(&mut self) -> usize {
        match self.draw.below(8) {
            0 => one_of(&mut self.draw, &EDGE_LENGTHS).min(LONGEST_LOG),
            1 | 2 => self.draw.below(64) as usize,
            _ => self.draw.below(LONGEST_LOG as u64 + 1) as usize,
        }
    }

    fn states(&mut self, kind: Kind, region: u32, length: usize) -> States {
        (0..length).map(|_| kind(self, region)).unzip()
    }

    /// Of every kind in turn.
    fn mixed(&mut self, region: u32, length: usize) -> States {
        (0..length).map(|place| KINDS[place % KINDS.len()].1(self, region)).unzip()
    }
}

/// The ends of the ranges, the lines at a temperature, the doubles next to these, and the strange ones, each beside each.
fn edges(source: &mut Source, _: u32) -> (f64, f64) {
    let t = match source.draw.below(4) {
        0 => source.strange(),
        1 => edge(&mut source.draw, &TEMPERATURES_5),
        _ => edge(&mut source.draw, &TEMPERATURES),
    };
    let p = match source.draw.below(6) {
        0 | 1 => source.strange(),
        2 => edge(&mut source.draw, &PRESSURES_5),
        3 => edge(&mut source.draw, &PRESSURES),
        4 => beside(&mut source.draw, climboat::saturation_pressure(t)),
        _ => beside(&mut source.draw, climboat::b23_pressure(t)),
    };
    (p, t)
}

fn edge(draw: &mut Draw, list: &[f64]) -> f64 {
    let edge = one_of(draw, list);
    beside(draw, edge)
}

fn inside(source: &mut Source, region: u32) -> (f64, f64) {
    let draw = &mut source.draw;
    let (coldest, warmest) = match region {
        1 => (273.15, 623.15),
        2 => (273.15, 1073.15),
        _ => (1073.15, 2273.15),
    };
    let t = draw.between(coldest, warmest);
    let (least, most) = match region {
        1 => (climboat::saturation_pressure(t), 100.0),
        2 => (1.0e-8, boundary(t)),
        _ => (1.0e-8, 50.0),
    };
    let p = if draw.below(2) == 0 { draw.between(least, most) } else { magnitude(draw, least, most) };
    (p, t)
}

fn near_saturation(source: &mut Source, _: u32) -> (f64, f64) {
    let t = source.draw.between(273.15, 647.096);
    (about(&mut source.draw, climboat::saturation_pressure(t)), t)
}

/// Where region 2 ends above 623.15 K, and where region 5 begins and stops.
fn near_others(source: &mut Source, _: u32) -> (f64, f64) {
    let draw = &mut source.draw;
    if draw.below(2) == 0 {
        let t = draw.between(623.15, 863.15);
        return (about(draw, climboat::b23_pressure(t)), t);
    }
    let end = one_of(draw, &TEMPERATURES_5);
    (magnitude(draw, 1.0e-9, 120.0), about(draw, end))
}

/// A double next to x, or within four thousandths of it.
fn about(draw: &mut Draw, x: f64) -> f64 {
    if draw.below(2) == 0 {
        beside(draw, x)
    } else {
        x * draw.between(0.996, 1.004)
    }
}

/// What the places of a log are owed, by single calls.
fn owed(region: u32, property: u32, p: &[f64], t: &[f64]) -> Vec<Reading> {
    p.iter().zip(t).map(|(&p, &t)| Reading::owed(&climboat::property(region, property, p, t))).collect()
}

fn named() -> impl Iterator<Item = (u32, u32)> {
    REGIONS.into_iter().flat_map(|region| PROPERTIES.map(|property| (region, property)))
}

/// Whether nothing differed.
pub fn compare() -> bool {
    let mut good = true;
    for ((what, kind), seed) in KINDS.into_iter().zip(0x0c1b_0a70_0000_0091..) {
        good &= drawn(what, kind, seed);
    }
    good & every_length() & lengths_that_differ() & nothing_named() & rearranged()
}

/// Logs of drawn lengths, each of every property.
fn drawn(what: &'static str, kind: Kind, seed: u64) -> bool {
    let mut by_log = ByLog::new(what);
    let mut source = Source::new(seed);
    for region in REGIONS {
        let mut places = 0;
        while places < PLACES {
            let length = source.length();
            let (p, t) = source.states(kind, region, length);
            for property in PROPERTIES {
                by_log.fill(region, property, &p, &t, &owed(region, property, &p, &t));
            }
            places += length;
        }
    }
    by_log.told()
}

/// Every length that is filled, of every region, the properties in turn, and then those that are too long.
fn every_length() -> bool {
    let mut by_log = ByLog::new("log, every length from 0 to 4097, and 4098, 8192 and 100000");
    let mut source = Source::new(0x0c1b_0a70_0000_0096);
    for (first, region) in REGIONS.into_iter().enumerate() {
        let (p, t) = source.mixed(region, TOO_LONG[TOO_LONG.len() - 1]);
        let owed = PROPERTIES.map(|property| owed(region, property, &p[..LONGEST_LOG], &t[..LONGEST_LOG]));
        for length in (0..=LONGEST_LOG).chain(TOO_LONG) {
            let place = (first + length) % PROPERTIES.len();
            by_log.fill(region, PROPERTIES[place], &p[..length], &t[..length], owed[place].get(..length).unwrap_or_default());
        }
    }
    by_log.told()
}

/// Each of the four runs at each of the lengths.
fn crossed<const N: usize>(lengths: [usize; N]) -> impl Iterator<Item = [usize; 4]> {
    (0..N.pow(4)).map(move |n| [n, n / N, n / N.pow(2), n / N.pow(3)].map(|n| lengths[n % N]))
}

/// Some of the four runs, one, two or three, at another length than the rest.
fn apart(length: usize, other: usize) -> impl Iterator<Item = [usize; 4]> {
    (1..15).map(move |runs| [0, 1, 2, 3].map(|run| if runs >> run & 1 == 1 { other } else { length }))
}

/// The four runs at every edge length each, and at drawn lengths with some runs longer, shorter, empty, as long as may be, or too long.
fn lengths_that_differ() -> bool {
    let mut by_log = ByLog::new("log, lengths that differ in one, two, three and four of the runs");
    let mut source = Source::new(0x0c1b_0a70_0000_0097);
    for (region, property) in named() {
        let (p, t) = source.mixed(region, 2 * LONGEST_LOG);
        let owed = owed(region, property, &p[..LONGEST_LOG], &t[..LONGEST_LOG]);
        let drawn = (0..DRAWN_LENGTHS).map(|_| 1 + source.draw.below(LONGEST_LOG as u64) as usize);
        let others = drawn.flat_map(|length| [length + 1, length - 1, 0, 4_096, 4_097, 2 * length].map(|other| (length, other)));
        let all = crossed(EDGE_LENGTHS).chain(others.flat_map(|(length, other)| apart(length, other)));
        for [of_p, of_t, of_values, of_numbers] in all {
            by_log.call(region, property, &p[..of_p], &t[..of_t], [of_values, of_numbers], owed.get(..of_p).unwrap_or_default());
        }
    }
    by_log.told()
}

/// Numbers that name no region or no property, whatever the lengths.
fn nothing_named() -> bool {
    let mut by_log = ByLog::new("log, numbers that name nothing, over lengths that are one, differ or are too long");
    let mut source = Source::new(0x0c1b_0a70_0000_0098);
    let (p, t) = source.mixed(1, 4_097);
    let draw = &mut source.draw;
    let drawn = (0..DRAWN_NAMES).map(|n| {
        let (region, property) = (unknown(draw, &REGIONS), unknown(draw, &PROPERTIES));
        [(region, one_of(draw, &PROPERTIES)), (one_of(draw, &REGIONS), property), (region, property)][n % 3]
    });
    for (region, property) in NOTHING_NAMED.into_iter().chain(drawn) {
        for [of_p, of_t, of_values, of_numbers] in crossed([0, 1, 4_096, 4_097]) {
            by_log.call(region, property, &p[..of_p], &t[..of_t], [of_values, of_numbers], &[]);
        }
    }
    by_log.told()
}

/// The states of one log in another order and among others: what a place holds turns on its own p and T alone.
fn rearranged() -> bool {
    let mut by_log = ByLog::new("log, and its states in another order among others");
    let mut source = Source::new(0x0c1b_0a70_0000_0099);
    for (region, property) in named() {
        for _ in 0..REARRANGED {
            let length = 1 + source.draw.below(LONGEST_LOG as u64) as usize;
            let (mut p, mut t) = source.mixed(region, length);
            by_log.fill(region, property, &p, &t, &owed(region, property, &p, &t));
            let mut readings = by_log.readings();
            let others = source.draw.below((LONGEST_LOG - length) as u64 + 1) as usize;
            let (more_p, more_t) = source.mixed(region, others);
            readings.extend(owed(region, property, &more_p, &more_t));
            p.extend(more_p);
            t.extend(more_t);
            let order = shuffled(&mut source.draw, p.len());
            let [p, t] = [p, t].map(|run| order.iter().map(|&place| run[place]).collect::<Vec<f64>>());
            let readings: Vec<Reading> = order.iter().map(|&place| readings[place]).collect();
            by_log.fill(region, property, &p, &t, &readings);
        }
    }
    by_log.told()
}

/// So many places in a drawn order.
fn shuffled(draw: &mut Draw, length: usize) -> Vec<usize> {
    let mut order: Vec<usize> = (0..length).collect();
    for place in (1..length).rev() {
        order.swap(place, draw.below(place as u64 + 1) as usize);
    }
    order
}
