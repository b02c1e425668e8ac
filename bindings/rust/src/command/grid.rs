//! The p-T plane in cells, each asked of every region, and equal cells joined into rectangles.
use climboat::{property, Property, Region};
use std::collections::BTreeMap;

/// What the regions say of a point.
#[derive(Clone, PartialEq, Eq, PartialOrd, Ord)]
pub enum Class {
    /// By number, those that answer.
    Answered(Vec<u32>),
    /// Where none answers: the numbers of refusals, each with the regions that refuse by it.
    Refused(BTreeMap<u32, Vec<u32>>),
}

impl Class {
    pub fn of(p: f64, t: f64) -> Class {
        let mut answered = Vec::new();
        let mut refused: BTreeMap<u32, Vec<u32>> = BTreeMap::new();
        for region in Region::ALL {
            match property(*region, Property::Volume, p, t) {
                Ok(_) => answered.push(region.number()),
                Err(refusal) => refused
                    .entry(refusal.number)
                    .or_default()
                    .push(region.number()),
            }
        }
        match answered.is_empty() {
            true => Class::Refused(refused),
            false => Class::Answered(answered),
        }
    }
}

/// Cells x to x + width, y to y + height.
#[derive(Clone, Copy)]
pub struct Rectangle {
    pub x: usize,
    pub y: usize,
    pub width: usize,
    pub height: usize,
}

/// The rectangles of each class, over columns of equal T and rows of equal p.
pub fn rectangles(temperatures: &[f64], pressures: &[f64]) -> BTreeMap<Class, Vec<Rectangle>> {
    let mut done: BTreeMap<Class, Vec<Rectangle>> = BTreeMap::new();
    let mut open: Vec<(Class, Rectangle)> = Vec::new();
    for (x, &t) in temperatures.iter().enumerate() {
        let mut next = runs(x, t, pressures);
        for (class, before) in open {
            match next.iter_mut().find(|(other, run)| {
                *other == class && (run.y, run.height) == (before.y, before.height)
            }) {
                Some((_, run)) => {
                    *run = Rectangle {
                        width: before.width + 1,
                        ..before
                    }
                }
                None => done.entry(class).or_default().push(before),
            }
        }
        open = next;
    }
    for (class, last) in open {
        done.entry(class).or_default().push(last);
    }
    done
}

/// The runs of equal cells of one column.
fn runs(x: usize, t: f64, pressures: &[f64]) -> Vec<(Class, Rectangle)> {
    let mut runs: Vec<(Class, Rectangle)> = Vec::new();
    for (y, &p) in pressures.iter().enumerate() {
        let class = Class::of(p, t);
        match runs.last_mut() {
            Some((last, run)) if *last == class => run.height += 1,
            _ => runs.push((
                class,
                Rectangle {
                    x,
                    y,
                    width: 1,
                    height: 1,
                },
            )),
        }
    }
    runs
}
