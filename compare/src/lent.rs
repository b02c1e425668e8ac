//! The four runs that one call of the log is lent, each between guard places in one allocation: what a call writes where it must not shows, and a call that goes by another run's length stays within.

use crate::climboat;
use std::ops::Range;

/// Guard places before a run. Behind it are as many, and so many more that each of the four has room for the longest.
const GUARD: usize = 8;

/// A double or a number in a run.
trait Place: Copy {
    /// What is laid at a place before a call: nothing that a log writes, and another at every place.
    fn laid(place: usize) -> Self;
    fn bits(self) -> u64;
}

impl Place for f64 {
    // NaN, which no value is
    fn laid(place: usize) -> f64 {
        f64::from_bits(0x7ffc_1b0a_7000_0000 + place as u64)
    }

    fn bits(self) -> u64 {
        self.to_bits()
    }
}

impl Place for u32 {
    // above every number that a call refuses by
    fn laid(place: usize) -> u32 {
        u32::MAX - place as u32
    }

    fn bits(self) -> u64 {
        u64::from(self)
    }
}

#[derive(Default)]
struct Run<T> {
    room: Vec<T>,
    length: usize,
}

impl<T: Place> Run<T> {
    /// A run of this length in room for the longest.
    fn lay(&mut self, length: usize, longest: usize) -> &mut [T] {
        self.length = length;
        self.room.clear();
        self.room.extend((0..GUARD + longest + GUARD).map(T::laid));
        let run = self.range();
        &mut self.room[run]
    }

    fn range(&self) -> Range<usize> {
        GUARD..GUARD + self.length
    }

    fn places(&self) -> &[T] {
        &self.room[self.range()]
    }

    /// The first place that is not as it was laid, counted from where the run begins; of a run that may have been written to, the first guard place.
    fn changed(&self, written: bool) -> Option<isize> {
        let passed_over = if written { self.range() } else { 0..0 };
        let mut places = (0..passed_over.start).chain(passed_over.end..self.room.len());
        let place = places.find(|&place| self.room[place].bits() != T::laid(place).bits())?;
        Some(place as isize - GUARD as isize)
    }

    /// The same of a run that was given what it holds.
    fn changed_from(&self, given: &[T]) -> Option<isize> {
        let place = self.places().iter().zip(given).position(|(now, before)| now.bits() != before.bits());
        place.map(|place| place as isize).or_else(|| self.changed(true))
    }
}

#[derive(Default)]
pub struct Lent {
    p: Run<f64>,
    t: Run<f64>,
    values: Run<f64>,
    numbers: Run<u32>,
}

impl Lent {
    /// One call over copies of p and T and over two runs of these lengths, and what comes back.
    pub fn log(&mut self, region: u32, property: u32, p: &[f64], t: &[f64], [values, numbers]: [usize; 2]) -> u32 {
        let longest = p.len().max(t.len()).max(values).max(numbers);
        self.p.lay(p.len(), longest).copy_from_slice(p);
        self.t.lay(t.len(), longest).copy_from_slice(t);
        let (values, numbers) = (self.values.lay(values, longest), self.numbers.lay(numbers, longest));
        climboat::log(region, property, self.p.places(), self.t.places(), values, numbers)
    }

    /// What the last call, over this p and T, wrote where it must not: in them, in a guard place, or, if the two other runs are not to be filled, in those.
    pub fn spoilt(&self, p: &[f64], t: &[f64], filled: bool) -> Option<String> {
        let changed = [("p", self.p.changed_from(p)), ("T", self.t.changed_from(t)), ("values", self.values.changed(filled)), ("numbers", self.numbers.changed(filled))];
        changed.into_iter().find_map(|(run, place)| place.map(|place| format!("place {place} of {run} is not as it was")))
    }

    /// The value and the number of each place, as the last call left them.
    pub fn readings(&self) -> impl Iterator<Item = (f64, u32)> + '_ {
        self.values.places().iter().copied().zip(self.numbers.places().iter().copied())
    }
}
