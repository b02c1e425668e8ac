//! The readings of a log over its lines: the stretches without a reading, and the line through the others, thinned to the columns of a picture.
use crate::log::Outcome;
use std::collections::BTreeMap;

/// Why a line has no reading.
#[derive(Clone, Copy, PartialEq, Eq, PartialOrd, Ord)]
pub enum Gap {
    /// Refused by this number.
    Refused(u32),
    /// A bad line: nothing was asked.
    Bad,
}

/// Lines with the same gap, one after the other; blank lines and remarks between them do not count.
pub struct Stretch {
    pub first: u64,
    pub last: u64,
    pub places: u64,
}

/// An answered reading: its line, and its value.
pub type Point = (u64, f64);

#[derive(Default)]
pub struct Readings {
    /// how many lines the log has
    pub lines: u64,
    marks: Vec<(u64, Result<f64, Gap>)>,
}

impl Readings {
    pub fn add(&mut self, line: u64, outcome: &Outcome) {
        self.lines = line;
        let mark = match outcome {
            Outcome::Passed | Outcome::Heading => return,
            Outcome::Reading { value, number: 0 } => Ok(*value),
            Outcome::Reading { number, .. } => Err(Gap::Refused(*number)),
            Outcome::Bad(_) => Err(Gap::Bad),
        };
        self.marks.push((line, mark));
    }

    /// The smallest and the largest answered value, if there is one.
    pub fn range(&self) -> Option<(f64, f64)> {
        let values = self.marks.iter().filter_map(|&(_, mark)| mark.ok());
        values.fold(None, |range, value| match range {
            None => Some((value, value)),
            Some((low, high)) => Some((value.min(low), value.max(high))),
        })
    }

    pub fn stretches(&self) -> BTreeMap<Gap, Vec<Stretch>> {
        let mut stretches: BTreeMap<Gap, Vec<Stretch>> = BTreeMap::new();
        for alike in self.marks.chunk_by(|a, b| a.1.err() == b.1.err()) {
            if let [(first, Err(gap)), ..] = alike {
                stretches.entry(*gap).or_default().push(Stretch {
                    first: *first,
                    last: alike[alike.len() - 1].0,
                    places: alike.len() as u64,
                });
            }
        }
        stretches
    }

    /// The answered readings, parted wherever there is a gap.
    fn unbroken(&self) -> impl Iterator<Item = Vec<Point>> + '_ {
        let runs = self.marks.chunk_by(|a, b| a.1.is_ok() && b.1.is_ok());
        runs.map(|run| {
            let points = run
                .iter()
                .filter_map(|&(line, mark)| Some((line, mark.ok()?)));
            points.collect()
        })
    }

    /// The line through the answered readings, in pieces: it never goes over a gap. Of a piece each column of the picture has the smallest and the largest reading. Pieces that begin and end in
    /// one column are too small to be told apart: of all of them together it has the smallest and the largest, each on its own.
    pub fn pieces(&self, columns: u64) -> Vec<Vec<Point>> {
        let column = |point: &Point| (point.0 - 1) * columns / self.lines;
        let mut pieces = Vec::new();
        let mut small: BTreeMap<u64, Vec<Point>> = BTreeMap::new();
        for points in self.unbroken() {
            let in_columns = points.chunk_by(|a, b| column(a) == column(b));
            let thinned: Vec<Vec<Point>> = in_columns.map(extremes).collect();
            match &thinned[..] {
                [] => {}
                [only] => small.entry(column(&only[0])).or_default().extend(only),
                _ => pieces.push(thinned.concat()),
            }
        }
        let single = small.values().flat_map(|points| extremes(points));
        pieces.extend(single.map(|point| vec![point]));
        pieces
    }
}

/// The smallest and the largest, in the order of their lines.
fn extremes(points: &[Point]) -> Vec<Point> {
    let by_value = |a: &&Point, b: &&Point| a.1.total_cmp(&b.1);
    let smallest = points.iter().min_by(by_value);
    let largest = points.iter().max_by(by_value);
    let mut both: Vec<Point> = smallest.into_iter().chain(largest).copied().collect();
    both.sort_by_key(|point| point.0);
    both.dedup();
    both
}

#[cfg(test)]
mod tests {
    use super::*;
    use crate::request::Wrong;

    /// A log with a line for each character: a digit is a reading, x one refused by 3, y one by 1, ! a bad line, and # a remark.
    fn log(lines: &str) -> Readings {
        let mut readings = Readings::default();
        let wrong = Wrong(String::new());
        for (line, character) in (1..).zip(lines.chars()) {
            let reading = |value: u32, number| Outcome::Reading {
                value: f64::from(value),
                number,
            };
            let outcome = match character {
                'x' => reading(0, 3),
                'y' => reading(0, 1),
                '!' => Outcome::Bad(&wrong),
                '#' => Outcome::Passed,
                digit => reading(digit.to_digit(10).unwrap(), 0),
            };
            readings.add(line, &outcome);
        }
        readings
    }

    #[test]
    fn a_gap_parts_the_line_and_a_remark_does_not() {
        let readings = log("#12x3#4!5y");
        let pieces = vec![
            vec![(2, 1.0), (3, 2.0)],
            vec![(5, 3.0), (7, 4.0)],
            vec![(9, 5.0)],
        ];
        assert_eq!(readings.pieces(850), pieces);
        assert_eq!((readings.lines, readings.range()), (10, Some((1.0, 5.0))));
    }

    #[test]
    fn stretches_are_as_long_as_one_gap_lasts() {
        let stretches = log("xx#x1!y!!xy").stretches();
        let shown = |gap| -> Vec<(u64, u64, u64)> {
            let stretches = stretches.get(&gap).into_iter().flatten();
            let shown = stretches.map(|one| (one.first, one.last, one.places));
            shown.collect()
        };
        assert_eq!(shown(Gap::Refused(3)), [(1, 4, 3), (10, 10, 1)]);
        assert_eq!(shown(Gap::Refused(1)), [(7, 7, 1), (11, 11, 1)]);
        assert_eq!(shown(Gap::Bad), [(6, 6, 1), (8, 9, 2)]);
        assert!(log("##12").stretches().is_empty());
    }

    /// Every log of this many lines that are 1, 2, 3 or refused.
    fn logs(length: u32) -> impl Iterator<Item = String> {
        let line = |code: u32, place: u32| ['1', '2', '3', 'x'][(code >> (2 * place) & 3) as usize];
        (0..4_u32.pow(length)).map(move |code| (0..length).map(|place| line(code, place)).collect())
    }

    #[test]
    fn in_however_few_columns_no_piece_goes_over_a_gap_and_no_extreme_is_lost() {
        for lines in (1..=6).flat_map(logs) {
            let readings = log(&lines);
            for columns in 1..=8 {
                let pieces = readings.pieces(columns);
                for (from, to) in pieces
                    .iter()
                    .flat_map(|piece| piece.iter().zip(&piece[1..]))
                {
                    let between = &lines[from.0 as usize - 1..to.0 as usize];
                    assert!(!between.contains('x'), "{lines} in {columns}: {pieces:?}");
                }
                let column = |point: &Point| (point.0 - 1) * columns / readings.lines;
                let all: Vec<Point> = readings.unbroken().flatten().collect();
                for place in 0..columns {
                    let here = |points: &[Point]| -> Vec<Point> {
                        let points = points.iter().filter(|point| column(point) == place);
                        points.copied().collect()
                    };
                    let [all, drawn] = [here(&all), here(&pieces.concat())];
                    let ends = |points: &[Point]| {
                        let values = extremes(points).into_iter().map(|point| point.1);
                        values.fold((f64::MAX, f64::MIN), |(low, high), value| {
                            (value.min(low), value.max(high))
                        })
                    };
                    assert_eq!(ends(&all), ends(&drawn), "{lines} in {columns}: {pieces:?}");
                    assert!(drawn.len() <= 6, "{lines} in {columns}: {pieces:?}");
                }
            }
        }
    }

    #[test]
    fn a_log_without_an_answered_reading_has_no_line() {
        for lines in ["", "#", "x", "xy!"] {
            assert!(log(lines).pieces(850).is_empty(), "{lines}");
            assert_eq!(log(lines).range(), None, "{lines}");
        }
    }
}
