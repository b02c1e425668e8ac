//! The bands of a chart: stretches without a reading, as wide as they are long, and never too narrow to be seen.
use crate::readings::Stretch;

/// The least width of a band: one refused line among a hundred thousand is still seen.
const NARROWEST: f64 = 3.0;
/// The least room between two bands: what lies nearer is drawn as one.
const NEAREST: f64 = 1.0;

/// A stretch, or several that cannot be told apart.
pub struct Band {
    pub left: f64,
    pub right: f64,
    first: u64,
    last: u64,
    stretches: u64,
}

impl Band {
    /// The bands of stretches, between two ends; `x_of` is where so many lines end.
    pub fn all(stretches: &[Stretch], ends: (f64, f64), x_of: impl Fn(f64) -> f64) -> Vec<Band> {
        let mut bands: Vec<Band> = Vec::new();
        for &Stretch { first, last, .. } in stretches {
            let [left, right] = [first - 1, last].map(|lines| x_of(lines as f64));
            let wider = (NARROWEST - (right - left)).max(0.0) / 2.0;
            let (left, right) = ((left - wider).max(ends.0), (right + wider).min(ends.1));
            match bands.last_mut() {
                Some(band) if left < band.right + NEAREST => {
                    (band.right, band.last) = (right, last);
                    band.stretches += 1;
                }
                _ => bands.push(Band {
                    left,
                    right,
                    first,
                    last,
                    stretches: 1,
                }),
            }
        }
        bands
    }

    pub fn middle(&self) -> f64 {
        (self.left + self.right) / 2.0
    }

    /// Its first and its last line.
    pub fn lines(&self) -> String {
        match (self.stretches, self.first == self.last) {
            (1, true) => format!("{}", self.first),
            (1, false) => format!("{}\u{2013}{}", self.first, self.last),
            (count, _) => format!("{}\u{2013}{}, {count} stretches", self.first, self.last),
        }
    }

    /// As a closed path between two heights.
    pub fn path(&self, top: f64, bottom: f64) -> String {
        let (left, right) = (self.left, self.right);
        format!("M{left:.1} {top:.1}H{right:.1}V{bottom:.1}H{left:.1}z")
    }
}

#[cfg(test)]
mod tests {
    use super::*;

    fn bands(lines: u64, stretches: &[(u64, u64)]) -> Vec<Band> {
        let stretches: Vec<Stretch> = stretches
            .iter()
            .map(|&(first, last)| Stretch {
                first,
                last,
                places: last - first + 1,
            })
            .collect();
        Band::all(&stretches, (100.0, 900.0), |count| {
            100.0 + 800.0 * count / lines as f64
        })
    }

    #[test]
    fn a_band_is_as_wide_as_its_stretch_is_long() {
        let bands = bands(8, &[(1, 1), (3, 6), (8, 8)]);
        let ends: Vec<(f64, f64)> = bands.iter().map(|band| (band.left, band.right)).collect();
        assert_eq!(ends, [(100.0, 200.0), (300.0, 700.0), (800.0, 900.0)]);
        let lines: Vec<String> = bands.iter().map(Band::lines).collect();
        assert_eq!(lines, ["1", "3\u{2013}6", "8"]);
    }

    #[test]
    fn one_line_among_a_hundred_thousand_is_seen_wherever_it_is() {
        for line in [1, 2, 50_000, 99_999, 100_000] {
            let bands = bands(100_000, &[(line, line)]);
            let [band] = &bands[..] else {
                panic!("{} bands", bands.len());
            };
            assert!(band.right - band.left >= NARROWEST / 2.0, "{line}");
            assert!(band.left >= 100.0 && band.right <= 900.0, "{line}");
            assert_eq!(band.lines(), line.to_string());
        }
    }

    #[test]
    fn those_that_cannot_be_told_apart_are_one_and_none_is_lost() {
        let stretches: Vec<(u64, u64)> = (0..10_000).map(|n| (10 * n + 3, 10 * n + 4)).collect();
        let all = bands(100_000, &stretches);
        assert_eq!(all.len(), 1);
        assert_eq!(all[0].lines(), "3\u{2013}99994, 10000 stretches");

        let stretches: Vec<(u64, u64)> = (1..100).map(|n| (n * n * 10, n * n * 10)).collect();
        let some = bands(100_000, &stretches);
        assert!(some.len() > 50 && some.len() < 99, "{}", some.len());
        assert_eq!(some.iter().map(|band| band.stretches).sum::<u64>(), 99);
        assert!(some
            .windows(2)
            .all(|two| two[0].right + NEAREST <= two[1].left));
    }
}
