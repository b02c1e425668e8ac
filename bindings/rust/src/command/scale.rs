//! Round ticks for an axis.

/// Where an axis begins and ends, and its ticks between: multiples of 1, 2 or 5 times a power of ten.
pub struct Scale {
    pub low: f64,
    pub high: f64,
    step: f64,
    decimals: usize,
}

impl Scale {
    fn new(low: f64, high: f64, least_step: f64) -> Scale {
        let steps = (-30..=30).flat_map(|power: i32| [1, 2, 5].map(|digit| (digit, power)));
        // read from its digits it is the nearest double on every machine
        let mut steps = steps.map(|(digit, power)| (format!("{digit}e{power}").parse(), power));
        let found = steps.find_map(|(step, power)| {
            let step = step.ok().filter(|&step| step >= least_step)?;
            Some((step, power))
        });
        let (step, power) = found.unwrap_or((least_step, 0));
        Scale {
            low,
            high,
            step,
            decimals: power.min(0).unsigned_abs() as usize,
        }
    }

    /// An axis of whole numbers from 0 on, with this many ticks at most.
    pub fn whole(high: u64, ticks: f64) -> Scale {
        let high = high as f64;
        Scale::new(0.0, high, (high / ticks).max(1.0))
    }

    /// An axis around values, with this many ticks at most: it has room above and below, and where they are as good as equal they lie in its middle.
    pub fn around(low: f64, high: f64, ticks: f64) -> Scale {
        let size = low.abs().max(high.abs());
        let equal = high - low <= 1.0e-6 * size;
        let room = match (equal, size) {
            (true, 0.0) => 1.0,
            (true, _) => 0.005 * size,
            (false, _) => 0.05 * (high - low),
        };
        let (low, high) = (low - room, high + room);
        Scale::new(low, high, (high - low) / ticks)
    }

    /// The ticks, each with its digits.
    pub fn ticks(&self) -> Vec<(f64, String)> {
        let (first, last) = (
            (self.low / self.step).ceil(),
            (self.high / self.step).floor(),
        );
        (first as i64..=last as i64)
            .map(|count| count as f64 * self.step)
            .map(|tick| (tick, format!("{tick:.*}", self.decimals)))
            .collect()
    }

    /// How far along the axis a value lies, from 0 to 1.
    pub fn share(&self, value: f64) -> f64 {
        (value - self.low) / (self.high - self.low)
    }
}

#[cfg(test)]
mod tests {
    use super::*;

    fn digits(scale: &Scale) -> Vec<String> {
        scale.ticks().into_iter().map(|tick| tick.1).collect()
    }

    #[test]
    fn ticks_are_round_and_have_the_digits_that_they_need() {
        let around = |low, high| digits(&Scale::around(low, high, 7.0));
        assert_eq!(
            around(0.001001, 0.001082),
            ["0.00100", "0.00102", "0.00104", "0.00106", "0.00108"]
        );
        assert_eq!(around(-40.0, 300.0), ["0", "100", "200", "300"]);
        assert_eq!(digits(&Scale::whole(99, 12.0)).len(), 10);
        assert_eq!(digits(&Scale::whole(1, 12.0)), ["0", "1"]);
        assert_eq!(digits(&Scale::whole(0, 12.0)), ["0"]);
    }

    #[test]
    fn there_are_never_too_many_nor_any_outside() {
        for power in -12..=9 {
            for (low, high) in [
                (1.0, 1.3),
                (-7.0, 2.0),
                (0.0, 9.99),
                (-3.0, -1.0),
                (1.0, 1.00001),
            ] {
                let [low, high] = [low, high].map(|end| end * 10_f64.powi(power));
                let scale = Scale::around(low, high, 7.0);
                let ticks = scale.ticks();
                assert!((2..=8).contains(&ticks.len()), "{low} {high}: {ticks:?}");
                for (tick, digits) in ticks {
                    assert!(
                        (0.0..=1.0).contains(&scale.share(tick)),
                        "{low} {high}: {tick}"
                    );
                    let read: f64 = digits.parse().unwrap();
                    assert!(
                        (read - tick).abs() <= 1.0e-9 * tick.abs(),
                        "{digits} for {tick}"
                    );
                }
                assert!(
                    scale.share(low) > 0.0 && scale.share(high) < 1.0,
                    "{low} {high}"
                );
            }
        }
    }

    #[test]
    fn values_that_are_equal_lie_in_the_middle() {
        for value in [0.0, 0.0010021516796866943, -5.0, 1.0e8] {
            let scale = Scale::around(value, value, 7.0);
            assert!((scale.share(value) - 0.5).abs() < 1.0e-9, "{value}");
            assert!(scale.ticks().len() >= 2, "{value}");
        }
    }
}
