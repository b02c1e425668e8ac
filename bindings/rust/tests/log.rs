//! A whole log at once: every place as the single call has it, and nothing written where the lengths are wrong.
use climboat::*;

/// Doubles at the ends of ranges, beside states of every region, and what is no state at all.
const PRESSURES: [f64; 16] = [
    f64::NAN,
    f64::INFINITY,
    f64::NEG_INFINITY,
    0.0,
    -0.0,
    -1.0,
    5.0e-324,
    f64::MAX,
    1.0e-8,
    0.0035,
    0.5,
    3.0,
    16.5291643,
    50.0,
    100.0,
    100.00000000000001,
];
const TEMPERATURES: [f64; 14] = [
    f64::NAN,
    f64::INFINITY,
    f64::NEG_INFINITY,
    0.0,
    -300.0,
    273.15,
    300.0,
    500.0,
    623.15,
    863.15,
    1073.15,
    1500.0,
    2273.15,
    f64::MAX,
];

type Fill = fn(Region, Property, &[f64], &[f64], &mut [f64], &mut [u32]) -> Result<(), Refusal>;
const FILLS: [Fill; 2] = [property_log, property_long_log];

/// Readings of this length, every state crossed with every other, over and over.
fn readings(length: usize) -> (Vec<f64>, Vec<f64>) {
    let crossed = PRESSURES
        .iter()
        .flat_map(|&p| TEMPERATURES.iter().map(move |&t| (p, t)));
    crossed.cycle().take(length).unzip()
}

/// What is in a run before it is lent: no reading, and the number of no refusal.
const UNWRITTEN: (f64, u32) = (-7.0, 77);

fn lent(values: usize, numbers: usize) -> (Vec<f64>, Vec<u32>) {
    (vec![UNWRITTEN.0; values], vec![UNWRITTEN.1; numbers])
}

/// Value and number of the single call.
fn single(region: Region, of: Property, p: f64, t: f64) -> (u64, u32) {
    property(region, of, p, t).map_or_else(
        |refusal| (refusal.value.to_bits(), refusal.number),
        |reading| (reading.value.to_bits(), 0),
    )
}

#[track_caller]
fn assert_filled(fill: Fill, region: Region, of: Property, length: usize) {
    let (p, t) = readings(length);
    let (mut values, mut numbers) = lent(length, length);
    assert_eq!(fill(region, of, &p, &t, &mut values, &mut numbers), Ok(()));
    for place in 0..length {
        assert_eq!(
            (values[place].to_bits(), numbers[place]),
            single(region, of, p[place], t[place]),
            "{region:?} {of:?} {:?} {:?}, place {place} of {length}",
            p[place],
            t[place]
        );
    }
}

#[test]
fn every_place_is_the_single_calls_in_every_region_of_every_property() {
    let length = PRESSURES.len() * TEMPERATURES.len();
    for fill in FILLS {
        for &region in Region::ALL {
            for &of in Property::ALL {
                assert_filled(fill, region, of, length);
            }
        }
    }
    // of what does not come up nothing is shown
    let (p, t) = readings(length);
    for &region in Region::ALL {
        let (mut values, mut numbers) = lent(length, length);
        property_log(region, Property::Volume, &p, &t, &mut values, &mut numbers).unwrap();
        for number in [0, 1, 2, 3] {
            assert!(numbers.contains(&number), "{region:?} {number}");
        }
    }
}

#[test]
fn every_length_up_to_the_longest_is_filled_and_the_next_is_refused() {
    for length in [0, 1, 2, 3, 95, 96, 97, 4_095, LONGEST_LOG] {
        assert_filled(property_log, Region::Two, Property::Enthalpy, length);
    }
    for length in [LONGEST_LOG + 1, 8_192, 10_000] {
        assert_refused(property_log, [length; 4]);
    }
}

#[test]
fn a_long_log_is_filled_at_any_length() {
    for length in [0, 1, 4_095, 4_096, 4_097, 8_191, 8_192, 8_193, 10_000] {
        assert_filled(property_long_log, Region::One, Property::Volume, length);
    }
}

/// Refused by 13, with nothing written, and of the region and the property alone.
#[track_caller]
fn assert_refused(fill: Fill, lengths: [usize; 4]) {
    let (p, t) = (readings(lengths[0]).0, readings(lengths[1]).1);
    let (mut values, mut numbers) = lent(lengths[2], lengths[3]);
    let asked = (Region::Five, Property::SpeedOfSound);
    let refusal = fill(asked.0, asked.1, &p, &t, &mut values, &mut numbers).unwrap_err();
    assert_eq!(
        (values, numbers),
        lent(lengths[2], lengths[3]),
        "{lengths:?}"
    );
    assert_eq!(
        (refusal.number, refusal.cause()),
        (13, Cause::LogLengths),
        "{lengths:?}"
    );
    assert_eq!(
        (refusal.value, refusal.steps, refusal.has_bracket()),
        (0.0, 0, false)
    );
    let of = refusal.asked;
    let choices = (Kind::PT, Some(asked.0), Some(asked.1));
    assert_eq!((of.kind, of.region, of.property), choices);
    assert_eq!([of.first, of.second].map(f64::to_bits), [0, 0]);
    let shown = format!(
        "refused by 13: {}; of a log of region 5, where w was asked for",
        Cause::LogLengths.sentence()
    );
    assert_eq!(refusal.to_string(), shown);
}

#[test]
fn lengths_that_differ_are_refused_whichever_run_it_is() {
    for length in [0_usize, 1, 5, 4_095, 4_096, 4_097, 10_000] {
        for other in [
            0,
            1,
            length + 1,
            length.saturating_sub(1),
            2 * length,
            4_096,
        ] {
            // every set of runs that is not all of them
            for set in 1..15_usize {
                let lengths = [0, 1, 2, 3].map(|run| match set >> run & 1 {
                    1 => other,
                    _ => length,
                });
                if other != length {
                    FILLS.iter().for_each(|&fill| assert_refused(fill, lengths));
                }
            }
        }
    }
}

#[test]
fn a_place_turns_on_its_own_state_alone() {
    let (p, t) = readings(LONGEST_LOG);
    let (mut values, mut numbers) = lent(LONGEST_LOG, LONGEST_LOG);
    let fill = |p: &[f64], t: &[f64], values: &mut [f64], numbers: &mut [u32]| {
        property_log(Region::One, Property::Entropy, p, t, values, numbers).unwrap()
    };
    fill(&p, &t, &mut values, &mut numbers);
    let (from, to) = (1_000, 1_300);
    let (mut part, mut part_numbers) = lent(to - from, to - from);
    fill(&p[from..to], &t[from..to], &mut part, &mut part_numbers);
    assert_eq!(
        (&part[..], &part_numbers[..]),
        (&values[from..to], &numbers[from..to])
    );
}
