//! Refusals: each that can be reached, and what every call says of any doubles and any limit.
mod searches;

use climboat::*;
use searches::searches;

const DOUBLES: [f64; 25] = [
    f64::NAN,
    -f64::NAN,
    f64::INFINITY,
    f64::NEG_INFINITY,
    0.0,
    -0.0,
    -1.0,
    5.0e-324,
    f64::MAX,
    f64::MIN,
    1.0e-8,
    0.000611212677444,
    0.001,
    0.0010005,
    1.0,
    16.5291643,
    50.0,
    100.0,
    273.15,
    300.0,
    623.15,
    863.15,
    1073.15,
    1500.0,
    2273.15,
];
const LIMITS: [u32; 6] = [
    0,
    1,
    STEP_LIMIT,
    LARGEST_STEP_LIMIT,
    LARGEST_STEP_LIMIT + 1,
    u32::MAX,
];

/// What a refusal carries is what document 01's table gives its number.
fn assert_refusal(refusal: Refusal, limit: u32) {
    let shown = format!("{refusal:?}");
    assert_ne!(refusal.cause(), Cause::Unknown, "{shown}");
    assert!(
        refusal
            .to_string()
            .starts_with(&format!("refused by {}: ", refusal.number)),
        "{shown}"
    );
    let carries = [6, 8, 10].contains(&refusal.number);
    assert_eq!(refusal.has_bracket(), carries, "{shown}");
    assert_eq!(
        refusal.bracket.lower < refusal.bracket.upper,
        carries,
        "{shown}"
    );
    let bracket = refusal.bracket;
    let residuals = [bracket.lower_residual, bracket.upper_residual];
    if carries {
        assert!(residuals.iter().all(|x| x.is_finite()), "{shown}");
    } else {
        let ends = [bracket.lower, bracket.upper];
        assert_eq!((refusal.steps, ends), (0, [0.0; 2]), "{shown}");
        assert_eq!(residuals.map(f64::to_bits), [0; 2], "{shown}");
    }
    if refusal.cause() == Cause::StepsSpent {
        assert_eq!(refusal.steps, limit, "{shown}");
        assert!(
            refusal.bracket.lower <= refusal.value && refusal.value <= refusal.bracket.upper,
            "{shown}"
        );
    } else {
        assert_eq!(refusal.value, 0.0, "{shown}");
    }
}

fn assert_found(reading: Reading, limit: u32) {
    let search = reading
        .search
        .unwrap_or_else(|| panic!("no search in {reading:?}"));
    assert!(search.steps <= limit, "{reading:?}");
    assert!(
        search.bracket.lower <= reading.value && reading.value <= search.bracket.upper,
        "{reading:?}"
    );
    assert_ne!(reading.reason, Reason::Value, "{reading:?}");
    assert!(
        reading.reason != Reason::ExactEnd || search.steps == 0,
        "{reading:?}"
    );
}

#[test]
fn a_search_answers_or_refuses_by_the_table_whatever_its_inputs() {
    let mut seen = std::collections::BTreeSet::new();
    for (&first, &second) in DOUBLES
        .iter()
        .flat_map(|first| DOUBLES.iter().map(move |second| (first, second)))
    {
        for (pair, region) in searches() {
            for limit in LIMITS {
                let answer = search(pair, region, first, second, limit);
                match answer {
                    Ok(reading) => assert_found(reading, limit),
                    Err(refusal) => assert_refusal(refusal, limit),
                }
                let number = answer.map_or_else(|refusal| refusal.number, |_| 0);
                assert_eq!(
                    number == 11,
                    limit > LARGEST_STEP_LIMIT,
                    "{pair:?} {region:?} {first} {second} {limit}"
                );
                let finite = first.is_finite() && second.is_finite();
                assert_eq!(
                    number == 1,
                    !finite && limit <= LARGEST_STEP_LIMIT,
                    "{pair:?} {region:?} {first} {second} {limit}"
                );
                seen.insert(number);
            }
        }
    }
    assert_eq!(
        seen.into_iter().collect::<Vec<u32>>(),
        [0, 1, 2, 3, 4, 5, 6, 7, 8, 11]
    );
}

#[test]
fn a_pair_that_the_region_has_not_is_refused_by_21_whatever_its_inputs() {
    for (&p, &v) in DOUBLES
        .iter()
        .flat_map(|p| DOUBLES.iter().map(move |v| (p, v)))
    {
        for limit in LIMITS {
            let refusal = search(Pair::Pv, Region::Five, p, v, limit).unwrap_err();
            assert_refusal(refusal, limit);
            assert_eq!(refusal.cause(), Cause::NothingNamed, "{refusal:?}");
            let asked = refusal.asked;
            assert_eq!((asked.kind, asked.region), (Kind::Pv, None), "{refusal:?}");
            let bits = [asked.first, asked.second].map(f64::to_bits);
            assert_eq!(bits, [p, v].map(f64::to_bits), "{refusal:?}");
        }
    }
}

#[test]
fn a_property_answers_a_finite_value_or_refuses_whatever_its_inputs() {
    for (&p, &t) in DOUBLES
        .iter()
        .flat_map(|p| DOUBLES.iter().map(move |t| (p, t)))
    {
        for (&region, &of) in Region::ALL
            .iter()
            .flat_map(|region| Property::ALL.iter().map(move |of| (region, of)))
        {
            let answer = property(region, of, p, t);
            match answer {
                Ok(reading) => assert!(
                    reading.value.is_finite() && reading.search.is_none(),
                    "{reading:?}"
                ),
                Err(refusal) => assert_refusal(refusal, 0),
            }
            let number = answer.map_or_else(|refusal| refusal.number, |_| 0);
            assert_eq!(
                number == 1,
                !(p.is_finite() && t.is_finite()),
                "{of:?} {region:?} {p} {t}"
            );
        }
    }
}

#[test]
fn the_lines_refuse_by_1_2_or_3() {
    type Line = fn(f64) -> Result<Reading, Refusal>;
    let lines: [(Line, u32); 4] = [
        (saturation_pressure, 2),
        (saturation_temperature, 3),
        (b23_pressure, 2),
        (b23_temperature, 3),
    ];
    for (line, outside) in lines {
        for x in [f64::NAN, f64::INFINITY, f64::NEG_INFINITY] {
            assert_eq!(line(x).unwrap_err().cause(), Cause::NotFinite, "{x}");
        }
        for x in [-1.0, -0.0, 0.0, 5.0e-324, 1.0e5, f64::MAX, f64::MIN] {
            assert_eq!(line(x).unwrap_err().number, outside, "{x}");
        }
    }
}

#[test]
fn a_refusal_is_an_error_like_others() {
    fn ask() -> Result<f64, Box<dyn std::error::Error>> {
        Ok(pv2t(PvRegion::One, 3.0, 0.001, 2)?.value)
    }
    let shown = ask().unwrap_err().to_string();
    let refusal = pv2t(PvRegion::One, 3.0, 0.001, 2).unwrap_err();
    let bracket = refusal.bracket;
    let expected = format!(
        "refused by 8: {}; of region 1, p = 3.0 MPa, v = 0.001 m^3/kg, where T was asked for; steps 2, bracket {:?} to {:?} K, residuals {:?} and {:?} (relative), last point {:?} K",
        refusal.sentence(),
        bracket.lower,
        bracket.upper,
        bracket.lower_residual,
        bracket.upper_residual,
        refusal.value
    );
    assert_eq!(shown, expected);
}
