//! Document 01's readings 10 to 16, with their neighbours: as document 01 has them, and bit for bit as the program `edges` prints them (crates/edges/stdout).
//! And where document 02's region 5 begins and stops.
mod searches;

use climboat::*;
use searches::target;

/// What `edges` says under this name.
fn stored(name: &str) -> &'static str {
    let lines = include_str!("../../../crates/edges/stdout").lines();
    let mut found = lines
        .filter_map(|line| line.rsplit_once(": "))
        .filter(|(before, _)| *before == name);
    found
        .next()
        .unwrap_or_else(|| panic!("edges has no line {name:?}"))
        .1
}

fn bits(x: f64) -> String {
    format!("{:016x}", x.to_bits())
}

fn ends(bracket: Bracket) -> String {
    format!(
        "bracket {} {}, residuals {} {}",
        bits(bracket.lower),
        bits(bracket.upper),
        bits(bracket.lower_residual),
        bits(bracket.upper_residual)
    )
}

/// What an answer is of. Only here can there be a NaN, which is written as such.
fn of(asked: Asked) -> String {
    let input = |x: f64| {
        if x.is_nan() {
            return "NaN".to_string();
        }
        bits(x)
    };
    format!(
        "kind {}, region {}, property {}, inputs {} {}",
        asked.kind.number(),
        asked.region.map_or(0, Region::number),
        asked.property.map_or(0, Property::number),
        input(asked.first),
        input(asked.second)
    )
}

/// An answer in the words of `edges`.
fn told(answer: Result<Reading, Refusal>) -> String {
    let (said, asked) = match answer {
        Err(no) => {
            let (value, bracket) = (bits(no.value), ends(no.bracket));
            let said = format!(
                "refused {}, value {value}, steps {}, {bracket}",
                no.number, no.steps
            );
            (said, no.asked)
        }
        Ok(reading) => {
            let value = format!("{} {}", reading.reason, bits(reading.value));
            let said = reading.search.map_or(value.clone(), |search| {
                let mark = if search.inside { "inside" } else { "outside" };
                let bracket = ends(search.bracket);
                format!("{value}, steps {}, {bracket}, {mark}", search.steps)
            });
            (said, reading.asked)
        }
    };
    format!("{said}, {}", of(asked))
}

#[track_caller]
fn same(name: &str, answer: Result<Reading, Refusal>) {
    assert_eq!(told(answer), stored(name), "{name}");
}

/// The volume at (p,T), where the region answers.
fn volume(region: Region, p: f64, t: f64) -> f64 {
    property(region, Property::Volume, p, t).unwrap().value
}

#[test]
fn readings_10_to_12() {
    let v = |region, p, t| property(region, Property::Volume, p, t);
    assert_eq!(v(Region::Two, 0.0, 300.0).unwrap_err().number, 3);
    assert_eq!(v(Region::Two, 0.0, f64::NAN).unwrap_err().number, 1);
    assert!(v(Region::One, 100.0, 623.15).is_ok());
    assert_eq!(
        v(Region::One, 100.0, 623.15_f64.next_up())
            .unwrap_err()
            .number,
        2
    );
    same("10: region 2, p = 0, T = 300", v(Region::Two, 0.0, 300.0));
    same("11: p = 0, T NaN", v(Region::Two, 0.0, f64::NAN));
    same("12: region 1, T = 623.15", v(Region::One, 100.0, 623.15));
    same(
        "12: region 1, the double above 623.15",
        v(Region::One, 100.0, 623.15_f64.next_up()),
    );
}

#[test]
fn reading_13_is_the_lower_end() {
    let reading = pv2t(
        PvRegion::One,
        100.0,
        volume(Region::One, 100.0, 273.15),
        STEP_LIMIT,
    );
    let search = reading.unwrap().search.unwrap();
    assert_eq!(
        (reading.unwrap().value, reading.unwrap().reason),
        (273.15, Reason::ExactEnd)
    );
    assert_eq!(
        (
            search.steps,
            search.bracket.lower,
            search.bracket.upper,
            search.inside
        ),
        (0, 273.15, 623.15, true)
    );
    same("13: region 1, p = 100, v at (100, 273.15)", reading);
}

#[test]
fn reading_14_both_ends_of_the_saturation_line() {
    for (end, outside) in [
        (0.000611212677_f64, 0.000611212677_f64.next_down()),
        (22.064, 22.064_f64.next_up()),
    ] {
        assert!(saturation_temperature(end).is_ok());
        assert_eq!(saturation_temperature(outside).unwrap_err().number, 3);
        same(
            &format!("14: saturation temperature at {end}"),
            saturation_temperature(end),
        );
        let below = format!("14: saturation temperature at {end}, the double below");
        same(&below, saturation_temperature(end.next_down()));
        let above = format!("14: saturation temperature at {end}, the double above");
        same(&above, saturation_temperature(end.next_up()));
    }
}

#[test]
fn reading_15_limit_0_leaves_the_starting_bracket() {
    let v = volume(Region::One, 3.0, 300.0);
    let bisection = pv2t(PvRegion::One, 3.0, v, 0);
    let refusal = bisection.unwrap_err();
    let saturation = saturation_temperature(3.0).unwrap().value;
    assert_eq!((refusal.number, refusal.steps), (8, 0));
    assert_eq!(
        (refusal.bracket.lower, refusal.bracket.upper),
        (273.15, saturation)
    );
    assert_eq!(refusal.last_point(), Some(0.5 * (273.15 + saturation)));
    same("15: bisection, limit 0", bisection);
    let brent = tv2p(Region::One, 300.0, v, 0);
    assert_eq!(
        (brent.unwrap_err().number, brent.unwrap_err().last_point()),
        (8, Some(100.0))
    );
    same("15: Brent, limit 0", brent);
}

#[test]
fn reading_16_refuses_though_temperatures_exist() {
    let (warm, cold) = (
        volume(Region::One, 1.0, 277.0),
        volume(Region::One, 1.0, 273.15),
    );
    let between = pv2t(PvRegion::One, 1.0, 0.5 * (warm + cold), STEP_LIMIT);
    assert_eq!(between.unwrap_err().cause(), Cause::SameSign);
    assert!(between
        .unwrap_err()
        .to_string()
        .contains("does not mean that there is no such state"));
    same(
        "16: region 1, 1 MPa, v between the least and that at 273.15 K",
        between,
    );
    same(
        "16: the ends, 1 MPa, v at 273.15 K",
        pv2t(PvRegion::One, 1.0, cold, STEP_LIMIT),
    );
}

/// The limits of the lines that `edges` has of a search.
fn limits(name: &str) -> Vec<u32> {
    let start = format!("{name}, limit ");
    let lines = include_str!("../../../crates/edges/stdout").lines();
    let limits: Vec<u32> = lines
        .filter_map(|line| line.strip_prefix(&start)?.split_once(": ")?.0.parse().ok())
        .collect();
    for limit in [STEP_LIMIT, LARGEST_STEP_LIMIT, LARGEST_STEP_LIMIT + 1] {
        assert!(limits.contains(&limit), "{name}: no line of {limit}");
    }
    limits
}

#[test]
fn step_limits() {
    let v = volume(Region::One, 3.0, 300.0);
    let h = property(Region::Two, Property::Enthalpy, 30.0, 700.0)
        .unwrap()
        .value;
    for limit in limits("bisection") {
        same(
            &format!("bisection, limit {limit}"),
            pv2t(PvRegion::One, 3.0, v, limit),
        );
    }
    for limit in limits("Brent") {
        same(
            &format!("Brent, limit {limit}"),
            th2p(Region::Two, 700.0, h, limit),
        );
    }
    let cold = volume(Region::One, 1.0, 273.15);
    for limit in limits("exact end") {
        same(
            &format!("exact end, limit {limit}"),
            pv2t(PvRegion::One, 1.0, cold, limit),
        );
    }
    same(
        "limit 65536 before NaN",
        pv2t(PvRegion::One, f64::NAN, f64::NAN, 65_536),
    );
}

#[test]
fn the_order_of_refusals() {
    let limit = STEP_LIMIT;
    same(
        "NaN before p out of range",
        pv2t(PvRegion::One, 0.0, f64::NAN, limit),
    );
    same(
        "p out of range before v",
        pv2t(PvRegion::One, 0.0, -1.0, limit),
    );
    same(
        "T out of range before v",
        tv2p(Region::One, 700.0, -1.0, limit),
    );
    same("v = 0", pv2t(PvRegion::Two, 1.0, 0.0, limit));
    same("v = -0", tv2p(Region::Two, 500.0, -0.0, limit));
    same(
        "v the least double",
        tv2p(Region::Two, 500.0, 5.0e-324, limit),
    );
    same(
        "h the largest double",
        th2p(Region::One, 500.0, f64::MAX, limit),
    );
    same(
        "region 1 (p,v), p = 0.000611212677444",
        pv2t(PvRegion::One, 0.000611212677444, 0.001, limit),
    );
}

#[test]
fn each_pair_of_region_1() {
    let s = property(Region::One, Property::Entropy, 20.0, 450.0)
        .unwrap()
        .value;
    same(
        "region 1 (p,v), p = 100",
        pv2t(PvRegion::One, 100.0, 0.001, STEP_LIMIT),
    );
    same(
        "region 1 (T,v), T = 273.15",
        tv2p(Region::One, 273.15, 0.001, STEP_LIMIT),
    );
    same(
        "region 1 (T,h), T = 623.15",
        th2p(Region::One, 623.15, 1650.0, STEP_LIMIT),
    );
    same(
        "region 1 (T,s), a pressure",
        ts2p(Region::One, 450.0, s, STEP_LIMIT),
    );
}

#[test]
fn each_pair_of_region_2() {
    let v = property(Region::Two, Property::Volume, 1.0e-5, 280.0)
        .unwrap()
        .value;
    let h = property(Region::Two, Property::Enthalpy, 1.0, 600.0)
        .unwrap()
        .value;
    same(
        "region 2 (p,v), p = 1.0e-8",
        pv2t(PvRegion::Two, 1.0e-8, 2.0e7, STEP_LIMIT),
    );
    same(
        "region 2 (T,v), a pressure of a low vacuum",
        tv2p(Region::Two, 280.0, v, STEP_LIMIT),
    );
    same(
        "region 2 (T,h), a pressure inside",
        th2p(Region::Two, 600.0, h, STEP_LIMIT),
    );
    same(
        "region 2 (T,s), T = 863.15",
        ts2p(Region::Two, 863.15, 6.0, STEP_LIMIT),
    );
}

/// What `edges` says at a limit, and at the doubles next to it.
#[track_caller]
fn beside(name: &str, limit: f64, call: impl Fn(f64) -> Result<Reading, Refusal>) {
    same(
        &format!("{name}, the double below"),
        call(limit.next_down()),
    );
    same(name, call(limit));
    same(&format!("{name}, the double above"), call(limit.next_up()));
}

#[test]
fn the_limits_of_region_5() {
    let at_p = |of, p| move |t| property(Region::Five, of, p, t);
    let at_t = |of, t| move |p| property(Region::Five, of, p, t);
    let by = |pair, target| move |t| search(pair, Region::Five, t, target, STEP_LIMIT);
    beside(
        "region 5, T = 1073.15",
        1073.15,
        at_p(Property::SpeedOfSound, 1.0),
    );
    beside("region 5, T = 2273.15", 2273.15, at_p(Property::Cv, 50.0));
    beside(
        "region 5, p = 1.0e-8",
        1.0e-8,
        at_t(Property::Entropy, 1500.0),
    );
    beside("region 5, p = 50", 50.0, at_t(Property::Enthalpy, 1500.0));
    beside("region 5 (T,v), T = 1073.15", 1073.15, by(Pair::Tv, 0.5));
    beside("region 5 (T,h), T = 2273.15", 2273.15, by(Pair::Th, 7370.0));
    beside("region 5 (T,s), T = 1073.15", 1073.15, by(Pair::Ts, 8.0));
}

#[test]
fn each_pair_of_region_5() {
    let of = |of, p, t| property(Region::Five, of, p, t).unwrap().value;
    let v = volume(Region::Five, 0.5, 1500.0);
    let tv = |t, v, limit| tv2p(Region::Five, t, v, limit);
    same(
        "region 5, p NaN",
        property(Region::Five, Property::Volume, f64::NAN, 1500.0),
    );
    same("region 5 (T,v), v = 0", tv(1500.0, 0.0, STEP_LIMIT));
    same("region 5 (T,v), limit 0", tv(1500.0, v, 0));
    same("region 5 (T,v), a pressure", tv(1500.0, v, STEP_LIMIT));
    same(
        "region 5 (T,v), the upper end",
        tv(2273.15, volume(Region::Five, 50.0, 2273.15), STEP_LIMIT),
    );
    let th = |h| th2p(Region::Five, 1500.0, h, STEP_LIMIT);
    same(
        "region 5 (T,h), a pressure",
        th(of(Property::Enthalpy, 30.0, 1500.0)),
    );
    same(
        "region 5 (T,h), an enthalpy of another temperature",
        th(of(Property::Enthalpy, 30.0, 2000.0)),
    );
    let s = of(Property::Entropy, 1.0e-5, 2000.0);
    same(
        "region 5 (T,s), a pressure of a low vacuum",
        ts2p(Region::Five, 2000.0, s, STEP_LIMIT),
    );
}

/// The number by which every property of a region is refused at (p,T), or 0 where every one is answered.
#[track_caller]
fn number(region: Region, p: f64, t: f64) -> u32 {
    let answers = Property::ALL.iter().map(|&of| property(region, of, p, t));
    let mut numbers: Vec<u32> = answers
        .map(|answer| answer.map_or_else(|refusal| refusal.number, |_| 0))
        .collect();
    numbers.dedup();
    assert_eq!(numbers.len(), 1, "{region:?} {p:?} {t:?}: {numbers:?}");
    numbers[0]
}

#[test]
fn at_1073_15_the_named_region_decides() {
    let t = 1073.15_f64;
    for p in [1.0e-8, 0.5, 50.0] {
        assert_eq!(number(Region::Two, p, t), 0);
        assert_eq!(number(Region::Five, p, t), 0);
        assert_eq!(number(Region::Two, p, t.next_up()), 2);
        assert_eq!(number(Region::Five, p, t.next_down()), 2);
        assert_ne!(volume(Region::Two, p, t), volume(Region::Five, p, t), "{p}");
    }
    assert_eq!(number(Region::Two, 100.0, t), 0);
    assert_eq!(number(Region::Five, 100.0, t), 3);
}

#[test]
fn where_region_5_stops() {
    for t in [1073.15, 1500.0, 2273.15] {
        for p in [1.0e-8, 0.5, 50.0] {
            assert_eq!(number(Region::Five, p, t), 0, "{p} {t}");
        }
        assert_eq!(number(Region::Five, 50.0_f64.next_up(), t), 3);
        assert_eq!(number(Region::Five, 1.0e-8_f64.next_down(), t), 3);
    }
    assert_eq!(number(Region::Five, 0.5, 2273.15_f64.next_up()), 2);
    // 1 before 2 before 3
    assert_eq!(number(Region::Five, f64::NAN, 300.0), 1);
    assert_eq!(number(Region::Five, 0.0, 2273.15_f64.next_up()), 2);
    assert_eq!(number(Region::Five, -0.0, 2273.15), 3);
}

#[test]
fn a_search_of_region_5_begins_with_its_pressures() {
    for t in [1073.15, 2273.15] {
        for pair in [Pair::Tv, Pair::Th, Pair::Ts] {
            let of = |p| property(Region::Five, target(pair), p, t).unwrap().value;
            let find = |wanted, limit| search(pair, Region::Five, t, wanted, limit);
            let bracket = find(of(0.5), 0).unwrap_err().bracket;
            assert_eq!((bracket.lower, bracket.upper), (1.0e-8, 50.0), "{pair:?}");
            for end in [1.0e-8, 50.0] {
                let reading = find(of(end), 0).unwrap();
                assert_eq!((reading.value, reading.reason), (end, Reason::ExactEnd));
                assert!(reading.is_inside(), "{reading:?}");
            }
            let found = find(of(0.5), STEP_LIMIT).unwrap();
            assert!((found.value - 0.5).abs() < 1.0e-6, "{found:?}");
        }
    }
}

#[test]
fn a_search_of_region_5_refuses_in_the_order_of_the_table() {
    let numbers = |pair, t, target| {
        [STEP_LIMIT, LARGEST_STEP_LIMIT + 1].map(|limit| {
            let answer = search(pair, Region::Five, t, target, limit);
            answer.unwrap_err().number
        })
    };
    let (cold, hot) = (1073.15_f64.next_down(), 2273.15_f64.next_up());
    for pair in [Pair::Tv, Pair::Th, Pair::Ts] {
        assert_eq!(numbers(pair, cold, f64::NAN), [1, 11]);
        assert_eq!(numbers(pair, cold, -1.0), [2, 11]);
        assert_eq!(numbers(pair, hot, -1.0), [2, 11]);
    }
    assert_eq!(numbers(Pair::Tv, 1500.0, 0.0), [4, 11]);
    assert_eq!(numbers(Pair::Th, 1500.0, 0.0), [7, 11]);
    assert_eq!(numbers(Pair::Ts, 1500.0, 0.0), [7, 11]);
    // a region that a pair has not comes before everything
    assert_eq!(numbers(Pair::Pv, f64::NAN, -1.0), [21, 21]);
}

#[test]
fn a_found_pressure_outside_is_an_answer_with_its_mark() {
    for reading in [
        th2p(Region::Two, 300.0, 2500.0, STEP_LIMIT),
        tv2p(Region::Two, 500.0, 0.06, STEP_LIMIT),
    ] {
        let reading = reading.unwrap();
        assert!(!reading.search.unwrap().inside);
        let t = if reading.value < 1.0 { 300.0 } else { 500.0 };
        assert_eq!(
            property(Region::Two, Property::Volume, reading.value, t)
                .unwrap_err()
                .number,
            3
        );
    }
}

#[test]
fn b23_and_saturation_pressure() {
    for t in [623.15_f64, 863.15] {
        same(&format!("B23 pressure at {t}"), b23_pressure(t));
        same(
            &format!("B23 pressure at {t}, the double above"),
            b23_pressure(t.next_up()),
        );
    }
    same("B23 temperature at 16.5291643", b23_temperature(16.5291643));
    same(
        "B23 temperature at 100.0, the double above",
        b23_temperature(100.0_f64.next_up()),
    );
    same(
        "saturation pressure at 647.096",
        saturation_pressure(647.096),
    );
    same(
        "saturation pressure at 647.096, the double above",
        saturation_pressure(647.096_f64.next_up()),
    );
}
