//! The command with one request: what it prints, and its exit status.
mod run;

use climboat::*;
use run::{command, run, Run};
use std::process::Stdio;

/// The lines that a search's answer takes.
fn searched(symbol: &str, unit: &str, residual_unit: &str, reading: Reading) -> String {
    let search = reading.search.unwrap();
    let Bracket { lower, upper, .. } = search.bracket;
    let (at_lower, at_upper) = (search.bracket.lower_residual, search.bracket.upper_residual);
    let lines = [
        format!("{symbol} = {:?} {unit}", reading.value),
        format!("of {}", reading.asked),
        format!("reason:            {}", reading.reason),
        format!("steps:             {}", search.steps),
        format!("bracket:           {lower:?} to {upper:?} {unit}"),
        format!("residuals:         {at_lower:?} and {at_upper:?} {residual_unit}"),
        format!(
            "inside the region: {}\n",
            if search.inside { "yes" } else { "no" }
        ),
    ];
    lines.join("\n")
}

#[track_caller]
fn answers(line: &str, expected: String) {
    let Run { status, out, err } = run(line);
    assert_eq!((status, out, err.as_str()), (0, expected, ""), "{line}");
}

#[test]
fn a_property_is_two_lines() {
    for (region, p, t) in [
        (Region::One, 3.0, 300.0),
        (Region::Two, 0.0035, 700.0),
        (Region::Five, 0.5, 1500.0),
    ] {
        for &of in Property::ALL {
            let value = property(region, of, p, t).unwrap().value;
            answers(
                &format!("{} pT {} {p} {t}", region.number(), of.symbol()),
                format!(
                    "{} = {value:?} {}\nof region {}, p = {p:?} MPa, T = {t:?} K\n",
                    of.symbol(),
                    of.unit(),
                    region.number()
                ),
            );
        }
    }
    assert_eq!(
        run("1 pT v 3 300").out,
        "v = 0.0010021516796866943 m^3/kg\nof region 1, p = 3.0 MPa, T = 300.0 K\n"
    );
}

#[test]
fn a_search_is_seven_lines() {
    for (pair, region, fixed, target, residual_unit) in [
        (Pair::Pv, Region::One, 3.0, 0.001, "(relative)"),
        (Pair::Pv, Region::Two, 1.0, 0.3, "m^3/kg"),
        (Pair::Tv, Region::One, 500.0, 0.0012, "m^3/kg"),
        (Pair::Tv, Region::Two, 500.0, 0.1, "(relative)"),
        (Pair::Tv, Region::Five, 1500.0, 1.3845, "m^3/kg"),
        (Pair::Th, Region::Two, 600.0, 3000.0, "kJ/kg"),
        (Pair::Th, Region::Five, 1500.0, 5200.0, "kJ/kg"),
        (Pair::Ts, Region::Five, 1500.0, 9.0, "kJ/(kg K)"),
    ] {
        let reading = search(pair, region, fixed, target, STEP_LIMIT).unwrap();
        answers(
            &format!("{} {} {fixed} {target}", region.number(), pair.symbol()),
            searched(pair.found(), pair.unit(), residual_unit, reading),
        );
    }
    let ts = ts2p(Region::Two, 500.0, 7.2, 40).unwrap();
    let expected = searched("p", "MPa", "kJ/(kg K)", ts);
    assert_eq!(expected.lines().count(), 7);
    answers("2 Ts 500 7.2 --limit 40", expected.clone());
    answers("--limit 40 2 Ts 500 7.2", expected);
    assert!(run("2 Th 300 2500")
        .out
        .ends_with("\ninside the region: no\n"));
}

#[test]
fn the_lines_of_the_release() {
    #[rustfmt::skip]
    let lines = [
        ("sat T 1", "T", saturation_temperature(1.0), "K\nof the saturation line, p = 1.0 MPa"),
        ("sat p 500", "p", saturation_pressure(500.0), "MPa\nof the saturation line, T = 500.0 K"),
        ("b23 p 700", "p", b23_pressure(700.0), "MPa\nof B23, T = 700.0 K"),
        ("b23 T 50", "T", b23_temperature(50.0), "K\nof B23, p = 50.0 MPa"),
    ];
    for (line, symbol, answer, rest) in lines {
        let value = answer.unwrap().value;
        answers(line, format!("{symbol} = {value:?} {rest}\n"));
    }
}

#[test]
fn a_refusal_is_on_standard_output_with_status_1() {
    #[rustfmt::skip]
    let refusals = [
        ("1 pT v NaN 300", 1, "region 1, p = NaN MPa, T = 300.0 K, where v"),
        ("1 pT cp inf 300", 1, "region 1, p = inf MPa, T = 300.0 K, where cp"),
        ("2 Ts 500 -inf", 1, "region 2, T = 500.0 K, s = -inf kJ/(kg K), where p"),
        ("1 pT v 1e999 300", 1, "region 1, p = inf MPa, T = 300.0 K, where v"),
        ("1 pT w 3 700", 2, "region 1, p = 3.0 MPa, T = 700.0 K, where w"),
        ("5 pT cv 0.5 1073", 2, "region 5, p = 0.5 MPa, T = 1073.0 K, where cv"),
        ("5 Ts 2274 9", 2, "region 5, T = 2274.0 K, s = 9.0 kJ/(kg K), where p"),
        ("5 pT u 50.5 1500", 3, "region 5, p = 50.5 MPa, T = 1500.0 K, where u"),
        ("sat p 273", 2, "the saturation line, T = 273.0 K, where p"),
        ("2 pT v -0 300", 3, "region 2, p = -0.0 MPa, T = 300.0 K, where v"),
        ("b23 T -5", 3, "B23, p = -5.0 MPa, where T"),
        ("2 pv 1 0", 4, "region 2, p = 1.0 MPa, v = 0.0 m^3/kg, where T"),
        ("5 Tv 1500 -1", 4, "region 5, T = 1500.0 K, v = -1.0 m^3/kg, where p"),
        ("1 pv 0.000611212677444 0.001", 5, "region 1, p = 0.000611212677444 MPa, v = 0.001 m^3/kg, where T"),
        ("1 pv 0.1 0.00100015", 7, "region 1, p = 0.1 MPa, v = 0.00100015 m^3/kg, where T"),
        ("5 Th 1500 2900", 7, "region 5, T = 1500.0 K, h = 2900.0 kJ/kg, where p"),
        ("2 Th 300 1e300", 7, "region 2, T = 300.0 K, h = 1e300 kJ/kg, where p"),
        ("1 pv 3 0.001 --limit 65536", 11, "region 1, p = 3.0 MPa, v = 0.001 m^3/kg, where T"),
        ("1 pv NaN 0.001 --limit 4294967295", 11, "region 1, p = NaN MPa, v = 0.001 m^3/kg, where T"),
        ("1 pv 3 0.001 --limit 4294967296", 11, "region 1, p = 3.0 MPa, v = 0.001 m^3/kg, where T"),
        ("1 Tv 3 0.001 --limit 99999999999999999999", 11, "region 1, T = 3.0 K, v = 0.001 m^3/kg, where p"),
    ];
    for (line, number, of) in refusals {
        let Run { status, out, err } = run(line);
        assert_eq!((status, err.as_str()), (1, ""), "{line}");
        let (first, second) = out.split_once('\n').unwrap();
        assert!(
            first.starts_with(&format!("refused by {number}: ")),
            "{line}: {out}"
        );
        assert_eq!(second, format!("of {of} was asked for\n"), "{line}");
    }
}

#[test]
fn a_refusal_shows_the_steps_and_the_bracket_that_it_carries() {
    let refusal = ts2p(Region::Two, 500.0, 7.2, 2).unwrap_err();
    let (ends, value) = (refusal.bracket, refusal.value);
    let lines = [
        format!("refused by 8: {}", refusal.sentence()),
        format!("of {}, where p was asked for", refusal.asked),
        "steps:      2".to_string(),
        format!("bracket:    {:?} to {:?} MPa", ends.lower, ends.upper),
        format!(
            "residuals:  {:?} and {:?} kJ/(kg K)",
            ends.lower_residual, ends.upper_residual
        ),
        format!("last point: {value:?} MPa\n"),
    ];
    assert_eq!(run("2 Ts 500 7.2 --limit 2").out, lines.join("\n"));
    assert!(run("2 Tv 500 5e-324").out.ends_with(
        "\nsteps:     0\nbracket:   1e-8 to 100.0 MPa\nresiduals: 0.0 and 0.0 (relative)\n"
    ));
}

/// A search by bisection and one by Brent's search, each with the limit that is just enough for it.
const JUST_ENOUGH: [(&str, u32); 2] = [("2 Tv 500 0.1", 27), ("2 Ts 500 7.2", 9)];

#[test]
fn one_step_fewer_than_enough_is_refused_by_8() {
    for (line, enough) in JUST_ENOUGH {
        let spent = run(&format!("{line} --limit {}", enough - 1));
        assert_eq!((spent.status, spent.err.as_str()), (1, ""), "{line}");
        assert!(spent.out.starts_with("refused by 8: "), "{}", spent.out);
        let steps = format!("\nsteps:      {}\n", enough - 1);
        assert!(spent.out.contains(&steps), "{}", spent.out);
        assert_eq!(run(&format!("{line} --limit {enough}")).status, 0, "{line}");
    }
}

#[test]
fn a_larger_limit_leaves_every_byte_of_an_answer() {
    for (line, enough) in JUST_ENOUGH {
        let answer = run(line);
        assert_eq!((answer.status, answer.err.as_str()), (0, ""), "{line}");
        for limit in [enough, enough + 1, 1000, 20_000, 20_001, 65_535] {
            answers(&format!("{line} --limit {limit}"), answer.out.clone());
        }
    }
}

/// Command lines that are wrong, and what is said of them.
const WRONG: [(&str, &str); 30] = [
    (
        "3 pT v 3 300",
        "word 1, \"3\", is no region or line: it is one of 1, 2, 5, sat, b23",
    ),
    (
        "5 pv 0.5 1.3845",
        "word 2, \"pv\", is no pair of this region: region 5 has no (p,v); regions 1 and 2 have it",
    ),
    (
        "--limit 40 5 pv",
        "word 4, \"pv\", is no pair of this region: region 5 has no (p,v); regions 1 and 2 have it",
    ),
    (
        "1 pt v 3 300",
        "word 2, \"pt\", is no pair or log: it is one of pT, pv, Tv, Th, Ts, log",
    ),
    (
        "1 pT x 3 300",
        "word 3, \"x\", is no property: it is one of v, u, s, h, cp, cv, w",
    ),
    ("1 pT v 3,5 300", "word 4, \"3,5\", is no number"),
    ("1 pT v 3", "a word is missing: the number T"),
    ("1 pT v 3 300 7", "word 6, \"7\", is one too many"),
    (
        "1 pT v 3 300 --limit 40",
        "word 6, \"--limit\", is for a search alone",
    ),
    (
        "1 pv 3 0.001 --limit",
        "word 5, \"--limit\", needs a step limit after it",
    ),
    (
        "1 pv 3 0.001 --limit -1",
        "word 6, \"-1\", is no step limit",
    ),
    (
        "1 pv 3 0.001 --limit 4 --limit 5",
        "word 7, \"--limit\", is there twice",
    ),
    (
        "1 pv 3 0.001 --fast",
        "word 5, \"--fast\", is no option of a request",
    ),
    (
        "1",
        "a word is missing: a pair, pT or pv or Tv or Th or Ts, or log",
    ),
    ("1 log", "a word is missing: a property"),
    (
        "1 log q",
        "word 3, \"q\", is no property: it is one of v, u, s, h, cp, cv, w",
    ),
    (
        "1 log v day.csv",
        "word 4, \"day.csv\", is one too many: a log comes on standard input",
    ),
    ("--chart 2 log h 3 300", "word 5, \"3\", is one too many"),
    ("3 log v", "word 1, \"3\", is no region or line"),
    ("sat log v", "word 2, \"log\", is no coordinate"),
    (
        "1 log v --limit 40",
        "word 4, \"--limit\", is for a search alone",
    ),
    (
        "1 pT v 3 300 --chart",
        "word 6, \"--chart\", is for a log alone",
    ),
    ("--chart sat T 1", "word 1, \"--chart\", is for a log alone"),
    (
        "1 log v --graph",
        "word 4, \"--graph\", is no option of a request: those are --bits, --limit, --chart",
    ),
    (
        "sat v 3",
        "word 2, \"v\", is no coordinate: it is one of T, p",
    ),
    ("sat", "a word is missing: T or p"),
    (
        "1 pT v 3 300 --bits",
        "word 4, \"3\", is not the sixteen hexadecimal digits of a double",
    ),
    (
        "sat T +ff0000000000000 --bits",
        "word 3, \"+ff0000000000000\", is not the sixteen hexadecimal digits",
    ),
    (
        "--lines 1",
        "--diagram and --version stand alone, --lines alone or with --bits",
    ),
    (
        "--version --bits",
        "--diagram and --version stand alone, --lines alone or with --bits",
    ),
];

#[test]
fn a_wrong_command_line_names_the_word() {
    for (line, what) in WRONG {
        let Run { status, out, err } = run(line);
        assert_eq!((status, out.as_str()), (2, ""), "{line}");
        assert!(
            err.starts_with(&format!("climboat: {what}")) && err.lines().count() == 1,
            "{line}: {err}"
        );
    }
}

fn bits(x: f64) -> String {
    format!("{:016x}", x.to_bits())
}

/// What the command prints, with the bits of every double in it in the double's place.
fn in_bits(out: &str) -> String {
    let word = |word: &str| match word.parse() {
        Ok(double) => bits(double),
        Err(_) => word.to_string(),
    };
    let words = |line: &str| line.split(' ').map(word).collect::<Vec<_>>().join(" ");
    out.lines()
        .map(|line| match line.starts_with("steps: ") {
            true => format!("{line}\n"),
            false => words(line) + "\n",
        })
        .collect()
}

#[test]
fn bits_both_ways() {
    for (start, inputs, limit) in [
        ("1 pT v", &[3.0, 300.0][..], ""),
        ("sat T", &[1.0], ""),
        ("1 pv", &[3.0, 0.001], ""),
        ("2 Ts", &[500.0, 7.2], ""),
        ("2 Ts", &[500.0, 7.2], " --limit 2"),
        ("5 pT cv", &[0.5, 1500.0], ""),
        ("5 Tv", &[1500.0, 1.3845], ""),
        ("2 Tv", &[500.0, -0.0], ""),
    ] {
        let written = |double: fn(f64) -> String| {
            let words: Vec<String> = inputs.iter().map(|&x| double(x)).collect();
            format!("{start} {}{limit}", words.join(" "))
        };
        let exact = run(&format!("{} --bits", written(bits))).out;
        // the shortest decimal reads back as the same double
        assert_eq!(exact, in_bits(&run(&written(|x| format!("{x:?}"))).out));
        let upper = written(|x| bits(x).to_uppercase());
        assert_eq!(run(&format!("--bits {upper}")).out, exact);
    }
}

#[test]
fn bits_give_back_the_bits_of_a_nan() {
    for nan in ["7ff0000000000001", "7ff8000000000000", "fff8000000000123"] {
        let property = run(&format!("--bits 1 pT v {nan} 4072c00000000000")).out;
        let of = format!(
            "\nof region 1, p = {nan} MPa, T = 4072c00000000000 K, where v was asked for\n"
        );
        assert!(
            property.starts_with("refused by 1: ") && property.ends_with(&of),
            "{property}"
        );
        let line = run(&format!("--bits b23 p {nan}")).out;
        let of = format!("\nof B23, T = {nan} K, where p was asked for\n");
        assert!(
            line.starts_with("refused by 1: ") && line.ends_with(&of),
            "{line}"
        );
    }
}

#[test]
fn what_is_found_leads_back_to_what_was_asked() {
    let out = run("2 Ts 500 7.2").out;
    let p = out.lines().next().unwrap().split(' ').nth(2).unwrap();
    let back = run(&format!("2 pT s {p} 500")).out;
    let s: f64 = back.split(' ').nth(2).unwrap().parse().unwrap();
    assert!((s - 7.2).abs() < 1.0e-6, "{s}");
}

#[test]
fn help_and_nothing() {
    let nothing = run("");
    assert_eq!((nothing.status, nothing.err.as_str()), (0, ""));
    assert!(nothing.out.ends_with(&format!(
        "\nclimboat 1 pv 3 0.001\n\n{}",
        run("1 pv 3 0.001").out
    )));
    let help = run("1 pT --help");
    assert_eq!((help.status, help.err.as_str()), (0, ""));
    for word in [
        "--lines",
        "REGION log PROPERTY",
        "--chart",
        "# bad line N",
        "--bits",
        "--limit",
        "--diagram",
        "--version",
        "5 (steam, 1073.15 to 2273.15 K, up to 50 MPa)",
        "Region 5 has no pv",
        "0 to 65535",
        "what it is of",
        "residuals",
        "Exit status",
    ] {
        assert!(help.out.contains(word), "{word}");
    }
}

#[cfg(unix)]
#[test]
fn a_word_that_is_no_text_is_a_wrong_word() {
    use std::os::unix::ffi::OsStrExt;
    let word = std::ffi::OsStr::from_bytes(b"\xff\xfe");
    let run: Run = command().arg("1").arg(word).output().unwrap().into();
    assert_eq!((run.status, run.out.as_str()), (2, ""));
    assert!(run.err.starts_with("climboat: word 2, "), "{}", run.err);
}

#[cfg(target_os = "linux")]
#[test]
fn an_output_that_cannot_be_written_is_status_3() {
    let full = std::fs::OpenOptions::new()
        .write(true)
        .open("/dev/full")
        .unwrap();
    let run: Run = command()
        .args(["sat", "T", "1"])
        .stdout(Stdio::from(full))
        .output()
        .unwrap()
        .into();
    assert_eq!(run.status, 3);
    assert!(run.err.starts_with("climboat: "), "{}", run.err);
}

#[test]
fn the_diagram_is_the_one_in_docs() {
    let drawn = run("--diagram");
    assert_eq!((drawn.status, drawn.err.as_str()), (0, ""));
    assert!(drawn.out.len() < 60_000, "{} bytes", drawn.out.len());
    assert!(
        drawn.out == include_str!("../../../docs/diagram.svg"),
        "docs/diagram.svg is not what ./climboat --diagram draws"
    );
}
