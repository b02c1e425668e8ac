//! The command with a log: value and number beside every line, whatever stands there.
mod run;

use climboat::*;
use run::{assert_answers_before_the_next, command, fed, unread, Run};
use std::process::Stdio;

/// The volume of region 1 at 3 MPa and 300 K, in its digits.
const V: &str = "0.0010021516796866943";

/// What the command writes for this input.
fn columns(line: &str, input: &str) -> String {
    fed(line, input.as_bytes()).out
}

#[test]
fn each_line_keeps_its_text_and_its_divider() {
    for (input, output) in [
        ("3,300", format!("3,300,{V},0")),
        ("3 300", format!("3 300 {V} 0")),
        ("3.0\t3e2", format!("3.0\t3e2 {V} 0")),
        (" +3 , 300.00\t", format!(" +3 , 300.00,{V},0")),
        ("  3  300  ", format!("  3  300 {V} 0")),
        ("3,300\r", format!("3,300,{V},0")),
        ("3 300 \r", format!("3 300 {V} 0")),
        ("0.1,400", "0.1,400,0.0,3".to_string()),
        ("3,20", "3,20,0.0,2".to_string()),
        ("NaN 300", "NaN 300 0.0 1".to_string()),
        ("3,-inf", "3,-inf,0.0,1".to_string()),
        ("1e999,300", "1e999,300,0.0,1".to_string()),
        ("# 3,300", "# 3,300".to_string()),
        ("#\r", "#".to_string()),
        ("", "".to_string()),
        (" \t", " \t".to_string()),
        ("\r", "".to_string()),
    ] {
        for end in ["", "\n"] {
            // no line end stands for an input of no line
            if !(input.is_empty() && end.is_empty()) {
                let out = columns("1 log v", &format!("{input}{end}"));
                assert_eq!(out, format!("{output}\n"), "{input:?}{end:?}");
            }
        }
    }
    assert_eq!(columns("1 log v", ""), "");
}

#[test]
fn the_first_line_may_name_the_columns() {
    for (input, heading) in [
        ("p,T", "p,T,v,number"),
        ("p T\r", "p T v number"),
        (" p\tT ", " p\tT v number"),
        ("p , T", "p , T,v,number"),
    ] {
        let out = columns("1 log v", &format!("{input}\n3,300\n"));
        assert_eq!(out, format!("{heading}\n3,300,{V},0\n"));
        // blank lines and remarks before it do not count
        let out = columns("1 log v", &format!("# a day\n\n{input}\n3,300\n"));
        assert_eq!(out, format!("# a day\n\n{heading}\n3,300,{V},0\n"));
    }
    // a byte-order mark before them does not count either, and is one nowhere else
    let marked = columns("1 log v", "\u{feff}p,T\n3,300\n\u{feff}3,300\n");
    let bad = "# bad line 3: column p, \"\\u{feff}3\", is no number";
    assert_eq!(marked, format!("p,T,v,number\n3,300,{V},0\n{bad}\n"));
    let named = columns("5 log cp --bits", "p,T\n");
    assert_eq!(named, "p,T,cp,number\n");
}

#[test]
fn beside_every_line_stands_what_the_single_call_gives() {
    let states = [
        (3.0, 300.0),
        (0.1, 400.0),
        (0.0035, 700.0),
        (0.5, 1500.0),
        (0.5, 1073.15),
        (50.0, 2273.15),
        (60.0, 1100.0),
        (-0.0, 300.0),
        (f64::NAN, 1.0),
    ];
    let input: String = states.map(|(p, t)| format!("{p:?},{t:?}\n")).concat();
    for &region in Region::ALL {
        for &of in Property::ALL {
            let expected = states.map(|(p, t)| {
                let (value, number) = property(region, of, p, t).map_or_else(
                    |refusal| (refusal.value, refusal.number),
                    |reading| (reading.value, 0),
                );
                format!("{p:?},{t:?},{value:?},{number}\n")
            });
            let line = format!("{} log {}", region.number(), of.symbol());
            assert_eq!(columns(&line, &input), expected.concat(), "{line}");
        }
    }
}

#[test]
fn bits_both_ways() {
    let exact = "4008000000000000,4072C00000000000";
    let value: f64 = V.parse().unwrap();
    let out = columns(
        "1 log v --bits",
        &format!("{exact}\n7ff8000000000123 0000000000000000\n"),
    );
    let expected = format!(
        "{exact},{:016x},0\n7ff8000000000123 0000000000000000 0000000000000000 1\n",
        value.to_bits()
    );
    assert_eq!(out, expected);
}

/// Bad lines, and what is said of them.
const BAD: [(&[u8], &str); 15] = [
    (b"3", "1 column; a line of a log has two, p and T"),
    (b"3 300 5", "3 columns; a line of a log has two, p and T"),
    (b"3,300,5", "3 columns; a line of a log has two, p and T"),
    (b"3,300,", "3 columns; a line of a log has two, p and T"),
    (b"3,", "column T, \"\", is no number"),
    (b",300", "column p, \"\", is no number"),
    (b",", "column p, \"\", is no number"),
    (b"3,x", "column T, \"x\", is no number"),
    (b"p,300", "column p, \"p\", is no number"),
    // a decimal comma does not become another state
    (b"3,5 300", "column T, \"5 300\", is no number"),
    (b"\"3\",\"300\"", "column p, \"\\\"3\\\"\", is no number"),
    (b"3;300", "1 column; a line of a log has two, p and T"),
    (b"\xff 300", "column p, \"\u{fffd}\", is no number"),
    // the columns are named in their order, and once
    (b"T,p", "column p, \"T\", is no number"),
    (b"p,T", "column p, \"p\", is no number"),
];

#[test]
fn a_bad_line_is_named_twice_and_costs_itself_alone() {
    for (bad, what) in BAD {
        let input = [b"3,300\n", bad, b"\n0.1,400\n"].concat();
        let Run { status, out, err } = fed("1 log v", &input);
        let expected = format!("3,300,{V},0\n# bad line 2: {what}\n0.1,400,0.0,3\n");
        assert_eq!(out, expected);
        assert_eq!(
            (status, err),
            (2, format!("climboat: bad line 2: {what}\n"))
        );
    }
}

#[test]
fn a_line_of_4096_bytes_is_read_and_one_of_4097_is_not() {
    let padded = |length: usize| format!("{:>length$}\n", "3,300");
    let input = padded(4096) + &padded(4097) + &padded(60_000) + &padded(4096);
    let Run { status, out, err } = fed("1 log v", input.as_bytes());
    let answered = format!("{:>4096},{V},0\n", "3,300");
    let bad = [2, 3].map(|line| format!("bad line {line}: longer than 4096 bytes\n"));
    assert_eq!(out, format!("{answered}# {}# {}{answered}", bad[0], bad[1]));
    assert_eq!(err, bad.map(|bad| format!("climboat: {bad}")).concat());
    assert_eq!(status, 2);
}

#[test]
fn the_status_is_that_of_the_worst_line() {
    for (input, status) in [
        ("", 0),
        ("# no reading\n", 0),
        ("p,T\n3,300\n", 0),
        ("3,300\n0.1,400\n3,300\n", 1),
        ("0.1,400\nx\n3,300\n", 2),
        ("x\n3,300\n", 2),
    ] {
        for form in ["", " --chart"] {
            let run = fed(&format!("1 log v{form}"), input.as_bytes());
            assert_eq!(run.status, status, "{input:?}{form}");
        }
    }
}

#[test]
fn a_log_of_many_runs_is_answered_line_by_line() {
    let lines: Vec<String> = (0..10_000)
        .map(|place| match place % 10 {
            7 => "# remark".to_string(),
            8 => format!("{} x", place),
            9 => "NaN 300".to_string(),
            _ => format!("3 {}", 280.0 + f64::from(place) / 100.0),
        })
        .collect();
    let Run { status, out, err } = fed("1 log h", lines.join("\n").as_bytes());
    assert_eq!((status, err.lines().count()), (2, 1_000));
    assert_eq!(out.lines().count(), lines.len());
    for (place, (line, told)) in lines.iter().zip(out.lines()).enumerate() {
        let expected = match place % 10 {
            7 => line.clone(),
            8 => format!("# bad line {}: column T, \"x\", is no number", place + 1),
            9 => format!("{line} 0.0 1"),
            _ => {
                let t = 280.0 + place as f64 / 100.0;
                let h = property(Region::One, Property::Enthalpy, 3.0, t).unwrap();
                format!("{line} {:?} 0", h.value)
            }
        };
        assert_eq!(told, expected);
    }
}

#[test]
fn every_line_of_a_long_log_may_be_a_place() {
    for lines in [LONGEST_LOG, LONGEST_LOG + 1, 20_000] {
        // seven bytes: the pieces of a power of two in which the input comes do not end with a line
        let Run { status, out, err } = fed("1 log v", "3  300\n".repeat(lines).as_bytes());
        assert_eq!((status, err.as_str()), (0, ""), "{lines}");
        assert_eq!(out, format!("3  300 {V} 0\n").repeat(lines));
    }
}

#[test]
fn an_answer_comes_before_the_next_line() {
    let exchanges = ["p,T", "3,300", "# on", "3 300"].map(|line| {
        let answer = match line {
            "p,T" => "p,T,v,number".to_string(),
            "3,300" => format!("3,300,{V},0"),
            "3 300" => format!("3 300 {V} 0"),
            _ => line.to_string(),
        };
        (line, answer)
    });
    assert_answers_before_the_next("1 log v", &exchanges);
}

#[test]
fn a_reader_that_goes_away_ends_it_quietly() {
    let run = unread("1 log v", "3,300\n".repeat(50_000).as_bytes());
    assert_eq!((run.status, run.err.as_str()), (0, ""));
}

#[cfg(target_os = "linux")]
#[test]
fn what_cannot_be_read_or_written_is_status_3() {
    let full = std::fs::OpenOptions::new().write(true).open("/dev/full");
    let folder = std::fs::File::open("/").unwrap();
    let mut unwritten = command();
    unwritten
        .stdin(Stdio::null())
        .stdout(Stdio::from(full.unwrap()));
    let mut unread = command();
    unread.stdin(Stdio::from(folder));
    for (mut command, words) in [
        (unwritten, &["1", "log", "v", "--chart"][..]),
        (unread, &["1", "log", "v"]),
    ] {
        let run: Run = command.args(words).output().unwrap().into();
        assert_eq!((run.status, run.out.as_str()), (3, ""), "{words:?}");
        assert!(run.err.starts_with("climboat: "), "{}", run.err);
    }
}
