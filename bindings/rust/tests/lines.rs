//! The command with --lines: an output line for each input line, whatever stands there.
mod run;

use run::{assert_answers_before_the_next, fed, run, unread};

/// An answer of one request, as --lines has it.
fn joined(line: &str) -> String {
    let out = run(line).out;
    let lines: Vec<String> = out
        .lines()
        .map(|line| line.split_whitespace().collect::<Vec<_>>().join(" "))
        .collect();
    lines.join("; ")
}

#[test]
fn each_line_is_answered_in_its_place() {
    let asked = [
        "1 pT v 3 300",
        "2 Ts 500 7.2 --limit 40",
        "sat T 1",
        "2 Ts 500 7.2 --limit 2",
        "2 pT v 0 300",
        "5 Ts 1500 9",
    ];
    let answered = fed("--lines", asked.join("\n").as_bytes());
    assert_eq!(
        answered.out.lines().map(str::to_string).collect::<Vec<_>>(),
        asked.map(joined)
    );
    assert_eq!((answered.status, answered.err.as_str()), (1, ""));
}

#[test]
fn a_line_says_what_it_is_of() {
    #[rustfmt::skip]
    let lines = [
        ("1 pT v 3 300", "v = 0.0010021516796866943 m^3/kg; of region 1, p = 3.0 MPa, T = 300.0 K"),
        ("1 pT v NaN 300", "; of region 1, p = NaN MPa, T = 300.0 K, where v was asked for"),
        ("sat T 99", "; of the saturation line, p = 99.0 MPa, where T was asked for"),
        ("--bits b23 p fff0000000000001", "; of B23, T = fff0000000000001 K, where p was asked for"),
    ];
    for (line, end) in lines {
        let out = fed("--lines", line.as_bytes()).out;
        assert!(out.ends_with(&format!("{end}\n")), "{line}: {out}");
    }
}

#[test]
fn the_parts_of_a_search_stand_on_one_line() {
    let asked = "2 Ts 500 7.2 --limit 2\n2 Ts 500 7.2\n";
    let out = fed("--lines", asked.as_bytes()).out;
    let (refusal, answer) = out.split_once('\n').unwrap();
    let of = "of region 2, T = 500.0 K, s = 7.2 kJ/(kg K)";
    let refused = format!("{of}, where p was asked for");
    let refused = [
        &refused,
        "steps: 2",
        "bracket: ",
        "residuals: ",
        "last point: ",
    ];
    let answered = [
        "p = ",
        of,
        "reason: ",
        "steps: ",
        "bracket: ",
        "residuals: ",
        "inside the region: yes",
    ];
    // the sentence has a ; of its own
    for (line, skipped, starts) in [(refusal, 2, &refused[..]), (answer, 0, &answered)] {
        let parts: Vec<&str> = line.split("; ").skip(skipped).collect();
        assert_eq!(parts.len(), starts.len(), "{line}");
        for (part, start) in parts.iter().zip(starts) {
            assert!(part.starts_with(start), "{start}: {line}");
        }
    }
}

#[test]
fn the_status_is_that_of_the_worst_line() {
    assert_eq!(fed("--lines", b"").status, 0);
    assert_eq!(fed("--lines", b"sat T 1\n# sat T 99\n\n").status, 0);
    assert_eq!(fed("--lines", b"sat T 99\nsat T 1\n").status, 1);
    assert_eq!(fed("--lines", b"sat T x\nsat T 99\nsat T 1\n").status, 2);
}

#[test]
fn blank_lines_and_remarks_are_passed_through() {
    let answered = fed("--lines", b"# one\n\n \t\nsat T 1\n#\xff\n");
    let lines: Vec<&str> = answered.out.lines().collect();
    assert_eq!(
        lines,
        ["# one", "", " \t", joined("sat T 1").as_str(), "#\u{fffd}"]
    );
}

#[test]
fn a_bad_line_is_named_and_stops_nothing() {
    let long = format!("sat T {}\n", "1".repeat(100_000));
    let input = [
        b"sat T\n".as_slice(),
        b"\xff\xfe 1\n",
        long.as_bytes(),
        b"--help\n",
        b"--lines\n",
        b"5 pv 0.5 1.3845\n",
        b"1 log v\n",
        b"sat T 1",
    ]
    .concat();
    let answered = fed("--lines", &input);
    let lines: Vec<&str> = answered.out.lines().collect();
    let bad = [
        "bad line 1: a word is missing: the number p",
        "bad line 2: word 1, \"\u{fffd}\u{fffd}\", is no region or line",
        "bad line 3: longer than 4096 bytes",
        "bad line 4: word 1, \"--help\", is no option of a request",
        "bad line 5: word 1, \"--lines\", is no option of a request",
        "bad line 6: word 2, \"pv\", is no pair of this region: region 5 has no (p,v); regions 1 and 2 have it",
        "bad line 7: a log is asked for on the command line, not on a line of --lines",
    ];
    for (line, start) in lines.iter().zip(bad) {
        assert!(line.starts_with(start), "{line}");
    }
    assert_eq!(lines[bad.len()..], [joined("sat T 1")]);
    assert_eq!((answered.status, answered.err.as_str()), (2, ""));
}

#[test]
fn a_line_of_4096_bytes_is_read_and_one_of_4097_is_not() {
    let padded = |length: usize| format!("{:<length$}\n", "sat T 1");
    let answered = fed(
        "--lines",
        (padded(4096) + &padded(4097) + &padded(4096)).as_bytes(),
    );
    let answer = joined("sat T 1");
    assert_eq!(
        answered.out,
        format!("{answer}\nbad line 2: longer than 4096 bytes\n{answer}\n")
    );
}

#[test]
fn carriage_returns_and_spaces_do_not_matter() {
    let answer = joined("1 pT v 3 300");
    assert_eq!(
        fed("--lines", b"1 pT v 3 300\r\n  1\tpT  v 3 300  \n").out,
        format!("{answer}\n{answer}\n")
    );
}

#[test]
fn bits_for_all_lines_or_for_one() {
    let exact = "1 pT v 4008000000000000 4072c00000000000";
    let answer = joined(&format!("{exact} --bits"));
    let all = fed(
        "--lines --bits",
        format!("{exact}\n{exact} --bits\n").as_bytes(),
    );
    assert_eq!(all.out, format!("{answer}\n{answer}\n"));
    let one = fed(
        "--lines",
        format!("{exact} --bits\n1 pT v 3 300\n").as_bytes(),
    );
    assert_eq!(one.out, format!("{answer}\n{}\n", joined("1 pT v 3 300")));
}

#[test]
fn an_answer_comes_before_the_next_question() {
    let exchanges = ["sat T 1", "sat p 500"].map(|question| (question, joined(question)));
    assert_answers_before_the_next("--lines", &exchanges);
}

#[test]
fn a_reader_that_goes_away_ends_it_quietly() {
    let run = unread("--lines", "sat T 1\n".repeat(20_000).as_bytes());
    assert_eq!((run.status, run.err.as_str()), (0, ""));
}
