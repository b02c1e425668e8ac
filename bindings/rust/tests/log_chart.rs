//! The chart of a log: a picture that is well-formed, and that hides no refusal.
mod run;

use climboat::{Cause, LONGEST_LOG};
use run::{fed, Run};

/// The chart of this log, which is well-formed XML.
#[track_caller]
fn chart(line: &str, log: &str) -> String {
    let Run { out, .. } = fed(&format!("{line} --chart"), log.as_bytes());
    assert_well_formed(&out);
    out
}

/// Every element is closed in its turn, every value is quoted, and nothing stands for something else.
#[track_caller]
fn assert_well_formed(svg: &str) {
    let mut open: Vec<&str> = Vec::new();
    let mut roots = 0;
    assert!(svg.starts_with("<svg ") && !svg.contains('&'), "{svg}");
    for part in svg.split('<').skip(1) {
        let (tag, text) = part.split_once('>').expect("a tag that does not end");
        assert!(!text.contains('>'), "{part}");
        assert_eq!(
            tag.matches('"').count(),
            2 * tag.matches("=\"").count(),
            "{tag}"
        );
        match (tag.strip_prefix('/'), tag.strip_suffix('/')) {
            (Some(name), _) => assert_eq!(open.pop(), Some(name), "{tag}"),
            (None, Some(_)) => {}
            (None, None) => {
                roots += usize::from(open.is_empty());
                open.push(tag.split(' ').next().unwrap());
            }
        }
    }
    assert_eq!((open.len(), roots), (0, 1));
    assert!(svg.contains("<title>"));
}

/// The paths of a class, in pieces of points.
fn pieces(svg: &str, class: &str) -> Vec<Vec<(f64, f64)>> {
    let start = format!("<path class=\"{class}\"");
    // the key's line comes last
    let path = svg.lines().find(|line| line.starts_with(&start)).unwrap();
    let path = path.split(" d=\"").nth(1).unwrap();
    let path = path.trim_end_matches("\"/>");
    let point = |text: &str| {
        let (x, y) = text.trim_end_matches("h0").split_once(' ').unwrap();
        (x.parse().unwrap(), y.parse().unwrap())
    };
    let piece = |piece: &str| piece.split('L').map(point).collect();
    path.split('M').skip(1).map(piece).collect()
}

#[test]
fn the_chart_of_the_example_is_the_one_in_docs() {
    let log = include_str!("../../../examples/log/day.csv");
    let drawn = chart("1 log v", log);
    assert!(
        drawn == include_str!("../../../docs/log.svg"),
        "docs/log.svg is not what ./climboat 1 log v --chart <examples/log/day.csv draws"
    );
}

#[test]
fn the_example_has_a_days_readings_and_every_fault_that_its_chart_is_to_show() {
    let log = include_str!("../../../examples/log/day.csv");
    let readings = log.lines().filter(|line| !line.starts_with(['#', 'p']));
    assert_eq!(readings.count(), 96);
    let Run { status, out, err } = fed("1 log v", log.as_bytes());
    assert_eq!((status, err.lines().count()), (2, 1));
    assert_eq!(out.lines().count(), log.lines().count());
    for number in [0, 1, 2, 3] {
        let number = format!(",{number}");
        assert!(out.lines().any(|line| line.ends_with(&number)), "{number}");
    }
}

#[test]
fn every_number_that_occurs_is_told_with_its_places_and_what_it_means() {
    let log = "3,300\nNaN,300\n3,20\n3,20\n3,301\n0.1,400\nx\n0.1,400\n";
    let svg = chart("1 log v", log);
    for text in [
        ">v in m^3/kg of region 1, over a log of 8 lines<",
        ">7 places asked: 2 answered, 5 refused; 1 bad line<",
        ">line of the log<",
        ">v in m^3/kg<",
        ">refused by 1: 1 place<",
        ">refused by 2: 2 places<",
        ">refused by 3: 2 places<",
        ">bad line: 1 line<",
        // the stretches by their lines
        ">2<",
        ">3\u{2013}4<",
        ">6<",
        ">8<",
        ">7<",
    ] {
        assert!(svg.contains(text), "{text}: {svg}");
    }
    for number in [1, 2, 3] {
        let (meaning, _) = Cause::of(number)
            .unwrap()
            .sentence()
            .split_once(';')
            .unwrap();
        assert!(svg.contains(&format!(">{meaning}<")), "{number}");
        let over = format!(" class=\"number\" text-anchor=\"middle\">{number}<");
        assert!(svg.contains(&over), "{number}");
    }
    // what does not occur is not told
    assert!(!svg.contains("refused by 9"));
}

#[test]
fn the_line_follows_the_values_and_breaks_where_one_is_missing() {
    let svg = chart(
        "1 log v",
        "3,300\n3,320\n3,310\nNaN,300\n3,330\n# on\n3,340\nx\n3,300\n",
    );
    let lines = pieces(&svg, "reading");
    let counts: Vec<usize> = lines.iter().map(Vec::len).collect();
    assert_eq!(counts, [3, 2]);
    let alone = pieces(&svg, "alone").concat();
    assert_eq!(alone.len(), 1);
    // upwards is less in a picture
    let [(_, cold), (_, warm), (_, between)] = lines[0][..] else {
        panic!("{lines:?}");
    };
    assert!(warm < between && between < cold, "{lines:?}");
    assert_eq!(alone[0].1, cold);
    let points: Vec<f64> = lines.concat().iter().map(|point| point.0).collect();
    assert!(points.is_sorted(), "{points:?}");
}

#[test]
fn a_log_with_little_in_it_is_drawn_too() {
    for (log, text) in [
        ("", "the log has no reading"),
        ("# nothing\n\n", "over a log of 2 lines"),
        ("x\n", "bad line: 1 line"),
        ("NaN,300\n0.1,400\n", "no reading is answered"),
        (
            "3,300\n",
            "1 place asked: 1 answered, 0 refused; 0 bad lines",
        ),
        ("3,300\n3,300\n3,300\n", "3 places asked: 3 answered"),
    ] {
        let svg = chart("1 log v", log);
        assert!(svg.contains(text), "{log:?}: {svg}");
        // every second piece between quotes is a value
        let mut values = svg.split('"').skip(1).step_by(2);
        let finite = |value: &str| !value.contains("NaN") && !value.contains("inf");
        assert!(values.all(finite), "{log:?}: {svg}");
    }
    // equal readings lie in the middle of the plot
    let level = pieces(&chart("1 log v", "3,300\n3,300\n3,300\n"), "reading").concat();
    assert!(level.iter().all(|point| point.1 == 240.0), "{level:?}");
}

/// A log of a hundred thousand lines, with a reading refused wherever it is said.
fn long(refused: impl Fn(u32) -> bool) -> String {
    let line = |line: u32| match refused(line) {
        true => "NaN,300\n".to_string(),
        // up and down by some kelvin from line to line
        false => format!("3,{}\n", 300 + line * 7_919 % 40),
    };
    (1..=100_000).map(line).collect()
}

#[test]
fn one_refusal_among_a_hundred_thousand_is_seen() {
    let svg = chart("1 log h", &long(|line| line == 77_777));
    for text in [
        ">77777<",
        ">refused by 1: 1 place<",
        " 99999 answered, 1 refused;",
    ] {
        assert!(svg.contains(text), "{text}");
    }
    let band = svg
        .lines()
        .find(|line| line.starts_with("<path class=\"band\""))
        .unwrap();
    let (left, right) = band
        .split_once(" d=\"M")
        .unwrap()
        .1
        .split_once('H')
        .unwrap();
    let left: f64 = left.split(' ').next().unwrap().parse().unwrap();
    let right: f64 = right.split('V').next().unwrap().parse().unwrap();
    assert!(right - left >= 2.9, "{band}");
}

#[test]
fn a_long_log_is_thinned_and_never_joined_over_a_gap() {
    for every in [2, 3, 50, 1_000, 30_000] {
        let svg = chart("1 log h", &long(|line| line % every == 0));
        assert!(svg.len() < 200_000, "{every}: {} bytes", svg.len());
        let lines = pieces(&svg, "reading");
        let points = lines.concat().len() + pieces(&svg, "alone").len();
        assert!((500..=6_000).contains(&points), "{every}: {points} points");
        for gap in (1..=100_000 / every).map(|count| f64::from(count * every)) {
            let x = 118.0 + 850.0 * (gap - 0.5) / 100_000.0;
            let over = |piece: &&Vec<(f64, f64)>| {
                piece[0].0 + 0.1 < x && x < piece[piece.len() - 1].0 - 0.1
            };
            assert!(
                !lines.iter().any(|piece| over(&piece)),
                "{every}: over line {gap}"
            );
        }
    }
}

#[cfg(unix)]
#[test]
fn a_long_log_tells_on_a_terminal_how_far_it_is() {
    let script = |log: &str| {
        let file = std::path::Path::new(env!("CARGO_TARGET_TMPDIR")).join("progress.csv");
        std::fs::write(&file, log).unwrap();
        let program = env!("CARGO_BIN_EXE_climboat");
        let asked = format!("'{program}' 1 log v <'{}' >/dev/null", file.display());
        let script = std::process::Command::new("script")
            .args(["-q", "-e", "-c", &asked, "/dev/null"])
            .stdin(std::process::Stdio::null())
            .output();
        script.map(Run::from)
    };
    let lines = 3 * LONGEST_LOG;
    let Ok(run) = script(&("3,300\n".repeat(lines) + "NaN,300\nx\n")) else {
        eprintln!("the terminal is LEFT OUT: missing script");
        return;
    };
    assert_eq!(run.status, 2, "{run:?}");
    let told: Vec<&str> = run.out.split(['\r', '\n']).map(str::trim_end).collect();
    let end = format!("climboat: {} places, 1 refused, 1 bad lines", lines + 1);
    for line in [
        &format!(
            "climboat: {} places, 0 refused, 0 bad lines",
            2 * LONGEST_LOG
        ),
        &format!(
            "climboat: bad line {}: 1 column; a line of a log has two, p and T",
            lines + 2
        ),
        &end,
    ] {
        assert!(told.contains(&line.as_str()), "{line}: {:?}", run.out);
    }
    assert!(run.out.ends_with(&format!("{end}\r\n")), "{:?}", run.out);
    // a log of one run is over before anybody looks
    let short = script("3,300\n").unwrap();
    assert_eq!((short.status, short.out.as_str()), (0, ""));
}
