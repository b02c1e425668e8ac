//! What README.md shows is what the command prints.
mod run;

use run::{fed, run, Run};

const PAGE: &str = include_str!("../../../README.md");

/// Each `$ ..` of the page, with the lines that it shows below.
fn shown() -> Vec<(String, String)> {
    let mut list: Vec<(String, String)> = Vec::new();
    let mut open = false;
    for line in PAGE.lines() {
        let text = line.strip_prefix("    ");
        if let Some(asked) = text.and_then(|text| text.strip_prefix("$ ")) {
            list.push((asked.into(), String::new()));
            open = true;
        } else if let (true, Some(text), Some((_, answer))) = (open, text, list.last_mut()) {
            answer.push_str(text);
            answer.push('\n');
        } else {
            open = false;
        }
    }
    list
}

/// Asks what stands behind the `$`: `./climboat ..`, `echo .. | ./climboat ..`, or `./climboat .. <FILE | sed -n 'LINES'`.
fn ask(asked: &str) -> Run {
    match asked.split_once("./climboat ") {
        Some(("", line)) => match line.split_once(" <") {
            Some((line, shown)) => of_file(line, shown),
            None => run(line),
        },
        Some((echo, line)) => {
            let input = echo
                .strip_prefix("echo ")
                .unwrap()
                .strip_suffix(" | ")
                .unwrap();
            fed(line, format!("{input}\n").as_bytes())
        }
        None => panic!("README.md shows what is no request: {asked}"),
    }
}

/// A request with a file of the repository for its input, and of its output the lines that `sed` is asked for, such as `3,5p;8,9p`.
fn of_file(line: &str, shown: &str) -> Run {
    let (file, ranges) = shown.split_once(" | sed -n '").unwrap();
    let ranges: Vec<(usize, usize)> = ranges
        .trim_end_matches('\'')
        .split(';')
        .map(|range| range.strip_suffix('p').unwrap().split_once(',').unwrap())
        .map(|(first, last)| (first.parse().unwrap(), last.parse().unwrap()))
        .collect();
    let root = std::path::Path::new(env!("CARGO_MANIFEST_DIR")).join("../..");
    let Run { status, out, err } = fed(line, &std::fs::read(root.join(file)).unwrap());
    let lines = out.lines().enumerate().filter(|(place, _)| {
        let line = place + 1;
        ranges
            .iter()
            .any(|range| range.0 <= line && line <= range.1)
    });
    let out = lines.map(|(_, line)| format!("{line}\n")).collect();
    Run { status, out, err }
}

/// The exit status of a request whose answer is shown so.
fn status_of(answer: &str) -> i32 {
    if answer.lines().any(|line| line.starts_with("# bad line ")) {
        return 2;
    }
    i32::from(answer.starts_with("refused by"))
}

#[test]
fn the_readings_of_the_page_are_the_commands() {
    let shown = shown();
    assert!(
        shown.len() >= 12,
        "README.md shows {} requests",
        shown.len()
    );
    for (asked, answer) in shown {
        let Run { status, out, err } = ask(&asked);
        assert_eq!(out, answer, "{asked}");
        assert_eq!(status, status_of(&answer), "{asked}");
        // what standard error says of a bad line stands in the text
        let said = format!("`{}`", err.trim_end());
        assert!(err.is_empty() || PAGE.contains(&said), "{asked}: {err}");
        assert_eq!(err.is_empty(), status != 2, "{asked}: {err}");
    }
}
