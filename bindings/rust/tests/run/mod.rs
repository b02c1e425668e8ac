//! Runs the command, for the tests of it.
// not every file of tests runs it in every way
#![allow(dead_code)]
use std::io::{BufRead, BufReader, Write};
use std::process::{Child, Command, Output, Stdio};
use std::sync::mpsc;
use std::thread;
use std::time::Duration;

pub fn command() -> Command {
    Command::new(env!("CARGO_BIN_EXE_climboat"))
}

/// What came of a run: exit status, standard output, standard error.
#[derive(Debug)]
pub struct Run {
    pub status: i32,
    pub out: String,
    pub err: String,
}

impl From<Output> for Run {
    fn from(output: Output) -> Run {
        let text = |bytes: Vec<u8>| String::from_utf8_lossy(&bytes).into_owned();
        Run {
            status: output.status.code().unwrap_or(-1),
            out: text(output.stdout),
            err: text(output.stderr),
        }
    }
}

/// Runs a command line, given as one text.
pub fn run(line: &str) -> Run {
    command()
        .args(line.split_whitespace())
        .stdin(Stdio::null())
        .output()
        .unwrap()
        .into()
}

/// Starts the command with all three streams to be held.
fn started(line: &str) -> Child {
    command()
        .args(line.split_whitespace())
        .stdin(Stdio::piped())
        .stdout(Stdio::piped())
        .stderr(Stdio::piped())
        .spawn()
        .unwrap()
}

/// Runs the command with this on its standard input.
pub fn fed(line: &str, input: &[u8]) -> Run {
    let mut child = started(line);
    let mut stdin = child.stdin.take().unwrap();
    let input = input.to_vec();
    let feeder = thread::spawn(move || stdin.write_all(&input));
    let output = child.wait_with_output().unwrap();
    feeder.join().unwrap().unwrap();
    output.into()
}

/// Writes a line to the command, waits for the line that answers it, and only then goes on to the next.
#[track_caller]
pub fn assert_answers_before_the_next(line: &str, exchanges: &[(&str, String)]) {
    let mut child = started(line);
    let mut asks = child.stdin.take().unwrap();
    let out = BufReader::new(child.stdout.take().unwrap());
    let (tell, told) = mpsc::channel();
    let reader = thread::spawn(move || {
        out.lines()
            .for_each(|line| tell.send(line.unwrap()).unwrap());
    });
    for (question, answer) in exchanges {
        writeln!(asks, "{question}").unwrap();
        // one that keeps its answer back would never give it
        let told = told.recv_timeout(Duration::from_secs(20));
        assert_eq!(told.as_ref(), Ok(answer));
    }
    drop(asks);
    assert!(child.wait().unwrap().success());
    reader.join().unwrap();
}

/// Runs the command with this on its standard input, and nobody at its output.
pub fn unread(line: &str, input: &[u8]) -> Run {
    let mut child = started(line);
    drop(child.stdout.take());
    // it may end before all is asked
    let _ = child.stdin.take().unwrap().write_all(input);
    child.wait_with_output().unwrap().into()
}
