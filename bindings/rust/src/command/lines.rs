//! `--lines`: one request per line of the input, answered in its place, so that the output has a line for each line of the input.
use crate::answer::Answer;
use crate::reader::{Line, Lines};
use crate::request::{request, Notation, Wrong};
use crate::WRONG;
use std::io::{self, Read, Write};

/// Answers every line, and gives the exit status: that of the worst line.
pub fn answer(input: impl Read, output: &mut impl Write, notation: Notation) -> io::Result<u8> {
    let mut lines = Lines::new(input);
    let mut status = 0;
    while let Some((number, line)) = lines.next()? {
        status = status.max(match line {
            Ok(Line::Passed(line)) => pass(line, output)?,
            Ok(Line::Asking(text)) => put(&text, number, output, notation)?,
            Err(wrong) => bad(wrong, number, output)?,
        });
        if lines.pauses() {
            output.flush()?;
        }
    }
    Ok(status)
}

fn pass(line: &[u8], output: &mut impl Write) -> io::Result<u8> {
    output.write_all(line)?;
    output.write_all(b"\n")?;
    Ok(0)
}

fn put(text: &str, number: u64, output: &mut impl Write, notation: Notation) -> io::Result<u8> {
    let words: Vec<&str> = text.split_ascii_whitespace().collect();
    match request(&words, notation) {
        Ok((request, notation)) => {
            let answer = Answer::to(request, notation);
            writeln!(output, "{}", answer.line())?;
            Ok(answer.status)
        }
        Err(wrong) => bad(wrong, number, output),
    }
}

fn bad(wrong: Wrong, number: u64, output: &mut impl Write) -> io::Result<u8> {
    writeln!(output, "bad line {number}: {}", wrong.0)?;
    Ok(WRONG)
}
