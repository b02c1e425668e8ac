//! The command `climboat`: one request on its command line, or many or a whole log on standard input, answered by the library.
mod answer;
mod bands;
mod chart;
mod diagram;
mod grid;
mod lines;
mod log;
mod picture;
mod progress;
mod reader;
mod readings;
mod request;
mod scale;

use answer::Answer;
use climboat::{FOLLOWS, VERSION};
use request::{command, Command, Notation};
use std::io::{self, BufWriter, ErrorKind, Write};
use std::process::ExitCode;

/// The exit status of a wrong command line or a bad line.
const WRONG: u8 = 2;
/// The exit status where standard input cannot be read or standard output cannot be written.
const BROKEN: u8 = 3;

const HELP: &str = include_str!("help.txt");
const SHORT: &str = "climboat answers for water and steam, or refuses by number.

  climboat 1 pT v 3 300        the volume in region 1 at 3 MPa and 300 K
  climboat 2 Ts 500 7.2        the pressure in region 2 at 500 K and 7.2 kJ/(kg K)
  climboat 5 pT h 0.5 1500     the enthalpy in region 5, of a furnace, at 0.5 MPa and 1500 K
  climboat sat T 1             the saturation temperature at 1 MPa
  climboat 1 log v <day.csv    the volume in region 1, or a refusal's number, beside every p and T of a log
  climboat --help              all of it
";
const EXAMPLE: [&str; 4] = ["1", "pv", "3", "0.001"];

fn main() -> ExitCode {
    let words: Vec<String> = std::env::args_os()
        .skip(1)
        .map(|word| word.to_string_lossy().into_owned())
        .collect();
    let words: Vec<&str> = words.iter().map(String::as_str).collect();
    let mut output = BufWriter::new(io::stdout().lock());
    let status = run(&words, &mut output).and_then(|status| output.flush().map(|()| status));
    match status {
        Ok(status) => ExitCode::from(status),
        // the reader has gone, and wants no more
        Err(error) if error.kind() == ErrorKind::BrokenPipe => ExitCode::SUCCESS,
        Err(error) => {
            complain(&error.to_string());
            ExitCode::from(BROKEN)
        }
    }
}

fn complain(what: &str) {
    // standard error may be closed, and there is no other place to say it
    let _ = writeln!(io::stderr(), "climboat: {what}");
}

fn run(words: &[&str], output: &mut impl Write) -> io::Result<u8> {
    match words {
        [] => short(output),
        _ if words.contains(&"--help") => output.write_all(HELP.as_bytes()).map(|()| 0),
        ["--version"] => writeln!(output, "climboat {VERSION}\nfollows {FOLLOWS}").map(|()| 0),
        ["--diagram"] => output.write_all(diagram::svg().as_bytes()).map(|()| 0),
        ["--lines"] => lines::answer(io::stdin().lock(), output, Notation::Decimal),
        ["--lines", "--bits"] | ["--bits", "--lines"] => {
            lines::answer(io::stdin().lock(), output, Notation::Bits)
        }
        _ if ["--lines", "--diagram", "--version"]
            .iter()
            .any(|word| words.contains(word)) =>
        {
            complain("--diagram and --version stand alone, --lines alone or with --bits (--help tells more)");
            Ok(WRONG)
        }
        _ => one(words, output),
    }
}

/// Answers one command line.
fn one(words: &[&str], output: &mut impl Write) -> io::Result<u8> {
    match command(words, Notation::Decimal) {
        Ok((Command::Log(log), notation)) => log::answer(log, io::stdin().lock(), output, notation),
        Ok((Command::One(request), notation)) => {
            let answer = Answer::to(request, notation);
            writeln!(output, "{}", answer.lines())?;
            Ok(answer.status)
        }
        Err(wrong) => {
            complain(&format!("{} (--help tells more)", wrong.0));
            Ok(WRONG)
        }
    }
}

/// The short help, with an example that is answered here and now.
fn short(output: &mut impl Write) -> io::Result<u8> {
    write!(output, "{SHORT}\nclimboat {}\n\n", EXAMPLE.join(" "))?;
    one(&EXAMPLE, output)
}
