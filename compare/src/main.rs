//! Climboat against Rust: `compare helpers` compares the float helpers, `compare nans` asks every call with every kind of NaN, `compare log` fills logs and holds every place against the single call, `compare equations` the equations with the original crate, region 5's with its test copy, and region 1's door check with the refusal table read a second time, `compare searches` the pair searches with its test copy and with itself, `compare doubles` any two doubles with the refusal table and the steps of bisection read a second time, `compare recorded` makes the answers that crates/replay keeps, `compare vacuum` searches region 2 (T,v) from a low vacuum upwards and makes a table of docs/DIFFERENCES.md, `compare entropy` holds region 2's entropy and differences of two against the original crate and makes another, `compare region5` holds region 5 against the original crate and beside region 2 and makes two more, `compare timing` prints the tables of docs/SPEED.md, with `--bars` also which of their bars were missed, `compare desk` prints the times and `compare desk states` the states and answers that compare/desk holds against a steam table in Python.

mod bars;
#[cfg(feature = "original")]
mod bound;
mod by_log;
mod climboat;
mod desk;
#[cfg(feature = "original")]
mod differences;
#[cfg(feature = "original")]
mod door;
#[cfg(feature = "original")]
mod doubles;
mod draw;
#[cfg(feature = "original")]
mod entropy;
#[cfg(feature = "original")]
mod equations;
mod helpers;
mod lent;
mod log;
#[cfg(feature = "original")]
mod many;
mod nans;
#[cfg(feature = "original")]
mod page;
#[cfg(feature = "original")]
mod pairs;
#[cfg(feature = "original")]
mod patience;
mod plausible;
mod question;
#[cfg(feature = "original")]
mod recorded;
#[cfg(feature = "original")]
mod region5;
mod roots;
#[cfg(feature = "original")]
mod searches;
#[cfg(feature = "original")]
mod table;
mod tally;
mod timing;
#[cfg(feature = "original")]
mod vacuum;

use std::process::ExitCode;

fn main() -> ExitCode {
    let words: Vec<String> = std::env::args().skip(1).collect();
    match words.iter().map(String::as_str).collect::<Vec<_>>()[..] {
        ["helpers"] => told(helpers::compare()),
        ["nans"] => told(nans::compare()),
        ["log"] => told(log::compare()),
        #[cfg(feature = "original")]
        ["equations"] => told(equations::compare() & door::compare()),
        #[cfg(feature = "original")]
        ["searches"] => told(searches::compare() & differences::compare()),
        #[cfg(feature = "original")]
        ["doubles", ref words @ ..] => told(doubles::command(words)),
        #[cfg(feature = "original")]
        ["recorded", ref words @ ..] => told(recorded::command(words)),
        #[cfg(feature = "original")]
        ["vacuum", ref words @ ..] => told(vacuum::command(words)),
        #[cfg(feature = "original")]
        ["entropy", ref words @ ..] => told(entropy::command(words)),
        #[cfg(feature = "original")]
        ["region5", ref words @ ..] => told(region5::command(words)),
        ["timing"] => {
            timing::tables();
            ExitCode::SUCCESS
        }
        #[cfg(feature = "original")]
        ["timing", "--bars"] => told(timing::tables().told()),
        #[cfg(not(feature = "original"))]
        ["timing", "--bars"] => {
            eprintln!("compare: the bars are held against the original crate, and ../shared/docs/src is not at hand");
            ExitCode::from(2)
        }
        ["desk"] => done(desk::print_times),
        ["desk", "states"] => done(desk::print_states),
        _ => {
            eprintln!("usage: compare helpers | nans | log | equations | searches | doubles [N] | recorded [FOLDER | --check] | vacuum [--check] | entropy [--check] | region5 [--check] | timing [--bars] | desk [states] (helpers, nans, log, timing without --bars and desk alone where the original crate is not at hand)");
            ExitCode::from(2)
        }
    }
}

fn done(what: fn()) -> ExitCode {
    what();
    ExitCode::SUCCESS
}

fn told(good: bool) -> ExitCode {
    if good {
        ExitCode::SUCCESS
    } else {
        ExitCode::FAILURE
    }
}
