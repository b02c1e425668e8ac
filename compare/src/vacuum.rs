//! Region 2 (T,v) from a low vacuum up to 100 MPa: v computed at (p,T) and searched back, by the crate's narrow rule and by Climboat's. Makes the table of docs/DIFFERENCES.md.

use crate::climboat::{Pair, Record, EXACT_END, INSIDE, LARGEST_LIMIT, NARROW, SMALL_RESIDUAL};
use crate::differences::CRATES_WIDTH;
use crate::draw::same;
use crate::page;
use crate::pairs::{self, Search, LIMIT};
use copy::algo::root::bisection;
use copy::run::Run;
use std::collections::BTreeMap;
use std::panic;

const TEMPERATURES: [f64; 4] = [280.0, 400.0, 800.0, 1073.15];

/// Ten to a decade: ten to the power of 0, 0.1, 0.2 and so on, in three digits.
pub const DIGITS: [&str; 10] = ["1.00", "1.26", "1.58", "2.00", "2.51", "3.16", "3.98", "5.01", "6.31", "7.94"];

const HEAD: &str = "| T, K | p, MPa | states (outside) | exact end, refused | before: narrow | small residual | most steps | after: narrow | small residual | most steps |\n|---|---|---|---|---|---|---|---|---|---|\n";

/// `compare vacuum` prints the table, with --check it looks for it on the page; either way it holds every answer to its reason.
pub fn command(words: &[&str]) -> bool {
    let search = pairs::search(2, Pair::Tv);
    // where the original refuses it panics: not printed each time
    panic::set_hook(Box::new(|_| {}));
    let decades: Vec<Decade> = TEMPERATURES.iter().flat_map(|&t| (-8..=1).map(move |k| Decade::of(search, t, k))).collect();
    let states = || decades.iter().flat_map(|decade| &decade.states);
    let faults: Vec<String> = states().filter_map(|state| state.fault(search)).collect();
    let _ = panic::take_hook();
    let table = HEAD.to_string() + &decades.iter().map(Decade::told).collect::<String>();
    for fault in &faults {
        println!("vacuum: UNEXPLAINED: {fault}");
    }
    match words {
        [] => print!("{table}"),
        ["--check"] => {
            println!("vacuum: {} states from 1.0e-8 to 100 MPa searched back, {} not within what their reason says, another record under the limit {LARGEST_LIMIT}, or not refused under {}", states().count(), faults.len(), LARGEST_LIMIT + 1);
            return page::has("vacuum", &table) & faults.is_empty();
        }
        _ => {
            eprintln!("usage: compare vacuum [--check]");
            return false;
        }
    }
    faults.is_empty()
}

/// The states of a decade from 10^k; 100 MPa belongs to the last.
struct Decade {
    t: f64,
    k: i32,
    states: Vec<State>,
}

impl Decade {
    fn of(search: &Search, t: f64, k: i32) -> Decade {
        let last = if k == 1 { vec![100.0] } else { Vec::new() };
        let pressures = DIGITS.map(|digits| format!("{digits}e{k}").parse().expect("a number"));
        Decade { t, k, states: pressures.into_iter().chain(last).map(|p| State::at(search, t, p)).collect() }
    }

    /// Its line: of both rules how many answers each reason has with their largest relative error, and the most steps.
    fn told(&self) -> String {
        let Decade { t, k, states } = self;
        let outside = states.iter().filter(|state| state.after.number == 0 && state.after.mark != INSIDE).count();
        let exact = states.iter().filter(|state| state.after.reason == EXACT_END).count();
        let mut refused = BTreeMap::new();
        for state in states.iter().filter(|state| state.after.number != 0) {
            *refused.entry(state.after.number).or_insert(0) += 1;
        }
        let elsewhere: String = refused.iter().map(|(number, n)| format!(", {n} by {number}")).collect();
        let before = reasons(states.iter().map(|state| (state.before.reason, state.error(state.before.value), state.before.steps)));
        let after = reasons(states.iter().map(|state| (state.after.reason, state.error(state.after.value), state.after.steps)));
        format!("| {t} | 1e{k} to 1e{} | {} ({outside}) | {exact}{elsewhere} | {before} | {after} |\n", k + 1, states.len())
    }
}

fn reasons(answers: impl Iterator<Item = (u32, f64, u32)> + Clone) -> String {
    let of = |wanted: u32| {
        let errors = answers.clone().filter(|&(reason, ..)| reason == wanted).map(|(_, error, _)| error);
        let largest = errors.clone().fold(0.0, f64::max);
        match errors.count() {
            0 => String::from("0"),
            n => format!("{n}: {largest:.1e}"),
        }
    };
    let steps = answers.clone().map(|(_, _, steps)| steps).max().unwrap_or(0);
    format!("{} | {} | {steps}", of(NARROW), of(SMALL_RESIDUAL))
}

/// A state, and the search for its p, by the crate's narrow rule and by Climboat's.
struct State {
    t: f64,
    p: f64,
    v: f64,
    before: Run,
    after: Record,
}

impl State {
    fn at(search: &Search, t: f64, p: f64) -> State {
        let v = search.at(t, p);
        let after = search.ours(t, v, LIMIT);
        let (low, high) = (search.ends)(t);
        // the test copy has no checks of its own
        let before = if after.number == 4 { Run::without_bracket(4) } else { bisection(low, high, |x| search.residual(t, v, x), LIMIT as usize, 1.0e-8, |_| CRATES_WIDTH) };
        State { t, p, v, before, after }
    }

    fn error(&self, value: f64) -> f64 {
        (value - self.p).abs() / self.p
    }

    /// What is wrong with the two answers, if anything: before must be the crate's own answer, after must hold what its reason says, say what it is of, stay the same under the largest limit, and be refused under a larger one.
    fn fault(&self, search: &Search) -> Option<String> {
        let Record { number, reason, value, lower, upper, .. } = self.after;
        let at = |x: f64| search.residual(self.t, self.v, x);
        let good = match (number, reason) {
            (0, NARROW) => (at(lower) < 0.0) != (at(upper) < 0.0) && lower <= value && value <= upper && within_a_millionth(lower, upper),
            (0, SMALL_RESIDUAL) => at(value).abs() < 1.0e-8,
            (0, EXACT_END) => at(value) == 0.0,
            _ => self.before.number == number,
        };
        let crates = panic::catch_unwind(|| (search.rusts)(self.t, self.v)).ok();
        let the_crates = match self.before.reason {
            // the crate walks away from a zero at an end
            EXACT_END => true,
            0 => self.before.number == 4 || crates.is_none(),
            _ => crates.is_some_and(|x| same(x, self.before.value)),
        };
        let State { t, p, before, after, .. } = self;
        let says_what = search.says_what(self.t, self.v, &self.after);
        let stays = search.stays(self.t, self.v, &self.after);
        (!good || !the_crates || !says_what || !stays).then(|| format!("T = {t:?}, p = {p:?}: before {before:?}, the crate {crates:?}, after {after:?}"))
    }
}

/// Whether 10^6 * (upper - lower) < upper, exactly: both as whole numbers of the lower end's last place.
fn within_a_millionth(lower: f64, upper: f64) -> bool {
    let place = |x: f64| (x.to_bits() >> 52) as u32;
    let significand = |x: f64| u128::from(x.to_bits() & ((1 << 52) - 1) | 1 << 52);
    let shift = place(upper) - place(lower);
    shift <= 1 && 1_000_000 * ((significand(upper) << shift) - significand(lower)) < significand(upper) << shift
}
