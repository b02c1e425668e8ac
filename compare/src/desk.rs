//! For scale: the states of region 1 at which compare/desk times a steam table in Python, Climboat's answers there, and its own times.

use crate::climboat::{self, Pair, Record, VESSELS_LIMIT};
use crate::draw::Draw;
use crate::timing::{medians, pass};

struct State {
    p: f64,
    t: f64,
    v: f64,
}

impl State {
    fn v(&self) -> Record {
        climboat::property(1, 1, self.p, self.t)
    }

    fn h(&self) -> Record {
        climboat::property(1, 4, self.p, self.t)
    }

    /// (p,v) to T
    fn search(&self) -> Record {
        climboat::search(Pair::Pv, 1, self.p, self.v, VESSELS_LIMIT)
    }
}

/// 36 states, uniform in p and logarithmic in turn. They begin at 290 K: around 277 K water has one volume at two temperatures, and a search may find the other.
fn states() -> Vec<State> {
    let mut draw = Draw::new(0x0c1b_0a70_0000_0071);
    let drawn = (0..).map(|n| {
        let t = draw.between(290.0, 623.15);
        let least = climboat::saturation_pressure(t);
        let p = if n % 2 == 0 { draw.between(least, 100.0) } else { draw.logarithmic(least, 100.0) };
        State { p, t, v: climboat::region1_v(p, t) }
    });
    drawn.filter(|s| s.v().number == 0 && s.search().number == 0).take(36).collect()
}

/// A line for each state: p, T, v, h, and the T that is found by p and v. Its decimals are those that read back as the same doubles.
pub fn print_states() {
    for s in states() {
        println!("{} {} {} {} {}", s.p, s.t, s.v().value, s.h().value, s.search().value);
    }
}

/// A line for each of the three calls through the C interface: its name, and nanoseconds for a call.
pub fn print_times() {
    // so often that reading the clock is not counted
    let often: Vec<State> = (0..300).flat_map(|_| states()).collect();
    let times = medians([&mut || pass(&often, |s| s.v().value), &mut || pass(&often, |s| s.h().value), &mut || pass(&often, |s| s.search().value)]);
    for (name, time) in ["v", "h", "T"].into_iter().zip(times) {
        println!("{name} {time:.1}");
    }
}
