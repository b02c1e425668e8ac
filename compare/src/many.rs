//! What a call takes over how many are made in one go: whether the first pays for the others.

use crate::climboat::{self, Pair, VESSELS_LIMIT};
use crate::timing::{inside_region_1, medians, pass_in_goes, place, states};

pub fn table() {
    let inside = inside_region_1();
    let hot = &states()[place(5)];
    let search = |t: f64, h: f64| climboat::search(Pair::Th, 1, t, h, VESSELS_LIMIT);
    let targets = inside.iter().map(|&(p, t)| (t, climboat::region1_h(p, t)));
    let targets: Vec<(f64, f64)> = targets.filter(|&(t, h)| search(t, h).number == 0).take(100_000).collect();
    println!("| calls in one go | region 1 (p,T) to v, public call | region 1 v, formula alone | region 1 (T,h) to p, public call | region 5 (p,T) to v, public call |");
    println!("|---|---|---|---|---|");
    for (calls, written) in [(1, "1"), (10, "10"), (100, "100"), (1_000, "1,000"), (10_000, "10,000"), (100_000, "100,000"), (1_000_000, "1,000,000")] {
        let public = cell(calls, &inside, |s| climboat::property(1, 1, s.0, s.1).value);
        let formula = cell(calls, &inside, |s| climboat::region1_v(s.0, s.1));
        let searched = cell(calls, &targets, |s| search(s.0, s.1).value);
        let region_5 = cell(calls, hot, |s| climboat::property(5, 1, s.0, s.1).value);
        println!("| {written} | {public} | {formula} | {searched} | {region_5} |");
    }
}

/// Nanoseconds for a call, the median of nine passes. A pass takes all the inputs in their order, as many goes one behind the other as they make: so every row is of the same inputs,
/// the clock's own cost is shared by 20,000 calls or more, and a go of few calls is not asked the same few inputs again and again, which the processor would learn.
fn cell<T>(calls: usize, inputs: &[T], mut f: impl FnMut(&T) -> f64) -> String {
    if calls > inputs.len() {
        return String::from("-");
    }
    let [time] = medians([&mut || pass_in_goes(inputs, calls, &mut f)]);
    format!("{time:.1} ns")
}
