//! What the twenty-one properties take, the checked call and the searches, against the least that their longest chain of additions can take.
//! The order of a sum decides its bits, so a sum over a table is one chain: each addition waits for the one before.

use crate::climboat;
use crate::equations::{REGION_1, REGION_2, REGION_5};
use crate::pairs::{LIMIT, SEARCHES};
use crate::timing::{in_turn, inside_region_1, medians, pass, place, searched, states};

/// The rows of the release's Tables 2, 11 and 38: those of Table 10 and of Table 37 are a chain of their own that runs beside it, and so are the other sums of a property that needs more than one.
const ADDITIONS: [u32; 3] = [34, 43, 6];

pub fn tables() {
    let one = addition();
    properties(one);
    println!();
    calls(one);
}

/// Calls that overlap may come out below the bound: it is of one chain, and the processor begins the next call's while it waits for this one's. Where p and T wait for the result before,
/// nothing runs ahead, and what comes on top of the chain shows: the divisions and the powers before it, the last products after it.
fn properties(one: f64) {
    println!("| property | additions in a row | at {one:.2} ns each | Climboat, calls that overlap | over the bound | Climboat, each call waiting for the one before | over the bound |");
    println!("|---|---|---|---|---|---|---|");
    for ((rows, additions), states) in [&REGION_1, &REGION_2, &REGION_5].into_iter().zip(ADDITIONS).zip(states()) {
        let bound = f64::from(additions) * one;
        for r in rows {
            let mut waiting = in_turn(|s: &(f64, f64), zero| (r.ours)(s.0 + zero, s.1 + zero));
            let [overlap, wait] = medians([&mut || pass(&states, |s| (r.ours)(s.0, s.1)), &mut || pass(&states, &mut waiting)]);
            println!("| {} | {additions} | {bound:.1} ns | {overlap:.1} ns | {:.2} | {wait:.1} ns | {:.2} |", r.name, overlap / bound, wait / bound);
        }
    }
}

/// The checked call; and the searches, which evaluate at both ends, one beside the other, and then once a step, each time waiting for the time before. Calls overlap here too, and the
/// ends of a search that is decided before its steps wait for nothing.
fn calls(one: f64) {
    println!("| public call | evaluations one after the other, on average | their additions in a row | at {one:.2} ns each | Climboat | over the bound |");
    println!("|---|---|---|---|---|---|");
    let row = |name: &str, region: u32, evaluations: f64, mut pass: &mut dyn FnMut() -> f64| {
        let additions = evaluations * f64::from(ADDITIONS[place(region)]);
        let [time] = medians([&mut pass]);
        println!("| {name} | {evaluations:.2} | {additions:.0} | {:.1} ns | {time:.1} ns | {:.2} |", additions * one, time / (additions * one));
    };
    let inside = inside_region_1();
    row("region 1 (p,T) to v", 1, 1.0, &mut || pass(&inside, |s| climboat::property(1, 1, s.0, s.1).value));
    for search in &SEARCHES {
        let inputs = searched(search);
        let steps: u64 = inputs.iter().map(|i| u64::from(search.ours(i.0, i.1, LIMIT).steps)).sum();
        let evaluations = 1.0 + steps as f64 / inputs.len() as f64;
        row(search.name, search.region, evaluations, &mut || pass(&inputs, |i| search.ours(i.0, i.1, LIMIT).value));
    }
}

/// Nanoseconds for an addition that waits for the one before. The compiler may neither reorder the additions of doubles nor make one of several, and does not know the term.
fn addition() -> f64 {
    const IN_A_ROW: u32 = 1_000;
    let mut sum = 0.0;
    let [time] = medians([&mut || {
        pass(&[1.0; 1_000], |term| {
            for _ in 0..IN_A_ROW {
                sum += term;
            }
            sum
        })
    }]);
    time / f64::from(IN_A_ROW)
}
