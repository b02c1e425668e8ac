//! Region 1's door check, which lets a pressure in by a bound and else asks the saturation line: what it answers about the line, against the second reading, and how often it goes by the bound.
//! The bound is private, so it is written here a second time; nothing is decided by that, it only says where to ask and counts.

use crate::by_log::ByLog;
use crate::draw::Draw;
use crate::equations::beside;
use crate::question::Question;
use crate::tally::Tally;
use crate::timing::inside_region_1;
use original::r4::region4_sat_pT::p_saturation;

/// Table 34 of the release
const N: [f64; 10] = [
    0.11670521452767e4,
    -0.72421316703206e6,
    -0.17073846940092e2,
    0.12020824702470e5,
    -0.32325550322333e7,
    0.14915108613530e2,
    -0.48232657361591e4,
    0.40511340542057e6,
    -0.23855557567849,
    0.65017534844798e3,
];

/// The root of the saturation pressure as Climboat guesses it, and the number under it.
fn guess(t: f64) -> (f64, [f64; 3]) {
    let root = 4101246.0 + t * (-25228.99 + t * (80.67733 + t * (-0.1054326 + t * 4.375641e-5)));
    let theta = t + N[8] / (t - N[9]);
    (root, [theta * (theta + N[0]) + N[1], theta * (N[2] * theta + N[3]) + N[4], theta * (N[5] * theta + N[6]) + N[7]])
}

/// The pressure from which on the bound says yes at t; none where a test before the last one fails.
fn bound(t: f64) -> Option<f64> {
    let (root, [a, b, c]) = guess(t);
    let (low, square) = (root * root, b * b - 4.0 * a * c);
    let (top, bottom) = (2.0 * c, -b + root);
    let large = 1.0e30;
    let quotient = top / bottom;
    let tested = 0.0 < low && low < square && square < large && 1.0 < bottom && bottom < large && 0.0 < top && top < large && quotient < 1000.0;
    tested.then(|| quotient.powi(4))
}

/// A temperature of region 1, one in five at an end of it or next to one.
fn temperature(draw: &mut Draw) -> f64 {
    match draw.below(10) {
        0 => beside(draw, 273.15),
        1 => beside(draw, 623.15),
        _ => draw.between(273.15, 623.15),
    }
}

/// A pressure about the line at t, or about the bound: next to one of them, between them, or as far beyond.
fn pressure(draw: &mut Draw, t: f64) -> f64 {
    let line = p_saturation(t.clamp(273.15, 623.15));
    let bound = bound(t).unwrap_or(line);
    match draw.below(5) {
        0 | 1 => beside(draw, line),
        2 => beside(draw, bound),
        3 => draw.between(line, bound),
        _ => draw.between(0.99 * line, 1.01 * bound),
    }
}

/// Every column of the public call about the line, against the second reading; whether nothing differed.
pub fn compare() -> bool {
    let mut draw = Draw::new(0x0c1b_0a70_0000_000d);
    let mut tally = Tally::new("region 1's door check, by (p,T) to v");
    let mut by_log = ByLog::new("region 1's door check, by the log");
    let [mut inside, mut by_bound] = [0, 0];
    for _ in 0..3_000_000 {
        let t = temperature(&mut draw);
        let p = pressure(&mut draw, t);
        let question = Question::Property(1, 1, p, t);
        let record = question.climboat();
        inside += u64::from(record.number == 0);
        by_bound += u64::from(record.number == 0 && bound(t).is_some_and(|bound| bound <= p));
        let second = question.table();
        tally.check(record.same(&second), || question.digits());
        by_log.ask(&question, &second);
    }
    tally.told(&format!(", about the saturation line: {inside} inside, {by_bound} of them by the bound")) & by_log.told()
}

/// Over a million temperatures from 273.15 to 623.15 K where the bound lies, and over a million states inside region 1 how many go by it.
pub fn table() {
    let mut draw = Draw::new(0x0c1b_0a70_0000_000c);
    let (mut untested, mut least, mut most) = (0, f64::INFINITY, f64::NEG_INFINITY);
    for t in [273.15, 623.15].into_iter().chain((0..1_000_000).map(|_| draw.between(273.15, 623.15))) {
        match bound(t) {
            Some(p) => {
                let above = 100.0 * (p / p_saturation(t) - 1.0);
                least = f64::min(least, above);
                most = f64::max(most, above);
            }
            None => untested += 1,
        }
    }
    let states = inside_region_1();
    let by_bound = states.iter().filter(|&&(p, t)| bound(t).is_some_and(|bound| bound <= p)).count();
    println!("| the bound of region 1's door check | |");
    println!("|---|---|");
    println!("| temperatures from 273.15 to 623.15 K at which a test of the guess fails, of 1,000,002 | {untested} |");
    println!("| the bound above the saturation pressure, parts in 100 | {least:.4} to {most:.4} |");
    println!("| states inside region 1 that are let in by the bound, of {} | {by_bound} |", states.len());
}
