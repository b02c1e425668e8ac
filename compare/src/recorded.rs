//! The recorded answers: questions for the program `replay`, and what the second reading of the table over the test copy answers to each.

use crate::by_log::ByLog;
use crate::climboat::{Line, Pair, Record, EXACT_END, INSIDE, LARGEST_LIMIT, SMALL_RESIDUAL, VALUE, VESSELS_LIMIT};
use crate::draw::Draw;
use crate::patience::enough;
use crate::plausible::{self, beside, magnitude, NAN, PRESSURES, PRESSURES_5, TEMPERATURES, TEMPERATURES_5};
use crate::question::{Question, LINES, PAIRS};
use crate::table::{Search, SEARCHES};
use std::collections::HashSet;
use std::fs;

const FOLDER: &str = "crates/replay";

/// How many of the searches were recorded first, those of regions 1 and 2; the others are region 5's.
const RECORDED_FIRST: usize = 8;

/// Step limits, each with how many drawn pairs it gets in every search.
const LIMITS: [(u32, usize); 7] = [(0, 12), (1, 16), (2, 16), (5, 24), (20, 36), (20_000, 80), (20_001, 4)];

/// The same for the questions about the largest limit, which come behind all others.
const LARGEST_LIMITS: [(u32, usize); 2] = [(LARGEST_LIMIT, 12), (LARGEST_LIMIT + 1, 4)];

/// How many answers of every search are recorded under one step less than enough and under larger limits.
const TURNED: usize = 6;

/// Three NaN, among them one that signals, the infinities, both zeros, the least and the largest double of either sign, -1.
const STRANGE: [u64; 12] = [
    0x7ff8_0000_0000_0000,
    0xfff8_0000_0000_0001,
    0x7ff0_0000_0000_0001,
    0x7ff0_0000_0000_0000,
    0xfff0_0000_0000_0000,
    0x0000_0000_0000_0000,
    0x8000_0000_0000_0000,
    0x0000_0000_0000_0001,
    0x8000_0000_0000_0001,
    0x7fef_ffff_ffff_ffff,
    0xffef_ffff_ffff_ffff,
    0xbff0_0000_0000_0000,
];

/// What is no input of `replay`, at the end of the list: a letter and a capital that are no digits, a wrong separator, an unknown call, and a line cut short.
const BROKEN: [&str; 5] = [
    "0x 1 1 00000 4008000000000000 4072c00000000000\n",
    "01 1 1 00000 4008000000000000 4072C00000000000\n",
    "01 1-1 00000 4008000000000000 4072c00000000000\n",
    "0a 1 1 00000 4008000000000000 4072c00000000000\n",
    "01 1 1 00000 4008000000000000 4072c0000000000",
];

/// `compare recorded` prints both files, with a folder it writes them there, with --check it compares them with those that are kept, and asks those by (p,T) by the log.
pub fn command(words: &[&str]) -> bool {
    let questions = questions();
    let mut stdin: String = questions.iter().map(|question| question.digits() + "\n").collect();
    let mut stdout: String = questions.iter().map(|question| format!("{}: {}\n", question.digits(), columns(&question.table()))).collect();
    for (line, number) in BROKEN.iter().zip(questions.len() + 1..) {
        stdin += line;
        stdout += &format!("line {number}: not an input of replay\n");
    }
    match words {
        [] => {
            print!("{stdin}{stdout}");
            true
        }
        ["--check"] => check("stdin", &stdin) & check("stdout", &stdout) & asked_by_log(&questions),
        [folder] => write(folder, "stdin", &stdin) & write(folder, "stdout", &stdout),
        _ => {
            eprintln!("usage: compare recorded [FOLDER | --check]");
            false
        }
    }
}

fn write(folder: &str, name: &str, text: &str) -> bool {
    let path = format!("{folder}/{name}");
    let written = fs::create_dir_all(folder).and_then(|()| fs::write(&path, text));
    match written {
        Ok(()) => println!("recorded: {} lines in {path}", text.lines().count()),
        Err(ref error) => println!("recorded: {path}: {error}"),
    }
    written.is_ok()
}

/// Whether the file that is kept is the one that is made; if not, the first line that differs.
fn check(name: &str, made: &str) -> bool {
    let path = format!("{FOLDER}/{name}");
    let kept = match fs::read_to_string(&path) {
        Ok(kept) => kept,
        Err(error) => {
            println!("recorded: {path}: {error}");
            return false;
        }
    };
    let (old, new): (Vec<&str>, Vec<&str>) = (kept.split('\n').collect(), made.split('\n').collect());
    if old == new {
        println!("recorded: {} lines in {path}, the same when made again", made.lines().count());
        return true;
    }
    let line = old.iter().zip(&new).take_while(|(a, b)| a == b).count();
    let [old, new] = [old, new].map(|lines| lines.get(line).map_or("no line", |line| *line).to_string());
    println!("recorded: {path} differs first in line {}: kept {old:?}, made {new:?}", line + 1);
    false
}

/// `replay` has no line for a log; what it answers to a line by (p,T) is what a place holds.
fn asked_by_log(questions: &[Question]) -> bool {
    let mut by_log = ByLog::new("recorded questions by (p,T), by the log");
    questions.iter().for_each(|question| by_log.ask(question, &question.table()));
    by_log.told()
}

/// A record as the programs write an answer.
fn columns(record: &Record) -> String {
    let Record { number, reason, steps, mark, region, kind, property, .. } = *record;
    let [value, lower, upper, lower_residual, upper_residual, first, second, _] = record.doubles().map(double);
    let bracket = format!("steps {steps}, bracket {lower} {upper}, residuals {lower_residual} {upper_residual}");
    let asked = format!("kind {kind}, region {region}, property {property}, inputs {first} {second}");
    if number != 0 {
        return format!("refused {number}, value {value}, {bracket}, {asked}");
    }
    let reason = match reason {
        VALUE => return format!("value {value}, {asked}"),
        EXACT_END => "exact end",
        SMALL_RESIDUAL => "small residual",
        _ => "narrow",
    };
    let mark = if mark == INSIDE { "inside" } else { "outside" };
    format!("{reason} {value}, {bracket}, {mark}, {asked}")
}

/// The sixteen digits of its bits; a NaN, as the programs write it, by its name: its bits are held by `compare nans`.
fn double(x: f64) -> String {
    if x.is_nan() {
        String::from("NaN")
    } else {
        format!("{:016x}", x.to_bits())
    }
}

fn questions() -> Vec<Question> {
    let mut draw = Draw::new(0x0c1b_0a70_0000_0043);
    let searches = &SEARCHES[..RECORDED_FIRST];
    let mut list = readings();
    list.extend(no_steps(searches));
    list.extend(strange(&LINES, &[1, 2], searches));
    list.extend(unknown());
    list.extend(one_end_finite());
    list.extend(properties(&mut draw, &[1, 2]));
    list.extend(lines(&mut draw));
    list.extend(searched(&mut draw, searches));
    list.extend(patience(&mut Draw::new(0x0c1b_0a70_0000_0045), searches));
    list.extend(region_5());
    let mut seen = HashSet::new();
    list.retain(|question| seen.insert(question.digits()));
    list
}

/// The questions about region 5. They have a draw of their own, so that those before them stay as they were recorded; so have those about the largest limit.
fn region_5() -> Vec<Question> {
    let mut draw = Draw::new(0x0c1b_0a70_0000_0046);
    let searches = &SEARCHES[RECORDED_FIRST..];
    let mut list = corners();
    list.extend(beside_region_2());
    list.extend(no_steps(searches));
    list.extend(strange(&[], &[5], searches));
    // it has no (p,v), whatever is asked
    list.extend([(1.0, 1.0), (NAN, -1.0), (0.0, 0.0)].map(|(p, v)| Question::Search(Pair::Pv, 5, p, v, LARGEST_LIMIT + 1)));
    list.extend(properties(&mut draw, &[5]));
    list.extend(searched(&mut draw, searches));
    list.extend(patience(&mut draw, searches));
    list
}

/// At the corners of region 5 and next to them, the properties in turn.
fn corners() -> Vec<Question> {
    let pressures: Vec<f64> = PRESSURES_5.into_iter().flat_map(around).collect();
    let states = TEMPERATURES_5.into_iter().flat_map(around).flat_map(|t| pressures.iter().map(move |&p| (p, t)));
    states.zip((1..=7).cycle()).map(|((p, t), property)| Question::Property(5, property, p, t)).collect()
}

/// At 1073.15 K and next to it, where the region that is named decides: the properties, and the searches of what region 5 has at 1 MPa.
fn beside_region_2() -> Vec<Question> {
    let mut list = Vec::new();
    for t in around(1073.15) {
        for region in [2, 5] {
            list.extend((1..=7).map(|property| Question::Property(region, property, 1.0, t)));
            list.extend(SEARCHES[RECORDED_FIRST..].iter().map(|search| Question::Search(search.pair, region, t, search.found(t, 1.0), 20_000)));
        }
    }
    list
}

/// The edges of each search, its order of refusals, and what is drawn under each limit.
fn searched(draw: &mut Draw, searches: &[Search]) -> Vec<Question> {
    let mut list = Vec::new();
    for search in searches {
        list.extend(edges(search));
        list.extend(order(search));
        for (limit, times) in LIMITS {
            list.extend((0..times).map(|_| drawn(draw, search, limit)));
        }
    }
    list
}

/// The questions about the largest limit.
fn patience(draw: &mut Draw, searches: &[Search]) -> Vec<Question> {
    let mut list = Vec::new();
    for search in searches {
        list.extend(in_order(search).map(|fixed| too_large(search, fixed, LARGEST_LIMIT + 1)));
        for (limit, times) in LARGEST_LIMITS {
            list.extend((0..times).map(|_| drawn(draw, search, limit)));
        }
        let turned = std::iter::repeat_with(|| drawn(draw, search, LARGEST_LIMIT)).filter_map(|question| turned(&question));
        list.extend(turned.take(TURNED).flatten());
    }
    list
}

/// Where steps find an answer: one less than is enough for it, enough, one more, and the limits that vessels and programs use.
fn turned(question: &Question) -> Option<[Question; 6]> {
    let answer = question.table();
    let least = enough(&answer).filter(|&least| answer.number == 0 && least > 0)?;
    Some([least - 1, least, least + 1, VESSELS_LIMIT, VESSELS_LIMIT + 1, LARGEST_LIMIT].map(|limit| question.under(limit)))
}

/// Document 01's readings 10 to 14 and 16.
fn readings() -> Vec<Question> {
    let warmest = f64::from_bits(623.15f64.to_bits() + 1);
    let one = &SEARCHES[0];
    let mut list = vec![
        Question::Property(2, 1, 0.0, 300.0),
        Question::Property(1, 1, 0.0, NAN),
        Question::Property(1, 1, 50.0, 623.15),
        Question::Property(1, 1, 50.0, warmest),
        Question::Search(one.pair, 1, 100.0, one.found(100.0, 273.15), 20_000),
        Question::Search(one.pair, 1, 1.0, 0.5 * (one.found(1.0, 277.0) + one.found(1.0, 273.15)), 20_000),
    ];
    list.extend([0.000611212677f64, 22.064].into_iter().flat_map(around).map(|p| Question::Line(Line::SaturationTemperature, p)));
    list
}

/// Its reading 15.
fn no_steps(searches: &[Search]) -> impl Iterator<Item = Question> + '_ {
    searches.iter().map(|search| {
        let fixed = ordinary(search);
        let (lower, upper) = (search.ends)(fixed);
        Question::Search(search.pair, search.region, fixed, search.found(fixed, 0.5 * (lower + upper)), 0)
    })
}

/// A pressure or a temperature in the middle of the region.
fn ordinary(search: &Search) -> f64 {
    if search.pair == Pair::Pv {
        1.0
    } else {
        ordinary_temperature(search.region)
    }
}

fn ordinary_temperature(region: u32) -> f64 {
    if region == 5 {
        1500.0
    } else {
        500.0
    }
}

/// The double before, itself, and the double after.
fn around(x: f64) -> [f64; 3] {
    [x.to_bits() - 1, x.to_bits(), x.to_bits() + 1].map(f64::from_bits)
}

/// Each call with each strange double in each place.
fn strange(lines: &[Line], regions: &[u32], searches: &[Search]) -> Vec<Question> {
    let mut list = Vec::new();
    for x in STRANGE.map(f64::from_bits) {
        list.extend(lines.iter().map(|&line| Question::Line(line, x)));
        for &region in regions {
            list.extend([(x, ordinary_temperature(region)), (1.0, x)].map(|(p, t)| Question::Property(region, 1, p, t)));
        }
        for search in searches {
            list.extend([(x, 1.0), (ordinary(search), x)].map(|(fixed, target)| Question::Search(search.pair, search.region, fixed, target, 20_000)));
        }
    }
    list
}

/// Regions and properties that name nothing: `replay` has no call for them.
fn unknown() -> Vec<Question> {
    let mut list = Vec::new();
    for number in [0, 3, 15] {
        list.push(Question::Property(number, 1, 1.0, 500.0));
        list.extend(PAIRS.map(|pair| Question::Search(pair, number, 1.0, 1.0, 20_000)));
    }
    list.extend([(1, 0), (2, 8), (1, 15)].map(|(region, property)| Question::Property(region, property, 1.0, 500.0)));
    list
}

/// Refused by 6, with a residual that is finite at the lower end alone, and at the upper end alone.
fn one_end_finite() -> [Question; 2] {
    [Question::Search(Pair::Pv, 1, 1.0, 6.0e-312, 20_000), Question::Search(Pair::Tv, 2, 1000.0, 1.0e-305, 20_000)]
}

/// Every property at states inside its region, and at plausible ones.
fn properties(draw: &mut Draw, regions: &[u32]) -> Vec<Question> {
    let mut list = Vec::new();
    for &region in regions {
        let by_t = SEARCHES.iter().rfind(|search| search.region == region).expect("a pair by T");
        let (coldest, warmest) = by_t.range().into_inner();
        for property in 1..=7 {
            for kind in 0..48 {
                let t = draw.between(coldest, warmest);
                let (least, most) = (by_t.ends)(t);
                let (p, t) = match kind % 4 {
                    0 => (draw.between(least, most), t),
                    1 => (magnitude(draw, least, most), t),
                    2 => (beside(draw, if region == 1 { least } else { most }), t),
                    _ if region == 5 => plausible::state_5(draw),
                    _ => plausible::state(draw),
                };
                list.push(Question::Property(region, property, p, t));
            }
        }
    }
    list
}

fn lines(draw: &mut Draw) -> Vec<Question> {
    let mut list = Vec::new();
    for (line, edges) in LINES.into_iter().zip([[273.15, 647.096], [0.000611212677, 22.064], [623.15, 863.15], [16.5291643, 100.0]]) {
        let [low, high] = edges;
        list.extend(edges.into_iter().flat_map(around).map(|x| Question::Line(line, x)));
        for _ in 0..20 {
            let any = if low > 100.0 { plausible::temperature(draw) } else { plausible::pressure(draw) };
            list.extend([draw.between(low, high), magnitude(draw, low, high), any].map(|x| Question::Line(line, x)));
        }
    }
    list
}

/// Both ends as answers, where the ranges and the brackets change.
fn edges(search: &Search) -> Vec<Question> {
    let fixed: &[f64] = match (search.pair, search.region) {
        (Pair::Pv, _) => &PRESSURES,
        (_, 5) => &TEMPERATURES_5,
        _ => &TEMPERATURES,
    };
    let ends = fixed.iter().flat_map(|&x| {
        let (lower, upper) = (search.ends)(x);
        [lower, upper].map(|end| Question::Search(search.pair, search.region, x, search.found(x, end), 20_000))
    });
    ends.collect()
}

/// Several refusals at once, so that their order shows.
fn order(search: &Search) -> Vec<Question> {
    let mut list = Vec::new();
    for x in in_order(search) {
        list.push(too_large(search, x, 20_001));
        list.extend([NAN, -1.0, 0.0, -0.0, 5.0e-324].map(|target| Question::Search(search.pair, search.region, x, target, 20_000)));
    }
    list
}

/// What is fixed: no number, two out of range, and an ordinary one.
fn in_order(search: &Search) -> [f64; 4] {
    [NAN, 0.0, if search.region == 5 { 3000.0 } else { 2000.0 }, ordinary(search)]
}

/// With a target that is refused too if it is a volume, under a limit that is too large; 20,001 was when its questions were recorded.
fn too_large(search: &Search, fixed: f64, limit: u32) -> Question {
    Question::Search(search.pair, search.region, fixed, -1.0, limit)
}

fn drawn(draw: &mut Draw, search: &Search, limit: u32) -> Question {
    let fixed = plausible::fixed(draw, search);
    Question::Search(search.pair, search.region, fixed, plausible::target(draw, search, fixed), limit)
}
