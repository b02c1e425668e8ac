//! The square root against the processor's own, bit for bit, on more than 10^8 doubles of six kinds, and the fourth root on a share of them.
//! The code's first guess is written a second time here, to tell how far it is off and how often the digit recurrence has to find the root.

use crate::climboat;
use crate::draw::{same, signed_short, Draw};
use crate::tally::Tally;

/// The digits of a significand after its leading one; the bits of the least normal double and of infinity.
const FRACTION: u64 = 0x000f_ffff_ffff_ffff;
const LEAST_NORMAL: u64 = 0x0010_0000_0000_0000;
const INFINITY: u64 = 0x7ff0_0000_0000_0000;

/// The bits of 0.5, 1 and 2: the guess is made for a double from 0.5 up to 2.
const HALF: u64 = 0x3fe0_0000_0000_0000;
const ONE: u64 = 0x3ff0_0000_0000_0000;
const TWO: u64 = 0x4000_0000_0000_0000;

/// Less half the bits of a double, this is the bits of about 1 over its root.
const ROUGH: u64 = 0x5fe6_eb50_c7b5_37a9;

/// The fourth root is asked of each eleventh double: no kind makes its doubles in turns of a multiple of 11, so each place of a turn is met.
const SHARE: u32 = 11;

/// How many doubles are compared at the least: of one kind, and of all.
const ENOUGH_OF_A_KIND: u64 = 10_000_000;
const ENOUGH: u64 = 100_000_000;

/// Gives the doubles of one kind to be compared, and answers what more is to be said of them.
type Kind = fn(&mut Roots, &mut Draw) -> String;

const KINDS: [(&str, Kind); 6] = [
    ("square root, every exponent", every_exponent),
    ("square root, squares and their neighbours", squares),
    ("square root, halfway cases", halfway_cases),
    ("square root, subnormals", subnormals),
    ("square root, the guess's worst cases", worst_cases),
    ("square root, any bits", any_bits),
];

/// Every kind; whether all agreed and were enough.
pub fn compare() -> bool {
    let mut good = true;
    let mut all = Tally::new("square root");
    let mut roots = Roots { kind: Tally::new(""), fourth: Tally::new("fourth root, of each eleventh of these"), turn: 0, guesses: Guesses::default() };
    for ((name, kind), seed) in KINDS.iter().zip(0x0c1b_0a70_0000_0061..) {
        roots.kind = Tally::new(name);
        let more = kind(&mut roots, &mut Draw::new(seed));
        all.add(&roots.kind);
        good &= told(roots.kind, &more, ENOUGH_OF_A_KIND);
    }
    good &= told(roots.fourth, "", ENOUGH_OF_A_KIND);
    roots.guesses.told();
    told(all, "", ENOUGH) && good
}

/// A tally's line; whether nothing differed and it is not empty, or nearly so.
fn told(tally: Tally, more: &str, least: u64) -> bool {
    let enough = tally.tried() >= least;
    let few = if enough { "" } else { "; TOO FEW" };
    tally.told(&format!("{more}{few}")) && enough
}

/// The tallies that a double is counted in.
struct Roots {
    kind: Tally,
    fourth: Tally,
    turn: u32,
    guesses: Guesses,
}

impl Roots {
    fn one(&mut self, bits: u64) {
        let x = f64::from_bits(bits);
        let root = x.sqrt();
        self.kind.check(same(climboat::sqrt(x), root), || format!("{bits:016x}"));
        self.turn += 1;
        if self.turn == SHARE {
            self.turn = 0;
            self.fourth.check(same(climboat::fourth_root(x), root.sqrt()), || format!("{bits:016x}"));
        }
        if 0 < bits && bits < INFINITY {
            self.guesses.count(bits, root);
        }
    }

    /// A double and its neighbours to each side.
    fn around(&mut self, bits: u64, width: u64) {
        for neighbour in bits - width..=bits + width {
            self.one(neighbour);
        }
    }
}

/// How the guess fared, of the positive finite doubles.
#[derive(Default)]
struct Guesses {
    normal: u64,
    subnormal: u64,
    /// those for which the digit recurrence is taken
    normal_taken: u64,
    subnormal_taken: u64,
    /// the first normal ones of them
    first_taken: Vec<u64>,
    /// how many normal guesses are 0, 1, 2 and 3 below the whole part of the root, and the least and the most that any is
    below: [u64; 4],
    range: Option<(i64, i64)>,
}

impl Guesses {
    fn count(&mut self, bits: u64, root: f64) {
        let scaled = scaled(bits);
        let whole = whole_root(scaled, root);
        let guess = guess(bits);
        let found = corrected(scaled, guess);
        assert!(found.is_none() || found == Some(whole), "{bits:016x}: the tests let pass what is not the root");
        if bits < LEAST_NORMAL {
            self.subnormal += 1;
            self.subnormal_taken += u64::from(found.is_none());
            return;
        }
        self.normal += 1;
        if found.is_none() {
            self.normal_taken += 1;
            if self.first_taken.len() < 5 {
                self.first_taken.push(bits);
            }
        }
        let below = whole as i64 - guess as i64;
        let (least, most) = self.range.unwrap_or((below, below));
        self.range = Some((least.min(below), most.max(below)));
        if (0..4).contains(&below) {
            self.below[below as usize] += 1;
        }
    }

    /// Says it; nothing here is right or wrong, it costs time alone.
    fn told(&self) {
        let (least, most) = self.range.unwrap_or((0, 0));
        println!(
            "the digit recurrence is taken for {} of {} normal doubles and for {} of {} subnormal ones; of the normal ones the guess is {least} to {most} below the whole part of the root (0, 1, 2 and 3 below: {:?} times)",
            self.normal_taken, self.normal, self.subnormal_taken, self.subnormal, self.below
        );
        if !self.first_taken.is_empty() {
            println!("  the first normal ones of them: {:016x?}", self.first_taken);
        }
    }
}

/// The significand with its leading digit at bit 63 or 62, so that the power of two left over is even, as the code has it.
fn scaled(bits: u64) -> u64 {
    let field = bits >> 52;
    let (significand, power) = if 0 < field { (bits & FRACTION | LEAST_NORMAL, field - 1) } else { (bits, 0) };
    let zeros = u64::from(significand.leading_zeros());
    significand << (zeros - (zeros + power) % 2)
}

/// The whole part of the root of scaled * 2^44, from the processor's root: it rounds to the 53 digits of that.
fn whole_root(scaled: u64, root: f64) -> u64 {
    let wide = u128::from(scaled) << 44;
    let even = 2 * (root.to_bits() & FRACTION | LEAST_NORMAL);
    let whole = if square(even) <= wide { even } else { even - 1 };
    assert!(square(whole) <= wide && wide < square(whole + 1), "{root:e} is not the root");
    whole
}

fn square(n: u64) -> u128 {
    u128::from(n) * u128::from(n)
}

/// The code's guess a second time, the same operations in the same order, but for the answer to a NaN, which no double gives.
fn guess(bits: u64) -> u64 {
    let bits = bits % 0x0020_0000_0000_0000 + HALF;
    let x = f64::from_bits(bits);
    let [.., y] = reciprocals(bits);
    let s = x * y;
    let root = s + 0.5 * y * (x - s * s);
    2 * (root.to_bits() % LEAST_NORMAL + FRACTION)
}

/// 1 over the root of the double from 0.5 to 2 with these bits: at first, and after each of Newton's steps.
fn reciprocals(bits: u64) -> [f64; 4] {
    let half = 0.5 * f64::from_bits(bits);
    let newton = |y: f64| 1.5 * y - half * y * (y * y);
    let first = f64::from_bits(ROUGH - (bits >> 1));
    let second = newton(first);
    let third = newton(second);
    [first, second, third, newton(third)]
}

/// The code's tests of a guess a second time: what it is raised to, where that is the root.
fn corrected(scaled: u64, guess: u64) -> Option<u64> {
    let wide = u128::from(scaled) << 44;
    let squared = square(guess);
    if wide < squared || (wide >> 54) - (squared >> 54) >= 1024 {
        return None;
    }
    let mut root = guess;
    let mut rest = (wide - squared) as u64;
    for by in [2, 1] {
        let more = by * (2 * root + by);
        if more <= rest {
            root += by;
            rest -= more;
        }
    }
    (rest <= 2 * root).then_some(root)
}

/// Each normal exponent with the same number of significands.
fn every_exponent(roots: &mut Roots, draw: &mut Draw) -> String {
    let mut short = vec![0, 1, 2, 3, FRACTION, FRACTION - 1, FRACTION - 2];
    short.extend((0..52).flat_map(|place| [1 << place, (1 << place) - 1]));
    for field in 1..2047 {
        for i in 0..9_800 {
            let fraction = short.get(i).copied().unwrap_or_else(|| draw.bits() >> 12);
            roots.one(field << 52 | fraction);
        }
    }
    "; 2046 exponents".to_string()
}

/// Exact squares and rounded ones.
fn squares(roots: &mut Roots, draw: &mut Draw) -> String {
    for _ in 0..1_450_000 {
        // of at most 26 digits, so that the square has at most 52
        let short = (draw.bits() | 1 << 63) >> (38 + draw.below(26));
        let square = (short * short) as f64;
        // times an even power of two, from the least that leaves the square of 1 normal
        let field = (square.to_bits() >> 52) + 2 * draw.below(997) - 1022;
        roots.around(field << 52 | square.to_bits() & FRACTION, 3);
    }
    for _ in 0..2_000_000 {
        let long = f64::from_bits(draw.bits() >> 12 | (1023 - 510 + draw.below(1020)) << 52);
        roots.around((long * long).to_bits(), 2);
    }
    String::new()
}

/// Doubles whose root is near the middle between two doubles, which is half of an odd whole number q of 54 digits.
fn halfway_cases(roots: &mut Roots, draw: &mut Draw) -> String {
    for _ in 0..2_500_000 {
        let q = draw.bits() >> 10 | 1 << 53 | 1;
        let power = if square(q) >> 107 == 0 { 54 } else { 55 };
        let x = (square(q) >> power) as u64;
        let distance = square(q) - (u128::from(x) << power);
        assert!(x >> 52 == 1 && 0 < distance && distance < 1 << power, "{q:x} squared is not near {x:x}");
        // the two doubles that the square of q is between, and one further each way
        let bits = placed(x, power, draw);
        for neighbour in bits - 1..=bits + 2 {
            roots.one(neighbour);
        }
    }
    let middles = nearest_middles(roots, draw);
    // of 800,000 values of d: four in five have such a q for the even power, and three in five for the odd one
    assert!(middles > 1_000_000, "too few doubles nearest to a middle");
    format!("; {middles} significands whose root is the nearest to a middle")
}

/// The very nearest: x * 2^54 or x * 2^55 is q * q - d for a small d. Answers how many such x there are.
fn nearest_middles(roots: &mut Roots, draw: &mut Draw) -> u64 {
    let mut middles = 0;
    for d in (0..400_000).flat_map(|i| [8 * i + 1, -8 * i - 7]) {
        let root = root_modulo(d);
        for power in [54, 55] {
            let other = root.wrapping_add(1 << (power - 1));
            for q in [root, root.wrapping_neg(), other, other.wrapping_neg()] {
                let Some(x) = nearest(q % (1 << power), d, power) else { continue };
                middles += 1;
                for _ in 0..8 {
                    roots.one(placed(x, power, draw));
                }
            }
        }
    }
    middles
}

/// A number whose square is d modulo 2^55, for a d that is 1 modulo 8: bit by bit, since a bit added to the root at one place changes the square at the next place and above.
fn root_modulo(d: i64) -> u64 {
    let mut root = 1u64;
    for place in 3..55 {
        let wrong = root.wrapping_mul(root) ^ d as u64;
        root += (wrong >> place & 1) << (place - 1);
    }
    root
}

/// The x of 53 digits with x * 2^power = q * q - d, if q has 54 digits and x is so long.
fn nearest(q: u64, d: i64, power: u32) -> Option<u64> {
    let product = square(q) as i128 - i128::from(d);
    let x = product >> power;
    if q >> 53 != 1 || x >> 52 != 1 {
        return None;
    }
    assert!(q % 2 == 1 && x << power == product, "{q:x} squared less {d} is no multiple");
    Some(x as u64)
}

/// The significand x with any exponent that makes it x * 2^power times an even power of two.
fn placed(x: u64, power: u32, draw: &mut Draw) -> u64 {
    let field = 1 + u64::from(power % 2) + 2 * draw.below(1023);
    field << 52 | x & FRACTION
}

/// Every leading place, the least and the largest, any, and exact squares.
fn subnormals(roots: &mut Roots, draw: &mut Draw) -> String {
    for place in 0..52 {
        let leading = 1u64 << place;
        roots.around(leading, 1);
        for _ in 0..100_000 {
            roots.one(leading | draw.bits() & (leading - 1));
        }
    }
    for i in 1..=200_000 {
        roots.one(i);
        roots.one(LEAST_NORMAL - i);
    }
    for _ in 0..3_000_000 {
        roots.one(draw.bits() >> 12);
    }
    for _ in 0..200_000 {
        let short = (draw.bits() | 1 << 63) >> (38 + draw.below(24));
        roots.around(short * short, 3);
    }
    String::new()
}

/// The doubles around the places where the guess is worst or best, with exponents of every size: the guess takes them by twos, from 0.5 up to 2.
fn worst_cases(roots: &mut Roots, _draw: &mut Draw) -> String {
    let mut largest = [(0.0f64, 0u64); 4];
    for place in places() {
        let near = HALF.max(place - 120_000)..TWO.min(place + 120_000);
        let far = (17..53).flat_map(|digit| [place - (1 << digit), place + (1 << digit)]);
        for bits in near.chain(far.filter(|bits| (HALF..TWO).contains(bits))) {
            for (most, error) in largest.iter_mut().zip(errors(bits)) {
                if error.abs() > most.0.abs() {
                    *most = (error, bits);
                }
            }
            for two in [0, 1, 2, 255, 510, 511, 512, 767, 1020, 1021, 1022, 1023] {
                let pattern = (two << 53) + (bits - HALF);
                if (LEAST_NORMAL..INFINITY).contains(&pattern) {
                    roots.one(pattern);
                }
            }
        }
    }
    let [first, steps @ ..] = largest.map(|(error, bits)| format!("{error:.3e} at {bits:016x}"));
    format!("; the largest relative error at first {first}, after Newton's steps {}", steps.join(", "))
}

/// By what part the guess at 1 over the root is too large, at first and after each of Newton's steps; the processor's root is good to 1 in 10^16.
fn errors(bits: u64) -> [f64; 4] {
    let root = f64::from_bits(bits).sqrt();
    reciprocals(bits).map(|y| y.mul_add(root, -1.0))
}

/// Where the first guess's error is extreme or zero. The guess is a straight line in pieces, which end where its own exponent or that of the double changes;
/// Newton's steps leave the most where they find the most, and nothing where they find nothing.
fn places() -> Vec<u64> {
    let ends = [HALF, 2 * (ROUGH - ONE), ONE, TWO];
    let mut places = ends.to_vec();
    for piece in ends.windows(2) {
        let (low, high) = (piece[0], piece[1] - 1);
        let top = stationary(low, high);
        places.push(top);
        places.extend([(low, top), (top, high)].into_iter().filter_map(|(a, b)| zero(a, b)));
    }
    places
}

/// In a piece the guess is a - b * x, and the error (a - b * x) * sqrt(x) - 1 is stationary where 3 * b * x = a.
fn stationary(low: u64, high: u64) -> u64 {
    let [x, end] = [low, high].map(f64::from_bits);
    let [y, last] = [low, high].map(|bits| reciprocals(bits)[0]);
    let b = (y - last) / (end - x);
    let a = y + b * x;
    let top = (a / (3.0 * b)).to_bits();
    assert!(low < top && top < high, "no stationary place from {low:016x} to {high:016x}");
    top
}

/// Where the error changes its sign, if it does, by halving.
fn zero(mut low: u64, mut high: u64) -> Option<u64> {
    let positive = |bits| errors(bits)[0] > 0.0;
    if positive(low) == positive(high) {
        return None;
    }
    while high - low > 1 {
        let middle = low + (high - low) / 2;
        if positive(middle) == positive(low) {
            low = middle;
        } else {
            high = middle;
        }
    }
    Some(low)
}

/// Any bit patterns, positive and of both signs; infinities and NaN among them.
fn any_bits(roots: &mut Roots, draw: &mut Draw) -> String {
    for x in signed_short() {
        roots.one(x.to_bits());
    }
    for _ in 0..15_000_000 {
        roots.one(draw.bits());
        roots.one(draw.bits() >> 1);
    }
    String::new()
}
