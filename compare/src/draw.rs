//! Inputs, drawn from a fixed seed so that every run is the same run.

/// xorshift64*
pub struct Draw(u64);

impl Draw {
    pub fn new(seed: u64) -> Draw {
        Draw(seed)
    }

    pub fn bits(&mut self) -> u64 {
        self.0 ^= self.0 >> 12;
        self.0 ^= self.0 << 25;
        self.0 ^= self.0 >> 27;
        self.0.wrapping_mul(0x2545_f491_4f6c_dd1d)
    }

    pub fn below(&mut self, n: u64) -> u64 {
        self.bits() % n
    }

    /// from 0 to 1
    pub fn unit(&mut self) -> f64 {
        (self.bits() >> 11) as f64 / (1u64 << 53) as f64
    }

    pub fn between(&mut self, low: f64, high: f64) -> f64 {
        low + self.unit() * (high - low)
    }

    /// of every magnitude from low to high alike
    pub fn logarithmic(&mut self, low: f64, high: f64) -> f64 {
        (low.ln() + self.unit() * (high.ln() - low.ln())).exp().clamp(low, high)
    }

    /// any double: any bit pattern, a subnormal, a neighbour of a short number, a plausible one
    pub fn double(&mut self) -> f64 {
        match self.below(6) {
            0 => f64::from_bits(self.bits()),
            1 => f64::from_bits(self.bits() & (1 << 63) | self.bits() >> (12 + self.below(52))),
            2 => self.neighbour(),
            3 => self.between(-93.0, 8.0),
            4 => f64::from_bits((0x3ff0_0000_0000_0000u64 - 32).wrapping_add(self.below(64))),
            _ => self.logarithmic(1.0e-8, 2000.0),
        }
    }

    fn neighbour(&mut self) -> f64 {
        let short = SHORT[self.below(SHORT.len() as u64) as usize];
        f64::from_bits(short.to_bits().wrapping_add(self.below(5)).wrapping_sub(2))
    }
}

/// The numbers that every comparison tries first, with both signs.
pub const SHORT: [f64; 18] = [
    0.0,
    5.0e-324,
    2.2250738585072009e-308,
    2.2250738585072014e-308,
    1.0e-300,
    1.0e-8,
    0.25,
    0.5,
    1.0,
    1.5,
    2.0,
    2.25,
    3.0,
    101.0,
    9007199254740992.0,
    1.0e300,
    1.7976931348623157e308,
    f64::INFINITY,
];

/// These with both signs, and NaN.
pub fn signed_short() -> Vec<f64> {
    let mut list: Vec<f64> = SHORT.iter().flat_map(|&x| [x, -x]).collect();
    list.push(f64::NAN);
    list
}

/// The same double: bit for bit, or both NaN (Rust leaves a NaN's bits open).
pub fn same(a: f64, b: f64) -> bool {
    a.to_bits() == b.to_bits() || (a.is_nan() && b.is_nan())
}
