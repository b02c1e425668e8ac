//! How many inputs a comparison tried, and the first that differ.

pub struct Tally {
    what: &'static str,
    tried: u64,
    differ: u64,
}

impl Tally {
    pub fn new(what: &'static str) -> Tally {
        Tally { what, tried: 0, differ: 0 }
    }

    #[inline]
    pub fn check(&mut self, same: bool, inputs: impl FnOnce() -> String) {
        self.tried += 1;
        if !same {
            self.differs(inputs);
        }
    }

    /// A difference that is not of one input.
    pub fn differs(&mut self, told: impl FnOnce() -> String) {
        self.differ += 1;
        if self.differ <= 5 {
            println!("  {} differs at {}", self.what, told());
        }
    }

    pub fn tried(&self) -> u64 {
        self.tried
    }

    /// Counts what another has counted, too.
    pub fn add(&mut self, other: &Tally) {
        self.tried += other.tried;
        self.differ += other.differ;
    }

    /// Prints the line, with whatever else is to be said, and answers whether nothing differed.
    pub fn told(self, more: &str) -> bool {
        println!("{}: {} compared, {} differ{}", self.what, self.tried, self.differ, more);
        self.differ == 0
    }
}
