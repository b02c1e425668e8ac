//! The eleven pair searches, each as Climboat, the test copy and the original crate have it, and the states at which they are compared.

use crate::bars::{self, TimeBar};
use crate::climboat::{Pair, Record, LARGEST_LIMIT};
use crate::draw::Draw;
use crate::equations::{most, region_1, region_2, region_5};
use crate::patience::Outcome;
use crate::question::Question;
use copy::r1::region1_pair_ext as copy1;
use copy::r2::region2_pair_ext as copy2;
use copy::r5::region5_pT as copy5;
use copy::r5::region5_pair_ext as copy5_pairs;
use copy::run::Run;
use original::common::boundaries::{B23_T2p, B23_p2T};
use original::r1::region1_pT as r1;
use original::r1::region1_pair_ext as pairs1;
use original::r2::region2_pT as r2;
use original::r2::region2_pair_ext as pairs2;
use original::r4::region4_sat_pT::{T_saturation, p_saturation};
use original::r5::region5_pair_ext as pairs5;

pub type Function = fn(f64, f64) -> f64;

/// The original's own limit, MAX_ITER.
pub const LIMIT: u32 = 20_000;

pub struct Search {
    pub name: &'static str,
    pub region: u32,
    pub pair: Pair,
    /// bisection's narrow rule, the width that a bracket with this upper end stays below; none for Brent's search
    pub width: Option<fn(f64) -> f64>,
    /// between which ends, for the input that is fixed
    pub ends: fn(f64) -> (f64, f64),
    /// the original's; of region 5, which has another order of operations, the test copy's
    pub property: Function,
    pub copys: fn(f64, f64, i32) -> Run,
    pub rusts: Function,
    /// how long it may take
    pub time: Option<TimeBar>,
}

#[rustfmt::skip]
pub const SEARCHES: [Search; 11] = [
    Search { name: "region 1 (p,v) to T", region: 1, pair: Pair::Pv, width: Some(|_| 1.0e-6), ends: |p| (273.15, if p >= 16.5291643 { 623.15 } else { T_saturation(p) }), property: r1::pT2v_reg1, copys: copy1::pv2T_reg1, rusts: pairs1::pv2T_reg1, time: Some(bars::SEARCH) },
    Search { name: "region 1 (T,v) to p", region: 1, pair: Pair::Tv, width: None, ends: |t| (p_saturation(t), 100.0), property: r1::pT2v_reg1, copys: copy1::Tv2p_reg1, rusts: pairs1::Tv2p_reg1, time: Some(bars::SEARCH) },
    Search { name: "region 1 (T,h) to p", region: 1, pair: Pair::Th, width: None, ends: |t| (p_saturation(t), 100.0), property: r1::pT2h_reg1, copys: copy1::Th2p_reg1, rusts: pairs1::Th2p_reg1, time: Some(bars::SEARCH) },
    Search { name: "region 1 (T,s) to p", region: 1, pair: Pair::Ts, width: None, ends: |t| (p_saturation(t), 100.0), property: r1::pT2s_reg1, copys: copy1::Ts2p_reg1, rusts: pairs1::Ts2p_reg1, time: Some(bars::SEARCH) },
    Search { name: "region 2 (p,v) to T", region: 2, pair: Pair::Pv, width: None, ends: |p| (least(p), 1073.15), property: r2::pT2v_reg2, copys: copy2::pv2T_reg2, rusts: pairs2::pv2T_reg2, time: Some(bars::SEARCH) },
    Search { name: "region 2 (T,v) to p", region: 2, pair: Pair::Tv, width: Some(|upper| 1.0e-6 * upper), ends: |_| (1.0e-8, 100.0), property: r2::pT2v_reg2, copys: copy2::Tv2p_reg2, rusts: pairs2::Tv2p_reg2, time: Some(bars::SEARCH) },
    Search { name: "region 2 (T,h) to p", region: 2, pair: Pair::Th, width: None, ends: |_| (1.0e-8, 100.0), property: r2::pT2h_reg2, copys: copy2::Th2p_reg2, rusts: pairs2::Th2p_reg2, time: Some(bars::SEARCH) },
    Search { name: "region 2 (T,s) to p", region: 2, pair: Pair::Ts, width: None, ends: |t| (1.0e-8, highest(t)), property: r2::pT2s_reg2, copys: copy2::Ts2p_reg2, rusts: pairs2::Ts2p_reg2, time: Some(bars::SEARCH_BY_LOGARITHM) },
    Search { name: "region 5 (T,v) to p", region: 5, pair: Pair::Tv, width: None, ends: |_| (1.0e-8, 50.0), property: copy5::pT2v_reg5, copys: copy5_pairs::Tv2p_reg5, rusts: pairs5::Tv2p_reg5, time: None },
    Search { name: "region 5 (T,h) to p", region: 5, pair: Pair::Th, width: None, ends: |_| (1.0e-8, 50.0), property: copy5::pT2h_reg5, copys: copy5_pairs::Th2p_reg5, rusts: pairs5::Th2p_reg5, time: None },
    Search { name: "region 5 (T,s) to p", region: 5, pair: Pair::Ts, width: None, ends: |_| (1.0e-8, 50.0), property: copy5::pT2s_reg5, copys: copy5_pairs::Ts2p_reg5, rusts: pairs5::Ts2p_reg5, time: None },
];

pub fn search(region: u32, pair: Pair) -> &'static Search {
    SEARCHES.iter().find(|search| search.region == region && search.pair == pair).expect("one of the eleven")
}

/// The highest pressure of region 2 at t, beyond its range as the original has it: it keeps its own to itself.
fn highest(t: f64) -> f64 {
    if t >= 273.15 {
        most(t)
    } else {
        B23_T2p(t)
    }
}

/// The lowest temperature of region 2 at p, likewise.
fn least(p: f64) -> f64 {
    if p < 0.000611213 {
        273.15
    } else if p <= p_saturation(623.15) {
        T_saturation(p)
    } else {
        B23_p2T(p)
    }
}

impl Search {
    pub fn seeks_t(&self) -> bool {
        self.pair == Pair::Pv
    }

    pub fn bisection(&self) -> bool {
        self.width.is_some()
    }

    pub fn question(&self, fixed: f64, target: f64, limit: u32) -> Question {
        Question::Search(self.pair, self.region, fixed, target, limit)
    }

    pub fn ours(&self, fixed: f64, target: f64, limit: u32) -> Record {
        self.question(fixed, target, limit).climboat()
    }

    /// Whether an outcome under the original's limit is the same record under the largest, and a larger limit is refused.
    pub fn stays(&self, fixed: f64, target: f64, ours: &Record) -> bool {
        let too_large = Outcome::of(self.question(fixed, target, LARGEST_LIMIT + 1));
        self.ours(fixed, target, LARGEST_LIMIT).same(ours) && too_large.stands()
    }

    /// (p,T) of the input that is fixed and a point x of the search.
    pub fn state(&self, fixed: f64, x: f64) -> (f64, f64) {
        if self.seeks_t() {
            (fixed, x)
        } else {
            (x, fixed)
        }
    }

    /// The property at x.
    pub fn at(&self, fixed: f64, x: f64) -> f64 {
        let (p, t) = self.state(fixed, x);
        (self.property)(p, t)
    }

    /// Document 01's residual at x.
    pub fn residual(&self, fixed: f64, target: f64, x: f64) -> f64 {
        let found = self.at(fixed, x);
        if self.bisection() {
            (target - found) / target
        } else {
            target - found
        }
    }

    /// Whether the checks 1, 2, 3 and 4 let the inputs through.
    pub fn passes(&self, fixed: f64, target: f64) -> bool {
        let range = match (self.region, self.seeks_t()) {
            (1, true) => 0.000611212677444..=100.0,
            (1, false) => 273.15..=623.15,
            (_, true) => 1.0e-8..=100.0,
            (2, false) => 273.15..=1073.15,
            (_, false) => 1073.15..=2273.15,
        };
        let volume = matches!(self.pair, Pair::Pv | Pair::Tv);
        range.contains(&fixed) && target.is_finite() && (target > 0.0 || !volume)
    }

    /// The (p,T) rule.
    pub fn inside(&self, (p, t): (f64, f64)) -> bool {
        match self.region {
            1 => (273.15..=623.15).contains(&t) && (p_saturation(t)..=100.0).contains(&p),
            2 => (273.15..=1073.15).contains(&t) && (1.0e-8..=100.0).contains(&p) && p <= most(t),
            _ => (1073.15..=2273.15).contains(&t) && (1.0e-8..=50.0).contains(&p),
        }
    }

    /// The input that is fixed and the point sought, of 50,000 states uniform in p, 50,000 logarithmic and 40,000 at corners and edges.
    pub fn states(&self, draw: &mut Draw) -> Vec<(f64, f64)> {
        let kinds = [0; 50_000].into_iter().chain([1; 50_000]).chain([2; 40_000]);
        kinds.map(|kind| self.drawn(draw, kind)).collect()
    }

    pub fn drawn(&self, draw: &mut Draw, kind: u64) -> (f64, f64) {
        let (p, t) = match self.region {
            1 => region_1(draw, kind),
            2 => region_2(draw, kind),
            _ => region_5(draw, kind),
        };
        if self.seeks_t() {
            (p, t)
        } else {
            (t, p)
        }
    }
}
