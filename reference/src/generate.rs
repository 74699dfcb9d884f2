//! Seeded problems, calls and files for comparisons with another
//! implementation.

mod brackets;
mod bus;
mod calls;
mod factors;
mod files;
mod lopsided;
pub mod numbers;
mod points;
mod pools;
mod problems;
mod rides;
mod runs;
mod simulated;

pub use bus::{BusCall, Operation, RawBus};
pub use calls::{BoxCall, FactorCall, JudgeCall, StiffnessCall, VectorCall, WriteCall};
pub use files::{DrawnFile, Field, ReadCall};
pub use points::{Fractions, Point};
pub use pools::{PoolCall, RawPool};
pub use rides::{GatherCall, SumsCall, EDGES};
pub use runs::{run_ranges, RunRange};
pub use simulated::{Ride, Road};

use crate::problem::Bounds;
use crate::random::Random;
use crate::sums::LentSums;

/// The kinds of problem, each thin (L = U) or wide.
#[derive(Clone, Copy, Debug, PartialEq, Eq)]
pub enum ProblemKind {
    /// Entries of one digit, so that tried vectors often show
    Small,
    /// Far from the boundary of definiteness, on its inner side
    Definite,
    /// At the boundary of definiteness, on either side
    Boundary,
    /// Diagonal entries from 1 to 2^20
    Scaled,
    /// Entries of ±2^20, ±(2^20 − 1), 0 and ±1
    Extreme,
}

/// Every kind.
pub const KINDS: [ProblemKind; 5] = [
    ProblemKind::Small,
    ProblemKind::Definite,
    ProblemKind::Boundary,
    ProblemKind::Scaled,
    ProblemKind::Extreme,
];

/// A problem as a caller holds it, before any check.
#[derive(Clone, Debug, PartialEq, Eq)]
pub struct RawProblem {
    /// n
    pub order: usize,
    /// L, row by row
    pub low: Vec<i64>,
    /// U, row by row
    pub high: Vec<i64>,
    /// a_low
    pub linear_low: Vec<i64>,
    /// a_high
    pub linear_high: Vec<i64>,
    /// α
    pub limit: i64,
    /// c
    pub centre: Vec<i64>,
}

impl RawProblem {
    /// The bounds, where checks 3 to 5 let them through.
    fn bounds(&self) -> Option<Bounds> {
        Bounds::read(self.order, &self.low, &self.high).ok()
    }

    /// The same as running sums that are lent, the limit as a running limit.
    pub fn lend(&mut self) -> LentSums<'_> {
        LentSums {
            low: &mut self.low,
            high: &mut self.high,
            linear_low: &mut self.linear_low,
            linear_high: &mut self.linear_high,
            running_limit: std::slice::from_mut(&mut self.limit),
        }
    }
}

/// The generator. The same seed gives the same problems, calls and files.
#[derive(Clone, Debug)]
pub struct Generator {
    random: Random,
}

impl Generator {
    /// A generator with a seed.
    pub fn new(seed: u64) -> Generator {
        Generator {
            random: Random::new(seed),
        }
    }

    /// A problem of any kind and order, thin or wide, that checks 1 to 5 and 16
    /// let through. Now and then its halves are rounded apart.
    pub fn any_problem(&mut self) -> RawProblem {
        let kind = self.random.pick(&KINDS);
        let order = self.random.between(1, 8) as usize;
        let wide = self.random.one_in(2);
        let problem = self.problem(kind, order, wide);
        self.perhaps_apart(problem)
    }
}
