//! Problems for the bracket of the stiffness: bounds below, at and above 0, vectors with
//! the same quotient, matrices that are definite by too little to be factored, and the
//! ends of the range.

use super::{Generator, RawProblem};
use crate::problem::{table_size, ENTRY_RANGE};
use crate::stiffness::least_quotient;

const ENTRY: i64 = ENTRY_RANGE as i64;

impl RawProblem {
    /// The problem with a number taken off L(i,i) and U(i,i) for all i, where that leaves
    /// them in their range.
    pub fn lowered(&self, step: i64) -> Option<RawProblem> {
        let mut lowered = self.clone();
        for table in [&mut lowered.low, &mut lowered.high] {
            for entry in table.iter_mut().step_by(self.order + 1) {
                *entry -= step;
            }
        }
        let mut entries = lowered.low.iter().chain(&lowered.high);
        let within = entries.all(|entry| entry.abs() <= ENTRY);
        within.then_some(lowered)
    }
}

impl Generator {
    /// A problem that checks 1 to 5 and 16 let through. Now and then its halves are
    /// rounded apart.
    pub fn bracket_problem(&mut self) -> RawProblem {
        let order = self.random.between(1, 8) as usize;
        let problem = match self.random.index(8) {
            0..=2 => return self.any_problem(),
            3 => return self.near_zero(),
            4 => self.barely_definite(order),
            5 => self.at_the_ends(order),
            _ => self.alike(order),
        };
        self.perhaps_apart(problem)
    }

    /// Any problem, with as much taken off its diagonal that v is from −2 to 2, where its
    /// entries stay in their range (R26.1).
    fn near_zero(&mut self) -> RawProblem {
        let problem = self.any_problem();
        let bounds = problem.bounds().expect("a problem that is let through");
        let step = least_quotient(&bounds) as i64 - self.random.within(2);
        problem.lowered(step).unwrap_or(problem)
    }

    /// B'B for an upper triangular B with 1 on its diagonal: definite, and mostly by less
    /// than factoring asks. Or with the last row of B left out: not definite, and mostly
    /// with no tried vector that shows it.
    fn barely_definite(&mut self, order: usize) -> RawProblem {
        let spread = self.random.pick(&[1, 2, 3, 30]);
        let rows = order - self.random.index(2);
        let drawn: Vec<i64> = (0..table_size(order))
            .map(|_| self.random.within(spread))
            .collect();
        let root = |i: usize, j: usize| match i.cmp(&j) {
            std::cmp::Ordering::Less => drawn[i * order + j],
            std::cmp::Ordering::Equal => 1,
            std::cmp::Ordering::Greater => 0,
        };
        let table = self.symmetric(order, |_, i, j| {
            (0..rows).map(|k| root(k, i) * root(k, j)).sum()
        });
        self.with_terms(order, table.clone(), table)
    }

    /// Entries at the ends of their range, the low ones −2^20 along a vector of signs or
    /// 2^20 on the diagonal alone; now and then one is another.
    fn at_the_ends(&mut self, order: usize) -> RawProblem {
        let signs: Vec<i64> = (0..order).map(|_| self.random.pick(&[1, -1])).collect();
        let (diagonal, wide) = (self.random.one_in(3), self.random.one_in(2));
        let changed = self.random.one_in(3);
        let low = self.symmetric(order, |own, i, j| {
            let end = match (diagonal, i == j) {
                (true, true) => ENTRY,
                (true, false) => 0,
                (false, _) => -ENTRY * signs[i] * signs[j],
            };
            let other = own
                .random
                .pick(&[-ENTRY, 1 - ENTRY, -1, 0, 1, ENTRY - 1, ENTRY]);
            if changed && own.random.one_in(8) {
                other
            } else {
                end
            }
        });
        let high = self.symmetric(order, |own, i, j| {
            if wide && own.random.one_in(2) {
                ENTRY
            } else {
                low[i * order + j]
            }
        });
        self.with_terms(order, low, high)
    }

    /// Diagonal entries next to each other and little beside them, so that many vectors
    /// have the same quotient.
    fn alike(&mut self, order: usize) -> RawProblem {
        let base = self.random.pick(&[-40, -3, 0, 1, 1, 2, 3, 9, 5000]);
        let beside = self.random.pick(&[0, 1, 1, 2]);
        let low = self.symmetric(order, |own, i, j| {
            if i == j {
                base + own.random.between(0, 2)
            } else {
                own.random.within(beside)
            }
        });
        let width = self.random.pick(&[0, 0, 1]);
        let high = self.symmetric(order, |own, i, j| {
            low[i * order + j] + own.random.between(0, width)
        });
        self.with_terms(order, low, high)
    }
}
