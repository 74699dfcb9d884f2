//! Problems whose upper and lower halves differ: R2.10 and R4.5.

use super::numbers::is_lopsided;
use super::{Generator, RawProblem};
use crate::problem::{mended, pairs, square, Table, ENTRY_RANGE};

const ENTRY: i64 = ENTRY_RANGE as i64;

/// One problem in this many has halves rounded apart.
const LOPSIDED_SHARE: usize = 3;

/// How far a half is moved, at most; the last one brings it to the end of its range.
const STEPS: [i64; 6] = [1, 1, 1, 5, 1000, 2 * ENTRY];

impl RawProblem {
    /// The same problem with mended tables (R2.10), whether or not it is let through.
    pub fn mended(&self) -> RawProblem {
        let [low, high] = [&self.low, &self.high].map(|table| square(self.order, table));
        let (low, high) = mended(&low, &high);
        let numbers = |table: &Table| table.concat().iter().map(|entry| *entry as i64).collect();
        RawProblem {
            low: numbers(&low),
            high: numbers(&high),
            ..self.clone()
        }
    }

    /// Whether both tables are symmetric.
    pub fn is_symmetric(&self) -> bool {
        !is_lopsided(&self.low) && !is_lopsided(&self.high)
    }
}

impl Generator {
    /// A symmetric problem with its halves rounded apart: of some pairs of places one
    /// half of L is lower, and one half of U higher. Mended it is the problem given.
    pub fn rounded_apart(&mut self, problem: &RawProblem) -> RawProblem {
        let order = problem.order;
        let mut apart = problem.clone();
        for (i, j) in pairs(order).filter(|(i, j)| i < j) {
            let halves = [i * order + j, j * order + i];
            // Either half, or none
            if let Some(place) = halves.get(self.random.index(3)) {
                apart.low[*place] = (apart.low[*place] - self.step_apart()).max(-ENTRY);
            }
            if let Some(place) = halves.get(self.random.index(3)) {
                apart.high[*place] = (apart.high[*place] + self.step_apart()).min(ENTRY);
            }
        }
        apart
    }

    /// The problem, or now and then the same with its halves rounded apart.
    pub(super) fn perhaps_apart(&mut self, problem: RawProblem) -> RawProblem {
        if self.random.one_in(LOPSIDED_SHARE) {
            self.rounded_apart(&problem)
        } else {
            problem
        }
    }

    /// Brings a pair of places (i,j) and (j,i), i ≠ j, to leave no number, though at
    /// each of both L is not above U: L of one place above U of the other.
    pub fn leave_no_number(&mut self, problem: &mut RawProblem, (i, j): (usize, usize)) {
        let order = problem.order;
        let (place, other) = (i * order + j, j * order + i);
        if self.random.one_in(2) {
            let above = problem.high[other].saturating_add(self.step_apart());
            problem.low[place] = above;
            problem.high[place] = problem.high[place].max(above);
        } else {
            let below = problem.low[other].saturating_sub(self.step_apart());
            problem.high[place] = below;
            problem.low[place] = problem.low[place].min(below);
        }
    }

    /// Two places of a table that are mirror images, in either order; `None` at order 1.
    pub(super) fn mirror_images(&mut self, order: usize) -> Option<(usize, usize)> {
        let i = self.random.index(order);
        let others = order - 1;
        (others > 0).then(|| (i, (i + 1 + self.random.index(others)) % order))
    }

    fn step_apart(&mut self) -> i64 {
        let most = self.random.pick(&STEPS);
        if most > ENTRY {
            most
        } else {
            self.random.between(1, most)
        }
    }
}
