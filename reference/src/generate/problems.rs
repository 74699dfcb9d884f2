//! Problems that checks 1 to 5 and 16 let through.

use super::{Generator, ProblemKind, RawProblem};
use crate::enclosure::greatest_step;
use crate::factoring::whole_root;
use crate::problem::{pairs, Bounds, CENTRE_RANGE, ENTRY_RANGE, LIMIT_RANGE, LINEAR_RANGE};

const ENTRY: i64 = ENTRY_RANGE as i64;
const LINEAR: i64 = LINEAR_RANGE as i64;
const LIMIT: i64 = LIMIT_RANGE as i64;
const CENTRE: i64 = CENTRE_RANGE as i64;

/// A matrix with t = 1 and t(3) = 0.
const STEPLESS: [[i64; 3]; 3] = [
    [609_851, 712_448, 1296],
    [712_448, 834_162, 1529],
    [1296, 1529, 4],
];

impl Generator {
    /// A problem of the kind and order given. Its tables are symmetric.
    pub fn problem(&mut self, kind: ProblemKind, order: usize, wide: bool) -> RawProblem {
        let middle = match kind {
            ProblemKind::Small => self.small(order),
            ProblemKind::Definite => self.definite(order),
            ProblemKind::Boundary => self.boundary(order),
            ProblemKind::Scaled => self.scaled(order),
            ProblemKind::Extreme => self.extreme(order),
        };
        let width = match (wide, kind) {
            (false, _) => 0,
            (true, ProblemKind::Extreme) => self.random.pick(&[1, 2 * ENTRY]),
            (true, _) => self.random.pick(&[1, 2, 5, 100]),
        };
        let (low, high) = self.widened(order, &middle, width);
        self.with_terms(order, low, high)
    }

    /// A thin problem of order 3 or more with t > 0 and t(k) = 0 for some k: a
    /// matrix that has it on three places of the diagonal, 2^20 on the others.
    pub(super) fn stepless(&mut self, order: usize) -> RawProblem {
        let first = self.random.index(order - 2);
        let table = self.symmetric(order, |_, i, j| {
            let inner = first..first + STEPLESS.len();
            if inner.contains(&i) && inner.contains(&j) {
                STEPLESS[i - first][j - first]
            } else if i == j {
                ENTRY
            } else {
                0
            }
        });
        self.with_terms(order, table.clone(), table)
    }

    /// The problem of these bounds, with a centre, linear terms and a limit.
    pub(super) fn with_terms(&mut self, order: usize, low: Vec<i64>, high: Vec<i64>) -> RawProblem {
        let centre = self.centre(order);
        let linear = self.linear(order, &low, &centre);
        let (linear_low, linear_high) = self.linear_ends(&linear);
        let limit = self.limit(order, &low, &linear, &centre);
        RawProblem {
            order,
            low,
            high,
            linear_low,
            linear_high,
            limit,
            centre,
        }
    }

    /// A symmetric table from a rule for the places (i, j) with i ≤ j.
    pub(super) fn symmetric(
        &mut self,
        order: usize,
        mut rule: impl FnMut(&mut Self, usize, usize) -> i64,
    ) -> Vec<i64> {
        let mut table = vec![0; order * order];
        for (i, j) in pairs(order).filter(|(i, j)| i <= j) {
            let entry = rule(self, i, j).clamp(-ENTRY, ENTRY);
            table[i * order + j] = entry;
            table[j * order + i] = entry;
        }
        table
    }

    fn small(&mut self, order: usize) -> Vec<i64> {
        self.symmetric(order, |own, i, j| {
            if i == j {
                own.random.between(0, 12)
            } else {
                own.random.within(2)
            }
        })
    }

    /// B'B for random B with entries up to `spread`.
    fn gram(&mut self, order: usize, spread: i64) -> Vec<i64> {
        let rows = order + self.random.index(2);
        let b: Vec<i64> = (0..rows * order)
            .map(|_| self.random.within(spread))
            .collect();
        self.symmetric(order, |_, i, j| {
            (0..rows).map(|k| b[k * order + i] * b[k * order + j]).sum()
        })
    }

    fn definite(&mut self, order: usize) -> Vec<i64> {
        let spread = self.random.pick(&[1, 5, 30, 200]);
        let shift = self.random.pick(&[1, 20, 5000, 100_000]);
        let mut table = self.gram(order, spread);
        for i in 0..order {
            table[i * order + i] = (table[i * order + i] + shift).min(ENTRY);
        }
        table
    }

    /// A definite table with as much taken off diagonal entries as factoring
    /// allows, give or take little.
    fn boundary(&mut self, order: usize) -> Vec<i64> {
        let mut table = self.definite(order);
        let mut places: Vec<usize> = (0..order).collect();
        if self.random.one_in(2) {
            places = vec![self.random.index(order)];
        } else if self.random.one_in(2) {
            places = vec![order - 1];
        }
        let bounds = Bounds::read(order, &table, &table).expect("a symmetric table in range");
        let step = greatest_step(&bounds, &places) as i64 + self.random.between(-1, 2);
        for i in places {
            table[i * order + i] -= step;
        }
        table
    }

    /// Diagonal entries of very different size, the others below their
    /// geometric means.
    fn scaled(&mut self, order: usize) -> Vec<i64> {
        let diagonal: Vec<i64> = (0..order)
            .map(|_| 1 << self.random.between(0, 20))
            .collect();
        let share = self.random.pick(&[1, 2, order as i64]);
        self.symmetric(order, |own, i, j| {
            let mean = whole_root(i128::from(diagonal[i] * diagonal[j])) as i64;
            if i == j {
                diagonal[i]
            } else {
                own.random.within(mean) / share
            }
        })
    }

    fn extreme(&mut self, order: usize) -> Vec<i64> {
        let choices = [-ENTRY, -ENTRY + 1, -1, 0, 0, 1, ENTRY - 1, ENTRY];
        let diagonal_top = self.random.one_in(2);
        self.symmetric(order, |own, i, j| {
            if i == j && diagonal_top {
                ENTRY - own.random.between(0, 1)
            } else {
                own.random.pick(&choices)
            }
        })
    }

    /// Low and high tables around a table, up to `width` apart.
    fn widened(&mut self, order: usize, middle: &[i64], width: i64) -> (Vec<i64>, Vec<i64>) {
        let low = self.symmetric(order, |own, i, j| {
            middle[i * order + j] - own.random.between(0, width)
        });
        let high = self.symmetric(order, |own, i, j| {
            let free = if own.random.one_in(3) { 0 } else { width };
            low[i * order + j] + own.random.between(0, free)
        });
        (low, high)
    }

    fn centre(&mut self, order: usize) -> Vec<i64> {
        let range = self.random.pick(&[0, 0, 1, 10, 200, CENTRE]);
        (0..order).map(|_| self.random.within(range)).collect()
    }

    /// Linear terms: zero, near −M·c, or random up to the ends of the range.
    fn linear(&mut self, order: usize, low: &[i64], centre: &[i64]) -> Vec<i64> {
        let noise = self.random.pick(&[0, 3, 1000, 1 << 20, 1 << 20, LINEAR]);
        let follows = !self.random.one_in(4);
        let mut linear = vec![];
        for row in low.chunks(order) {
            let product: i64 = row.iter().zip(centre).map(|(m, c)| m * c).sum();
            let base = if follows { -product } else { 0 };
            let end = self.random.pick(&[-noise, noise, noise + 1]);
            let free = self.random.within(noise);
            let offset = if self.random.one_in(4) { end } else { free };
            linear.push((base + offset).clamp(-LINEAR, LINEAR));
        }
        linear
    }

    /// The two ends of linear terms: equal in half of all problems, otherwise up
    /// to a width to either side.
    fn linear_ends(&mut self, linear: &[i64]) -> (Vec<i64>, Vec<i64>) {
        let width = self
            .random
            .pick(&[1, 5, 1000, 1 << 16, 1 << 20, 2 * LINEAR]);
        let width = if self.random.one_in(2) { 0 } else { width };
        let mut end = |sign: i64| -> Vec<i64> {
            let moved = |term: &i64| term + sign * self.random.between(0, width);
            let terms = linear.iter().map(moved);
            terms.map(|term| term.clamp(-LINEAR, LINEAR)).collect()
        };
        (end(-1), end(1))
    }

    /// A limit near 2a'c + c'Lc, where D is near 0, or anywhere.
    fn limit(&mut self, order: usize, low: &[i64], linear: &[i64], centre: &[i64]) -> i64 {
        let mut near: i128 = 0;
        for (i, row) in low.chunks(order).enumerate() {
            near += i128::from(2 * linear[i]) * i128::from(centre[i]);
            for (m, c) in row.iter().zip(centre) {
                near += i128::from(m * c) * i128::from(centre[i]);
            }
        }
        let range = self.random.pick(&[0, 1, 20, 1 << 16, 1 << 36, LIMIT]);
        let base = if self.random.one_in(5) { 0 } else { near };
        let limit = base + i128::from(self.random.within(range));
        limit.clamp(-LIMIT_RANGE, LIMIT_RANGE) as i64
    }
}
