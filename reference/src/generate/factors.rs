//! Factors that are offered to the factor test, and problems that are made for one.

use std::cmp::Ordering;

use super::{Generator, RawProblem};
use crate::factoring::{factor, Factoring};
use crate::problem::{square, table_size, Bounds, Table, FACTOR_RANGE};
use crate::residual::over;

const RANGE: i64 = FACTOR_RANGE as i64;

/// One problem of the factor test in this many is made for its factor.
const EXACT_SHARE: usize = 8;

/// A factor is scaled by 2^16.
const SCALE: i64 = 1 << 16;

/// A diagonal entry is raised by less than 2^26 in all.
const RAISE_BITS: u32 = 26;

impl Generator {
    /// A problem that checks 1 to 5 and 16 let through, and a factor that is offered for
    /// it, which 6 may refuse.
    pub fn offer(&mut self) -> (RawProblem, Vec<i64>) {
        if self.random.one_in(EXACT_SHARE) {
            let (problem, factor) = self.made_for_factor();
            return (self.perhaps_apart(problem), factor);
        }
        let problem = self.any_problem();
        let factor = self.offered_factor(&problem);
        (problem, factor)
    }

    /// A factor: the right one, one that is just accepted or just not, a changed one, a
    /// random one or an improper one.
    fn offered_factor(&mut self, problem: &RawProblem) -> Vec<i64> {
        let order = problem.order;
        let bounds = problem.bounds();
        let mut factor = match bounds.as_ref().map(factor) {
            Some(Factoring::Ends(factor)) => narrow(&factor),
            Some(Factoring::Stops { partial, .. }) => completed(&narrow(&partial), order),
            None => vec![0; table_size(order)],
        };
        let place = self.random.index(factor.len());
        match (self.random.index(10), bounds) {
            (0..=2, _) => {}
            (3 | 4, _) => {
                let change = self.random.within(1 << 14);
                self.change_all(&mut factor, order, change);
            }
            (5, _) => {
                let range = self.random.pick(&[1000, RANGE]);
                let random: Vec<i64> = factor.iter().map(|_| self.random.within(range)).collect();
                factor = completed(&random, order);
            }
            (6, _) => factor[place] = self.beyond(FACTOR_RANGE),
            (7 | 8, Some(bounds)) => self.raise(&mut factor, &bounds),
            _ => factor[place] = self.random.pick(&[0, -1, 1, i64::MIN]),
        }
        factor
    }

    /// Adds up to `change` to each entry, the factor kept proper.
    fn change_all(&mut self, factor: &mut Vec<i64>, order: usize, change: i64) {
        for entry in factor.iter_mut() {
            *entry += self.random.between(change.min(0), change.max(0));
        }
        *factor = completed(factor, order);
    }

    /// Raises a diagonal entry until one more would have a row fall short (R7.7), or by
    /// that one more.
    fn raise(&mut self, factor: &mut [i64], bounds: &Bounds) {
        let place = self.random.index(bounds.order) * (bounds.order + 1);
        for bit in (0..RAISE_BITS).rev() {
            let mut raised = factor.to_vec();
            raised[place] += 1 << bit;
            let enough = over(bounds, &square(bounds.order, &raised)) >= 0;
            if enough && raised[place] <= RANGE {
                factor[place] = raised[place];
            }
        }
        factor[place] = (factor[place] + self.random.between(0, 1)).min(RANGE);
    }

    /// A thin problem whose matrix is the product of a factor, so that the residual is 0;
    /// then with some of the diagonal raised, and now and then an entry of the factor
    /// changed by little.
    fn made_for_factor(&mut self) -> (RawProblem, Vec<i64>) {
        let order = self.random.between(1, 8) as usize;
        let spread = self.random.pick(&[1, 3, 30, 300]);
        let drawn: Vec<i64> = (0..table_size(order))
            .map(|_| self.random.within(spread))
            .collect();
        let root = completed(&drawn, order);
        let mut table = self.symmetric(order, |_, i, j| {
            (0..order)
                .map(|k| root[k * order + i] * root[k * order + j])
                .sum()
        });
        for i in 0..order {
            table[i * order + i] += self.random.pick(&[0, 0, 0, 1, 2]);
        }
        let mut factor: Vec<i64> = root.iter().map(|entry| SCALE * entry).collect();
        if self.random.one_in(2) {
            let (i, j) = (self.random.index(order), self.random.index(order));
            let step = self.random.pick(&[1, 1, 2, 100]);
            factor[i.min(j) * order + i.max(j)] += self.random.pick(&[-step, step]);
        }
        (self.with_terms(order, table.clone(), table), factor)
    }
}

/// The table made upper triangular with a positive diagonal, in range.
fn completed(table: &[i64], order: usize) -> Vec<i64> {
    let entry = |place: usize| {
        let (i, j) = (place / order, place % order);
        match i.cmp(&j) {
            Ordering::Greater => 0,
            Ordering::Equal => table[place].saturating_abs().clamp(1, RANGE),
            Ordering::Less => table[place].clamp(-RANGE, RANGE),
        }
    };
    (0..table.len()).map(entry).collect()
}

fn narrow(table: &Table) -> Vec<i64> {
    table.concat().iter().map(|entry| *entry as i64).collect()
}
