//! Problems pooled into running sums: R27.

use crate::problem::{check_lengths, check_order, table_size};
use crate::refusal::{require, Refusal};
use crate::sums::{LentSums, Sums};

/// R27.1: a pool takes 1 to so many problems.
pub const MOST_PROBLEMS: usize = 64;

/// R27.2: the six lists that problems are handed over in.
#[derive(Clone, Copy, Debug)]
#[allow(missing_docs)]
pub struct Lists<'a> {
    pub orders: &'a [i64],
    pub lows: &'a [i64],
    pub highs: &'a [i64],
    pub linear_lows: &'a [i64],
    pub linear_highs: &'a [i64],
    pub limits: &'a [i64],
}

/// What comes of adding problems one after the other (R27.4).
#[derive(Clone, Debug, PartialEq, Eq)]
pub struct Adding {
    /// Whether it halved the sums, of each problem that was added
    pub halved: Vec<bool>,
    /// The sums with all problems in them, or where 18 refuses the next one
    pub outcome: Result<Sums, Refusal>,
}

/// Checks 1 and 2 of n and of the list of orders (R5.20, R27.2, R27.3), then the order.
pub fn check_orders(n: i64, orders: &[i64]) -> Result<usize, Refusal> {
    let order = check_order(n)?;
    // In a list of another count no order is examined.
    let counted = (1..=MOST_PROBLEMS).contains(&orders.len());
    require(counted, Refusal::Length)?;
    for each in orders {
        check_order(*each)?;
    }
    require(orders.iter().all(|each| *each == n), Refusal::Length)?;
    Ok(order)
}

impl Lists<'_> {
    /// The sizes, and those that they have to have (R15.3). The list of orders says how
    /// many problems there are.
    fn sizes(&self, order: usize) -> [(usize, usize); 5] {
        let count = self.orders.len();
        [
            (self.lows.len(), count * table_size(order)),
            (self.highs.len(), count * table_size(order)),
            (self.linear_lows.len(), count * order),
            (self.linear_highs.len(), count * order),
            (self.limits.len(), count),
        ]
    }

    /// Checks 3, 4, 5 and 16 of problem k, then the problem, mended.
    fn problem(&self, order: usize, k: usize) -> Result<Sums, Refusal> {
        let (table, terms) = (table_size(order), order);
        let tables = k * table..(k + 1) * table;
        let ends = k * terms..(k + 1) * terms;
        Sums::read(
            order,
            &self.lows[tables.clone()],
            &self.highs[tables],
            &self.linear_lows[ends.clone()],
            &self.linear_highs[ends],
            self.limits[k],
        )
    }
}

/// All checks but 18 (R5.20), then the sums and the problems, mended.
pub fn read(n: i64, sums: &LentSums, lists: &Lists) -> Result<(Sums, Vec<Sums>), Refusal> {
    let order = check_orders(n, lists.orders)?;
    check_lengths(&sums.sizes(order))?;
    check_lengths(&lists.sizes(order))?;
    let mut all = vec![sums.read(order)];
    all.extend((0..lists.orders.len()).map(|k| lists.problem(order, k)));
    // Each one's refusal is the first of its own checks that fails. A check that one of
    // them fails comes before a later check of any other.
    for check in [
        Refusal::Range,
        Refusal::Crossed,
        Refusal::Lopsided,
        Refusal::Reversed,
    ] {
        require(!all.contains(&Err(check)), check)?;
    }
    let mut passed = all.into_iter().map(|one| one.expect("all checks passed"));
    let sums = passed.next().expect("the sums are the first");
    Ok((sums, passed.collect()))
}

/// R27.4: adds problems to sums, one after the other.
pub fn add_all(sums: Sums, problems: &[Sums]) -> Adding {
    let mut halved = vec![];
    let mut sums = sums;
    for problem in problems {
        match sums.with(problem) {
            Ok((next, by_halves)) => {
                sums = next;
                halved.push(by_halves);
            }
            Err(refusal) => {
                return Adding {
                    halved,
                    outcome: Err(refusal),
                }
            }
        }
    }
    Adding {
        halved,
        outcome: Ok(sums),
    }
}

/// Pools problems: all checks, 18 too, then all five sums are written (R27.6). A refusal
/// leaves every sum as it was (R27.5).
pub fn pool(n: i64, lent: LentSums, lists: &Lists) -> Result<(), Refusal> {
    let (sums, problems) = read(n, &lent, lists)?;
    add_all(sums, &problems).outcome?.write(lent);
    Ok(())
}
