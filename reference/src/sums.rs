//! Running sums, halved where something more would bring one of them out of its range:
//! R23.1, R23.5 and R23.6.

use crate::factoring::{ceiling_quotient, floor_quotient};
use crate::problem::{table_size, write_numbers, Problem, ENTRY_RANGE, LIMIT_RANGE, LINEAR_RANGE};
use crate::refusal::{require, Refusal};

/// Running sums, mended, each table row by row. What is added to them has the same parts:
/// what a sample adds, or a problem, whose α goes to the running limit.
#[derive(Clone, Debug, PartialEq, Eq)]
pub struct Sums {
    /// L
    pub low: Vec<i128>,
    /// U
    pub high: Vec<i128>,
    /// a_low
    pub linear_low: Vec<i128>,
    /// a_high
    pub linear_high: Vec<i128>,
    /// The running limit
    pub running_limit: i128,
}

/// Running sums as they are lent, and written: the running limit as one number.
pub struct LentSums<'a> {
    /// L
    pub low: &'a mut [i64],
    /// U
    pub high: &'a mut [i64],
    /// a_low
    pub linear_low: &'a mut [i64],
    /// a_high
    pub linear_high: &'a mut [i64],
    /// The running limit
    pub running_limit: &'a mut [i64],
}

impl Sums {
    /// R23.1: sums begin at 0.
    pub fn zeros(order: usize) -> Sums {
        Sums {
            low: vec![0; table_size(order)],
            high: vec![0; table_size(order)],
            linear_low: vec![0; order],
            linear_high: vec![0; order],
            running_limit: 0,
        }
    }

    /// Checks 3, 4, 5 and 16, then the sums, mended; or a problem without a centre. One of
    /// zeros stands in for the centre, and passes every check.
    pub fn read(
        order: usize,
        low: &[i64],
        high: &[i64],
        linear_low: &[i64],
        linear_high: &[i64],
        limit: i64,
    ) -> Result<Sums, Refusal> {
        let centre = vec![0; order];
        let (least, most) = (linear_low, linear_high);
        let problem = Problem::read(order, low, high, least, most, limit, &centre)?;
        Ok(Sums {
            low: problem.bounds.low.concat(),
            high: problem.bounds.high.concat(),
            linear_low: problem.linear_low,
            linear_high: problem.linear_high,
            running_limit: problem.limit,
        })
    }

    /// The sums with something more in them, whether or not they are in their ranges.
    pub fn plus(&self, added: &Sums) -> Sums {
        Sums {
            low: totals(&self.low, &added.low),
            high: totals(&self.high, &added.high),
            linear_low: totals(&self.linear_low, &added.linear_low),
            linear_high: totals(&self.linear_high, &added.linear_high),
            running_limit: self.running_limit + added.running_limit,
        }
    }

    /// R23.5: halved sums.
    pub fn halved(&self) -> Sums {
        Sums {
            low: quotients(&self.low, floor_quotient),
            high: quotients(&self.high, ceiling_quotient),
            linear_low: quotients(&self.linear_low, floor_quotient),
            linear_high: quotients(&self.linear_high, ceiling_quotient),
            running_limit: ceiling_quotient(self.running_limit, 2),
        }
    }

    /// Whether each sum is in its range (R2.3 to R2.5).
    pub fn in_range(&self) -> bool {
        let lists: [(&[i128], i128); 5] = [
            (&self.low, ENTRY_RANGE),
            (&self.high, ENTRY_RANGE),
            (&self.linear_low, LINEAR_RANGE),
            (&self.linear_high, LINEAR_RANGE),
            (&[self.running_limit], LIMIT_RANGE),
        ];
        let mut sums = lists
            .iter()
            .flat_map(|(list, range)| list.iter().map(move |sum| (sum, range)));
        sums.all(|(sum, range)| sum.abs() <= *range)
    }

    /// R23.6: the sums with something more in them, and whether they were halved for it, or
    /// the refusal by 18.
    pub fn with(&self, added: &Sums) -> Result<(Sums, bool), Refusal> {
        let whole = self.plus(added);
        if whole.in_range() {
            return Ok((whole, false));
        }
        // What is added is never halved.
        let faded = self.halved().plus(added);
        require(faded.in_range(), Refusal::Full)?;
        Ok((faded, true))
    }

    /// Writes all five sums.
    pub fn write(&self, lent: LentSums) {
        write_numbers(&self.low, lent.low);
        write_numbers(&self.high, lent.high);
        write_numbers(&self.linear_low, lent.linear_low);
        write_numbers(&self.linear_high, lent.linear_high);
        write_numbers(&[self.running_limit], lent.running_limit);
    }
}

fn totals(sums: &[i128], added: &[i128]) -> Vec<i128> {
    assert_eq!(sums.len(), added.len());
    sums.iter()
        .zip(added)
        .map(|(sum, more)| sum + more)
        .collect()
}

/// Halves, each rounded the same way.
fn quotients(sums: &[i128], quotient: fn(i128, i128) -> i128) -> Vec<i128> {
    sums.iter().map(|sum| quotient(*sum, 2)).collect()
}

impl LentSums<'_> {
    /// The sizes, and those that they have to have (R15.3).
    pub fn sizes(&self, order: usize) -> [(usize, usize); 5] {
        [
            (self.low.len(), table_size(order)),
            (self.high.len(), table_size(order)),
            (self.linear_low.len(), order),
            (self.linear_high.len(), order),
            (self.running_limit.len(), 1),
        ]
    }

    /// Checks 3, 4, 5 and 16 of sums that have their sizes, then the sums, mended.
    pub fn read(&self, order: usize) -> Result<Sums, Refusal> {
        Sums::read(
            order,
            self.low,
            self.high,
            self.linear_low,
            self.linear_high,
            self.running_limit[0],
        )
    }
}
