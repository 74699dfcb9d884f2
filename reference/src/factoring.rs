//! The Cholesky factor: R6.

use crate::problem::{Bounds, Table, FACTOR_RANGE};

/// The outcome of factoring.
#[derive(Clone, Debug, PartialEq, Eq)]
pub enum Factoring {
    /// R6.6: no column stopped it; the factor
    Ends(Table),
    /// R6.2 and R6.4: a stop
    Stops {
        /// j, from 1
        column: usize,
        /// m, from 1; 0 where H(j,j) itself is below 1
        last_row: usize,
        /// The entries found so far, r(m,j) as computed; the others are 0.
        partial: Table,
    },
}

/// R6.1: H, the sum of both bounds times 2^31, its diagonal lowered.
pub fn shifted_sum(bounds: &Bounds) -> Table {
    let entry = |i: usize, j: usize| {
        let sum = (1 << 31) * (bounds.low[i][j] + bounds.high[i][j]);
        if i == j {
            sum - ((1 << 29) + (1 << 31) * bounds.row_width(i))
        } else {
            sum
        }
    };
    (0..bounds.order)
        .map(|i| (0..bounds.order).map(|j| entry(i, j)).collect())
        .collect()
}

/// R6.2 to R6.6: factors H column by column.
pub fn factor(bounds: &Bounds) -> Factoring {
    let n = bounds.order;
    let h = shifted_sum(bounds);
    // R6.6: entries that are not computed are 0.
    let mut r = vec![vec![0; n]; n];
    for j in 0..n {
        let down_to_diagonal: Vec<i128> = (0..=j).map(|i| h[i][j]).collect();
        let worked = work_column(&r, &down_to_diagonal);
        let (Ok(entries) | Err(entries)) = &worked;
        for (row, entry) in r.iter_mut().zip(entries) {
            row[j] = *entry;
        }
        if worked.is_err() {
            return Factoring::Stops {
                column: j + 1,
                last_row: entries.len(),
                partial: r,
            };
        }
    }
    Factoring::Ends(r)
}

/// R6.2 to R6.5: a column of the factor, from that of H down to its diagonal and the columns
/// of the factor before it. `Err` is a stop, with the m entries that it has found.
pub fn work_column(r: &Table, h: &[i128]) -> Result<Vec<i128>, Vec<i128>> {
    let (diagonal, above) = h.split_last().expect("a column has its diagonal");
    // R6.2
    let mut rest = *diagonal;
    let mut column = vec![];
    if rest < 1 {
        return Err(column);
    }
    for (i, entry) in above.iter().enumerate() {
        // R6.3
        let products: i128 = (0..i).map(|k| r[k][i] * column[k]).sum();
        let next = floor_quotient(entry - products, r[i][i]);
        column.push(next);
        // R6.4
        rest -= next * next;
        if next.abs() > FACTOR_RANGE || rest < 1 {
            return Err(column);
        }
    }
    // R6.5
    column.push(whole_root(rest));
    Ok(column)
}

/// Whether factoring ends.
pub fn ends(bounds: &Bounds) -> bool {
    matches!(factor(bounds), Factoring::Ends(_))
}

/// R1.1: the quotient by a positive divisor, rounded down.
pub fn floor_quotient(numerator: i128, divisor: i128) -> i128 {
    assert!(divisor > 0);
    let toward_zero = numerator / divisor;
    if toward_zero * divisor > numerator {
        toward_zero - 1
    } else {
        toward_zero
    }
}

/// R1.2: the quotient by a positive divisor, rounded up.
pub fn ceiling_quotient(numerator: i128, divisor: i128) -> i128 {
    -floor_quotient(-numerator, divisor)
}

/// The least whole s ≥ 0 that `enough` accepts. It refuses up to some s, and
/// accepts all above.
pub fn least_whole(enough: impl Fn(i128) -> bool) -> i128 {
    if enough(0) {
        return 0;
    }
    let mut high = 1;
    while !enough(high) {
        high *= 2;
    }
    let mut low = 0;
    // `low` is refused and `high` accepted.
    while high - low > 1 {
        let middle = (low + high) / 2;
        if enough(middle) {
            high = middle;
        } else {
            low = middle;
        }
    }
    high
}

/// R1.3: the whole root. The square of the next number is above.
pub fn whole_root(number: i128) -> i128 {
    assert!(number >= 0);
    least_whole(|root| (root + 1) * (root + 1) > number)
}
