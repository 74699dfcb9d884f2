//! The residual of an offered factor, the residual test, and what its rows have over:
//! R7.

use crate::problem::{
    check_lengths, check_order, pairs, square, table_size, Bounds, Table, FACTOR_RANGE,
};
use crate::refusal::{require, Refusal};

/// R7.1: P.
pub fn product(factor: &Table) -> Table {
    let n = factor.len();
    let entry = |i: usize, j: usize| (0..n).map(|k| factor[k][i] * factor[k][j]).sum();
    (0..n)
        .map(|i| (0..n).map(|j| entry(i, j)).collect())
        .collect()
}

/// R7.5: the low and the high table of the residual.
pub fn residual(bounds: &Bounds, factor: &Table) -> [Table; 2] {
    let p = product(factor);
    let n = bounds.order;
    [&bounds.low, &bounds.high].map(|bound| {
        (0..n)
            .map(|i| (0..n).map(|j| (1 << 32) * bound[i][j] - p[i][j]).collect())
            .collect()
    })
}

/// R7.3: all rows pass.
pub fn accepted(bounds: &Bounds, factor: &Table) -> bool {
    let [low, high] = residual(bounds, factor);
    (0..bounds.order).all(|i| low[i][i] >= off_diagonal(&low, &high, i))
}

/// R7.7: what each row has over.
pub fn rows_over(bounds: &Bounds, factor: &Table) -> Vec<i128> {
    let [low, high] = residual(bounds, factor);
    let row = |i: usize| low[i][i] - off_diagonal(&low, &high, i);
    (0..bounds.order).map(row).collect()
}

/// R7.7: what the rows have over, the least of all.
pub fn over(bounds: &Bounds, factor: &Table) -> i128 {
    let rows = rows_over(bounds, factor).into_iter();
    rows.min().expect("an order is 1 or more")
}

/// R7.2: the right side of row i.
fn off_diagonal(low: &Table, high: &Table, i: usize) -> i128 {
    (0..low.len())
        .filter(|j| *j != i)
        .map(|j| low[i][j].abs().max(high[i][j].abs()))
        .sum()
}

/// The answers of the factor test, either with what the rows have over (R7.4).
#[derive(Clone, Copy, Debug, PartialEq, Eq)]
pub enum FactorAnswer {
    /// 'accepted'
    Accepted(i128),
    /// 'not accepted'
    NotAccepted(i128),
}

/// Check 6: the form of a factor (R4.6, R2.8).
pub fn check_factor(order: usize, numbers: &[i64]) -> Result<Table, Refusal> {
    let factor = square(order, numbers);
    let proper = pairs(order).all(|(i, j)| {
        let entry = factor[i][j];
        if i > j {
            entry == 0
        } else if i == j {
            (1..=FACTOR_RANGE).contains(&entry)
        } else {
            entry.abs() <= FACTOR_RANGE
        }
    });
    require(proper, Refusal::Factor)?;
    Ok(factor)
}

/// The factor test: checks 1 to 6 (R5.3), then its answer (R7.4).
pub fn test_factor(
    n: i64,
    low: &[i64],
    high: &[i64],
    factor: &[i64],
) -> Result<FactorAnswer, Refusal> {
    let order = check_order(n)?;
    let table = table_size(order);
    check_lengths(&[
        (low.len(), table),
        (high.len(), table),
        (factor.len(), table),
    ])?;
    let bounds = Bounds::read(order, low, high)?;
    let factor = check_factor(order, factor)?;
    let over = over(&bounds, &factor);
    Ok(match accepted(&bounds, &factor) {
        true => FactorAnswer::Accepted(over),
        false => FactorAnswer::NotAccepted(over),
    })
}

/// The residual by itself (R7.6): checks 1 to 6, and then both tables, for
/// lent tables of these lengths.
pub fn residual_tables(
    n: i64,
    low: &[i64],
    high: &[i64],
    factor: &[i64],
    lent: [usize; 2],
) -> Result<[Table; 2], Refusal> {
    let order = check_order(n)?;
    let table = table_size(order);
    check_lengths(&[
        (low.len(), table),
        (high.len(), table),
        (factor.len(), table),
        (lent[0], table),
        (lent[1], table),
    ])?;
    let bounds = Bounds::read(order, low, high)?;
    let factor = check_factor(order, factor)?;
    Ok(residual(&bounds, &factor))
}
