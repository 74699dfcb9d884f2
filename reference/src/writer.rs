//! The writer of summary files: R24.

use crate::problem::{check_lengths, check_order, table_size, Problem};
use crate::refusal::Refusal;
use crate::summary::{file_of_fields, problem_fields};

/// R24.1: how many bytes the file of a problem has.
pub fn file_size(order: usize) -> usize {
    30 + 8 * order * order + 24 * order
}

/// R24.1: the one file of a problem.
pub fn file_of(problem: &Problem) -> Vec<u8> {
    let bounds = &problem.bounds;
    file_of_fields(&problem_fields(
        u8::try_from(bounds.order).expect("an order has one byte"),
        &narrow(&bounds.low.concat()),
        &narrow(&bounds.high.concat()),
        &narrow(&problem.linear_low),
        &narrow(&problem.linear_high),
        narrow(&[problem.limit])[0],
        &narrow(&problem.centre),
    ))
}

fn narrow(numbers: &[i128]) -> Vec<i64> {
    let number = |number: &i128| i64::try_from(*number).expect("a number of a problem");
    numbers.iter().map(number).collect()
}

/// Writes the file of a problem, its tables mended: checks 1, 2, 3, 4, 5 and 16
/// (R24.4). A refusal leaves the whole file as it was.
#[allow(clippy::too_many_arguments)]
pub fn write_summary(
    n: i64,
    low: &[i64],
    high: &[i64],
    linear_low: &[i64],
    linear_high: &[i64],
    limit: i64,
    centre: &[i64],
    file: &mut [u8],
) -> Result<(), Refusal> {
    let order = check_order(n)?;
    check_lengths(&[
        (low.len(), table_size(order)),
        (high.len(), table_size(order)),
        (linear_low.len(), order),
        (linear_high.len(), order),
        (centre.len(), order),
        (file.len(), file_size(order)),
    ])?;
    let problem = Problem::read(order, low, high, linear_low, linear_high, limit, centre)?;
    file.copy_from_slice(&file_of(&problem));
    Ok(())
}
