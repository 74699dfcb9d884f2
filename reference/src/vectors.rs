//! Witness vectors: R8 to R10.

use std::sync::OnceLock;

use crate::factoring::floor_quotient;
use crate::problem::{
    check_lengths, check_order, table_size, widen, Bounds, Table, MAX_ORDER, VECTOR_RANGE,
};
use crate::refusal::{require, Refusal};

/// R10.1: the scales s of the solved vectors.
pub const SCALES: [i128; 2] = [1, 64];

/// R8.1 and R8.2: the least value of a vector.
pub fn least_value(bounds: &Bounds, x: &[i128]) -> i128 {
    let row = |i: usize| -> i128 {
        let (low, high) = (&bounds.low[i], &bounds.high[i]);
        let entry = |j: usize| {
            if i == j || x[i] * x[j] > 0 {
                low[j]
            } else {
                high[j]
            }
        };
        (0..bounds.order).map(|j| entry(j) * x[j]).sum()
    };
    // A row with x(i) = 0 adds nothing.
    let rows = (0..bounds.order).filter(|i| x[*i] != 0);
    rows.map(|i| x[i] * row(i)).sum()
}

/// R8.3: whether the vector shows 'not definite'.
pub fn shows(bounds: &Bounds, x: &[i128]) -> bool {
    nonzero(x) && least_value(bounds, x) <= 0
}

fn nonzero(x: &[i128]) -> bool {
    x.iter().any(|entry| *entry != 0)
}

/// Check 7: an offered vector's entries (R4.7).
pub fn check_vector(numbers: &[i64]) -> Result<Vec<i128>, Refusal> {
    let x = widen(numbers);
    let within = x.iter().all(|entry| entry.abs() <= VECTOR_RANGE);
    require(nonzero(&x) && within, Refusal::Vector)?;
    Ok(x)
}

/// The vector test: checks 1 to 5 and 7 (R5.4), then 'yes' (true) or 'no' (R8.4).
pub fn test_vector(n: i64, low: &[i64], high: &[i64], vector: &[i64]) -> Result<bool, Refusal> {
    let order = check_order(n)?;
    let table = table_size(order);
    check_lengths(&[
        (low.len(), table),
        (high.len(), table),
        (vector.len(), order),
    ])?;
    let bounds = Bounds::read(order, low, high)?;
    let x = check_vector(vector)?;
    Ok(shows(&bounds, &x))
}

/// R9.2 and R9.3: the tried vectors, without that of zeros.
pub fn tried_vectors(order: usize) -> &'static [Vec<i128>] {
    // Each order's list is made once.
    static LISTS: OnceLock<Vec<Vec<Vec<i128>>>> = OnceLock::new();
    let list = |order| {
        let mut list = unit_entry_vectors(order);
        list.retain(|x| nonzero(x));
        list
    };
    &LISTS.get_or_init(|| (0..=MAX_ORDER as usize).map(list).collect())[order]
}

fn unit_entry_vectors(order: usize) -> Vec<Vec<i128>> {
    if order == 0 {
        return vec![vec![]];
    }
    let shorter = unit_entry_vectors(order - 1);
    let with_front = |front: i128| {
        shorter
            .iter()
            .map(move |tail| [&[front], tail.as_slice()].concat())
    };
    [0, 1, -1].into_iter().flat_map(with_front).collect()
}

/// R10: the solved vector of scale s, after factoring stopped in this column with
/// this last row. `None` where an entry is out of range (R10.5).
pub fn solved_vector(
    column: usize,
    last_row: usize,
    partial: &Table,
    s: i128,
) -> Option<Vec<i128>> {
    // R10.2
    let mut x = vec![0; partial.len()];
    x[column - 1] = s;
    // R10.3
    for i in (0..last_row).rev() {
        let r = &partial[i];
        let t: i128 = (i + 1..x.len()).map(|k| r[k] * x[k]).sum();
        x[i] = -floor_quotient(2 * t + r[i], 2 * r[i]);
        // R10.5
        if x[i].abs() > VECTOR_RANGE {
            return None;
        }
    }
    Some(x)
}
