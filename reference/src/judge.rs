//! The verdict: R11.

use crate::factoring::{factor, Factoring};
use crate::problem::{check_lengths, check_order, table_size, write_numbers, Bounds, Table};
use crate::refusal::Refusal;
use crate::residual::over;
use crate::vectors::{shows, solved_vector, tried_vectors, SCALES};

/// What the judge finds.
#[derive(Clone, Debug, PartialEq, Eq)]
pub enum Verdict {
    /// 'definite', with the factor and what its rows have over
    Definite(Table, i128),
    /// 'not definite', with the vector that shows it and the list it is from
    NotDefinite(List, Vec<i128>),
    /// 'undecided'
    Undecided,
}

/// The list that a witness vector is from.
#[derive(Clone, Copy, Debug, PartialEq, Eq, PartialOrd, Ord)]
pub enum List {
    /// The tried vectors
    Tried,
    /// The solved vectors, with the scale s
    Solved(i128),
}

/// Judges interval bounds.
pub fn verdict(bounds: &Bounds) -> Verdict {
    match factor(bounds) {
        // R11.2
        Factoring::Ends(factor) => {
            let over = over(bounds, &factor);
            Verdict::Definite(factor, over)
        }
        Factoring::Stops {
            column,
            last_row,
            partial,
        } => match witness(bounds, column, last_row, &partial) {
            Some((list, x)) => Verdict::NotDefinite(list, x),
            // R11.4
            None => Verdict::Undecided,
        },
    }
}

/// R11.3: the first listed vector that shows 'not definite', and its list, after
/// factoring stopped in this column with this last row.
pub fn witness(
    bounds: &Bounds,
    column: usize,
    last_row: usize,
    partial: &Table,
) -> Option<(List, Vec<i128>)> {
    let mut tried = tried_vectors(bounds.order).iter();
    if let Some(x) = tried.find(|x| shows(bounds, x)) {
        return Some((List::Tried, x.clone()));
    }
    SCALES.into_iter().find_map(|s| {
        let x = solved_vector(column, last_row, partial, s)?;
        shows(bounds, &x).then_some((List::Solved(s), x))
    })
}

/// The judge: checks 1 to 5 (R5.2), then the verdict. 'Definite' writes the
/// factor, 'not definite' the vector, and nothing else is written (R11.2 to R11.4).
pub fn judge(
    n: i64,
    low: &[i64],
    high: &[i64],
    factor: &mut [i64],
    vector: &mut [i64],
) -> Result<Verdict, Refusal> {
    let order = check_order(n)?;
    let table = table_size(order);
    check_lengths(&[
        (low.len(), table),
        (high.len(), table),
        (factor.len(), table),
        (vector.len(), order),
    ])?;
    let verdict = verdict(&Bounds::read(order, low, high)?);
    match &verdict {
        Verdict::Definite(rows, _) => write_numbers(&rows.concat(), factor),
        Verdict::NotDefinite(_, x) => write_numbers(x, vector),
        Verdict::Undecided => {}
    }
    Ok(verdict)
}
