//! The bracket of the stiffness: R26.

use crate::enclosure::common_step;
use crate::factoring::{ceiling_quotient, ends};
use crate::problem::{check_lengths, check_order, table_size, write_numbers, Bounds};
use crate::refusal::Refusal;
use crate::vectors::{least_value, tried_vectors};

/// The bracket: what the act answers and writes.
#[derive(Clone, Debug, PartialEq, Eq)]
pub struct Bracket {
    /// t, where it is given
    pub step: Option<i128>,
    /// v
    pub bound: i128,
    /// The vector that is shown
    pub vector: Vec<i128>,
}

/// R26.1: x'x.
pub fn squares(x: &[i128]) -> i128 {
    x.iter().map(|entry| entry * entry).sum()
}

/// R26.1: whether a vector is under a whole number. That of zeros is under none.
pub fn is_under(bounds: &Bounds, x: &[i128], w: i128) -> bool {
    squares(x) != 0 && least_value(bounds, x) <= w * squares(x)
}

/// R26.2: the quotient of a vector but 0.
pub fn quotient(bounds: &Bounds, x: &[i128]) -> i128 {
    ceiling_quotient(least_value(bounds, x), squares(x))
}

/// R26.3: v, the least quotient of all tried vectors.
pub fn least_quotient(bounds: &Bounds) -> i128 {
    let quotients = tried_vectors(bounds.order)
        .iter()
        .map(|x| quotient(bounds, x));
    quotients.min().expect("an order is 1 or more")
}

/// R26.4: the first tried vector that is under a whole number.
pub fn first_under(bounds: &Bounds, w: i128) -> Option<&'static [i128]> {
    let mut tried = tried_vectors(bounds.order).iter();
    tried.find(|x| is_under(bounds, x, w)).map(Vec::as_slice)
}

/// Whether a tried vector has a smaller fraction least(x)/x'x than the one given. Of the
/// vector that is shown that may be so (R26.4).
pub fn has_smaller_fraction(bounds: &Bounds, x: &[i128]) -> bool {
    let (value, count) = (least_value(bounds, x), squares(x));
    tried_vectors(bounds.order)
        .iter()
        .any(|other| least_value(bounds, other) * count < value * squares(other))
}

/// R26.5: t, where the tables with nothing taken off are factored to the end.
pub fn given_step(bounds: &Bounds) -> Option<i128> {
    ends(bounds).then(|| common_step(bounds))
}

/// The bracket of interval bounds.
pub fn bracket_of(bounds: &Bounds) -> Bracket {
    let bound = least_quotient(bounds);
    let vector = first_under(bounds, bound).expect("a vector has this quotient");
    Bracket {
        step: given_step(bounds),
        bound,
        vector: vector.to_vec(),
    }
}

/// The act: checks 1 to 5 (R5.19), then the bracket. The vector is written with either
/// answer (R26.6).
pub fn bracket(n: i64, low: &[i64], high: &[i64], vector: &mut [i64]) -> Result<Bracket, Refusal> {
    let order = check_order(n)?;
    let table = table_size(order);
    check_lengths(&[
        (low.len(), table),
        (high.len(), table),
        (vector.len(), order),
    ])?;
    let bracket = bracket_of(&Bounds::read(order, low, high)?);
    write_numbers(&bracket.vector, vector);
    Ok(bracket)
}
