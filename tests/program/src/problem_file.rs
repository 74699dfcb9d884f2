//! Problems that files are made of.

use hankboulder_reference::cases::numbers;
use hankboulder_reference::generate::{Field, RawProblem};

/// The fields of a file in the order they stand.
pub type Fields = Vec<Field>;

/// A problem whose bounds are written as in docs/RULES.md, such as `[2 1; 1 2]`,
/// with equal ends of the linear terms.
pub fn wide(low: &str, high: &str, linear: &[i64], limit: i64, centre: &[i64]) -> RawProblem {
    RawProblem {
        order: linear.len(),
        low: numbers(low),
        high: numbers(high),
        linear_low: linear.to_vec(),
        linear_high: linear.to_vec(),
        limit,
        centre: centre.to_vec(),
    }
}

/// The same of L = U.
pub fn thin(matrix: &str, linear: &[i64], limit: i64, centre: &[i64]) -> RawProblem {
    wide(matrix, matrix, linear, limit, centre)
}

/// L = U of order 1, with two ends of the linear term.
pub fn ends(matrix: &str, linear: (i64, i64), limit: i64, centre: i64) -> RawProblem {
    RawProblem {
        linear_high: vec![linear.1],
        ..thin(matrix, &[linear.0], limit, &[centre])
    }
}

/// Bounds alone: linear terms, limit and centre are 0.
pub fn bounds(low: &str, high: &str) -> RawProblem {
    let order = numbers(low).len().isqrt();
    let zeros = vec![0; order];
    wide(low, high, &zeros, 0, &zeros)
}

/// A definite problem of an order that has a box. L, U, both ends of a, and c
/// have entries of both signs, and no two rows are alike.
pub fn definite(order: usize) -> RawProblem {
    let places = (0..order * order).map(|place| (place / order, place % order));
    let low = |(i, j): (usize, usize)| {
        let entry = (i + j) % 3;
        let diagonal = if i == j { 40 + 10 * i } else { 0 };
        (entry + diagonal) as i64 - 1
    };
    let high = |(i, j)| low((i, j)) + ((i + j) % 2) as i64;
    let indices = 0..order as i64;
    RawProblem {
        order,
        low: places.clone().map(low).collect(),
        high: places.map(high).collect(),
        linear_low: indices.clone().map(|k| 7 - 3 * k).collect(),
        linear_high: indices.clone().map(|k| 40 - 5 * k).collect(),
        limit: 5000,
        centre: indices.map(|k| k % 3 - 1).collect(),
    }
}
