//! The enclosure of an ellipsoid: R12 to R14.

use crate::factoring::{ceiling_quotient, ends, least_whole};
use crate::problem::{
    check_lengths, check_order, sides_size, table_size, write_numbers, Bounds, Problem,
    GRADIENT_RANGE,
};
use crate::refusal::{require, Refusal};
use crate::vectors::least_value;

/// Side k, with the t(k) that it was found by.
#[derive(Clone, Debug, PartialEq, Eq)]
pub struct Side {
    /// t(k)
    pub step: i128,
    /// c(k) − h
    pub low: i128,
    /// c(k) + h
    pub high: i128,
}

/// The answer of the box.
#[derive(Clone, Debug, PartialEq, Eq)]
pub enum Enclosure {
    /// Each side
    Sides(Vec<Side>),
    /// 'empty'
    Empty,
}

/// R12.2 and R12.3: the greatest step that the trials find, bit by bit from
/// 2^19 down, for the diagonal entries of L and U named by `places`.
pub fn greatest_step(bounds: &Bounds, places: &[usize]) -> i128 {
    let mut t = 0;
    for b in (0..=19).rev() {
        if trial_ends(bounds, places, t + (1 << b)) {
            t += 1 << b;
        }
    }
    t
}

/// R12.1: a trial, with the step subtracted at `places`. The lowered entries of
/// L have to stay positive.
fn trial_ends(bounds: &Bounds, places: &[usize], step: i128) -> bool {
    let mut trial = bounds.clone();
    for &i in places {
        trial.low[i][i] -= step;
        trial.high[i][i] -= step;
    }
    places.iter().all(|&i| trial.low[i][i] > 0) && ends(&trial)
}

/// R12.2: t, the step at every diagonal entry.
pub fn common_step(bounds: &Bounds) -> i128 {
    let every: Vec<usize> = (0..bounds.order).collect();
    greatest_step(bounds, &every)
}

/// R12.3: each t(k), the step at the diagonal entry k alone.
pub fn single_steps(bounds: &Bounds) -> Vec<i128> {
    (0..bounds.order)
        .map(|k| greatest_step(bounds, &[k]))
        .collect()
}

/// R13.1: g(k), from the least and the greatest entry k of Mc + a, where a(k)
/// and the entries of M in that row are chosen independently.
pub fn gradient_bound(problem: &Problem, k: usize) -> i128 {
    let (mut least, mut greatest) = (problem.linear_low[k], problem.linear_high[k]);
    for (j, c) in problem.centre.iter().enumerate() {
        let from_low = problem.bounds.low[k][j] * c;
        let from_high = problem.bounds.high[k][j] * c;
        least += from_low.min(from_high);
        greatest += from_low.max(from_high);
    }
    least.abs().max(greatest.abs())
}

/// R13.2: D.
pub fn limit_at_centre(problem: &Problem) -> i128 {
    problem.limit - least_linear(problem) - least_value(&problem.bounds, &problem.centre)
}

/// R13.2: the least of 2a'c, term by term.
fn least_linear(problem: &Problem) -> i128 {
    let ends = problem.linear_low.iter().zip(&problem.linear_high);
    let terms = ends.zip(&problem.centre);
    terms.map(|((l, h), c)| (2 * l * c).min(2 * h * c)).sum()
}

fn inner_product(x: &[i128], y: &[i128]) -> i128 {
    x.iter().zip(y).map(|(p, q)| p * q).sum()
}

/// R1.4: the least root of a bound over a step.
fn least_radius(step: i128, bound: i128) -> i128 {
    least_whole(|s| step * s * s >= bound)
}

/// Checks 8 and 9, then the sides or 'empty'.
pub fn enclosure(problem: &Problem) -> Result<Enclosure, Refusal> {
    let bounds = &problem.bounds;
    let t = common_step(bounds);
    require(t != 0, Refusal::Flat)?;
    let g: Vec<i128> = (0..bounds.order)
        .map(|k| gradient_bound(problem, k))
        .collect();
    require(g.iter().all(|gk| *gk <= GRADIENT_RANGE), Refusal::Far)?;
    Ok(sides(problem, t, &g))
}

fn sides(problem: &Problem, t: i128, g: &[i128]) -> Enclosure {
    let d = limit_at_centre(problem);
    // R13.3 and R14.1
    let b = d + ceiling_quotient(inner_product(g, g), t);
    if b < 0 {
        return Enclosure::Empty;
    }
    // R13.4
    let s = least_radius(t, b);
    let y: Vec<i128> = g.iter().map(|gk| ceiling_quotient(*gk, t) + s).collect();
    // R13.5 and R14.2
    let b2 = d + 2 * inner_product(g, &y);
    if b2 < 0 {
        return Enclosure::Empty;
    }
    let side = |(k, tk): (usize, i128)| {
        // R13.6
        let z = if tk == 0 { y[k] } else { least_radius(tk, b2) };
        // R14.3
        let h = y[k].min(z);
        Side {
            step: tk,
            low: problem.centre[k] - h,
            high: problem.centre[k] + h,
        }
    };
    let steps = single_steps(&problem.bounds);
    Enclosure::Sides(steps.into_iter().enumerate().map(side).collect())
}

/// The box: checks 1 to 5, 16, 8, 9, then the answer (R5.5, R14). Only a box that
/// is given is written.
#[allow(clippy::too_many_arguments)]
pub fn enclose(
    n: i64,
    low: &[i64],
    high: &[i64],
    linear_low: &[i64],
    linear_high: &[i64],
    limit: i64,
    centre: &[i64],
    sides: &mut [i64],
) -> Result<Enclosure, Refusal> {
    let order = check_order(n)?;
    let table = table_size(order);
    check_lengths(&[
        (low.len(), table),
        (high.len(), table),
        (linear_low.len(), order),
        (linear_high.len(), order),
        (centre.len(), order),
        (sides.len(), sides_size(order)),
    ])?;
    let problem = Problem::read(order, low, high, linear_low, linear_high, limit, centre)?;
    let answer = enclosure(&problem)?;
    if let Enclosure::Sides(list) = &answer {
        // R14.4
        let numbers: Vec<i128> = list.iter().flat_map(|s| [s.low, s.high]).collect();
        write_numbers(&numbers, sides);
    }
    Ok(answer)
}
