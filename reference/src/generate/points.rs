//! Members of bounds, and points of an ellipsoid, with the member and the linear terms
//! that they belong to: R3.2 and R3.6 to R3.8, in fractions; D3.8 and D3.9 of a member.

use super::{Generator, RawProblem};
use crate::factoring::ceiling_quotient;
use crate::problem::widen;
use crate::random::Random;

/// The greatest denominator that is drawn.
const MOST: i64 = 8;
/// How often each coordinate is lowered.
const SWEEPS: usize = 12;
/// The greatest size of a lowered coordinate: 128 bits hold what is made of it.
const FARTHEST: i128 = 1 << 44;
/// The longest step outward is 2^20 times a direction.
const STEP_BITS: u32 = 20;

/// Whole numbers over one denominator.
#[derive(Clone, Debug, PartialEq, Eq)]
#[allow(missing_docs)]
pub struct Fractions {
    pub numbers: Vec<i128>,
    pub denominator: i128,
}

/// x = X/p with a member M = N/q and linear terms a = A/s between the ends.
#[derive(Clone, Debug, PartialEq, Eq)]
#[allow(missing_docs)]
pub struct Point {
    pub x: Fractions,
    pub member: Fractions,
    pub linear: Fractions,
}

impl Generator {
    /// A point near the centre of a problem, with any member and any linear
    /// terms between the ends.
    pub fn point_near(&mut self, problem: &RawProblem) -> Point {
        let member = self.member(problem);
        let p = self.random.between(1, MOST);
        let range = self.random.pick(&[0, 1, 4, 40, 400]);
        let mut near = |c: &i64| i128::from(p * c + self.random.within(range * p));
        let numbers = problem.centre.iter().map(&mut near).collect();
        Point {
            x: Fractions {
                numbers,
                denominator: i128::from(p),
            },
            member,
            linear: self.between(&problem.linear_low, &problem.linear_high),
        }
    }

    /// A member of a problem's bounds (R3.2), row by row. It is symmetric, and so between
    /// both halves of both tables.
    pub fn member(&mut self, problem: &RawProblem) -> Fractions {
        let order = problem.order;
        let mended = problem.mended();
        let mut member = self.between(&mended.low, &mended.high);
        for i in 0..order {
            for j in 0..i {
                member.numbers[i * order + j] = member.numbers[j * order + i];
            }
        }
        member
    }

    /// Fractions between two lists of numbers, often at an end.
    fn between(&mut self, low: &[i64], high: &[i64]) -> Fractions {
        let denominator = self.random.between(1, MOST);
        let mut draw = |(low, high): (&i64, &i64)| {
            let (low, high) = (denominator * low, denominator * high);
            let number = match self.random.index(3) {
                0 => low,
                1 => high,
                _ => self.random.between(low, high),
            };
            i128::from(number)
        };
        let numbers = low.iter().zip(high).map(&mut draw).collect();
        Fractions {
            numbers,
            denominator: i128::from(denominator),
        }
    }
}

impl Fractions {
    /// The slack of D3.8 for a member N over q and a whole x, with a factor R and what its
    /// rows have over, v: 2^32·x'Nx − q·(v·x'x + |Rx|²).
    pub fn slack(&self, factor: &[i64], over: i64, x: &[i64]) -> i128 {
        let [factor, x] = [factor, x].map(widen);
        let images = |table: &[i128]| -> Vec<i128> {
            let rows = table.chunks(x.len());
            rows.map(|row| inner_product(row, &x)).collect()
        };
        let image = images(&factor);
        let squares = i128::from(over) * inner_product(&x, &x) + inner_product(&image, &image);
        (1 << 32) * inner_product(&x, &images(&self.numbers)) - self.denominator * squares
    }

    /// By how much x'Nx of a member N over q is above q·w·x'x, for a whole x and a whole
    /// number w (D3.9). It is above 0 where w is the step and x ≠ 0.
    pub fn above(&self, w: i64, x: &[i64]) -> i128 {
        let x = widen(x);
        let rows = self.numbers.chunks(x.len());
        let image: Vec<i128> = rows.map(|row| inner_product(row, &x)).collect();
        inner_product(&x, &image) - self.denominator * i128::from(w) * inner_product(&x, &x)
    }
}

impl Point {
    /// The entries of row k of N.
    fn row(&self, k: usize) -> &[i128] {
        let order = self.x.numbers.len();
        &self.member.numbers[k * order..(k + 1) * order]
    }

    /// Row k of s·NX + p·q·A.
    fn slope(&self, k: usize) -> i128 {
        let (p, q, s) = self.denominators();
        let product: i128 = inner_product(self.row(k), &self.x.numbers);
        s * product + p * q * self.linear.numbers[k]
    }

    fn denominators(&self) -> (i128, i128, i128) {
        let Point { x, member, linear } = self;
        (x.denominator, member.denominator, linear.denominator)
    }

    /// R3.6: the least whole α with s·X'NX + 2·p·q·A'X ≤ α·p²·q·s. It is a point
    /// of the ellipsoid of each problem that has these bounds and ends and no
    /// smaller limit.
    pub fn least_limit(&self) -> i128 {
        let (p, q, s) = self.denominators();
        let x = &self.x.numbers;
        let order = x.len();
        let products: Vec<i128> = (0..order).map(|k| inner_product(self.row(k), x)).collect();
        let value =
            s * inner_product(x, &products) + 2 * p * q * inner_product(&self.linear.numbers, x);
        ceiling_quotient(value, p * p * q * s)
    }

    /// R3.7: whether a box with these sides contains it.
    pub fn is_in(&self, sides: &[i64]) -> bool {
        let p = self.x.denominator;
        let inside = |(x, side): (&i128, &[i64])| {
            p * i128::from(side[0]) <= *x && *x <= p * i128::from(side[1])
        };
        self.x.numbers.iter().zip(sides.chunks(2)).all(inside)
    }

    /// Lowers x'Mx + 2a'x one coordinate after the other. A member that is not
    /// definite may have no lowest point, so a coordinate has a greatest size.
    pub fn lower(&mut self) {
        let order = self.x.numbers.len();
        for k in (0..SWEEPS).flat_map(|_| 0..order) {
            let divisor = self.linear.denominator * self.row(k)[k];
            if divisor > 0 {
                let lowest = self.x.numbers[k] - self.slope(k) / divisor;
                self.x.numbers[k] = lowest.clamp(-FARTHEST, FARTHEST);
            }
        }
    }

    /// Goes outward in a random direction, as far as the limit allows.
    pub fn go_outward(&mut self, limit: i128, random: &mut Random) {
        // Directions along an axis are met too.
        let mut entry = || {
            let reach = random.pick(&[0, 1, 100]);
            random.within(reach)
        };
        let direction: Vec<i64> = self.x.numbers.iter().map(|_| entry()).collect();
        for bit in (0..=STEP_BITS).rev() {
            let mut moved = self.clone();
            for (x, d) in moved.x.numbers.iter_mut().zip(&direction) {
                *x += i128::from(*d) << bit;
            }
            if moved.least_limit() <= limit {
                *self = moved;
            }
        }
    }
}

fn inner_product(x: &[i128], y: &[i128]) -> i128 {
    x.iter().zip(y).map(|(p, q)| p * q).sum()
}
