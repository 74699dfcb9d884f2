//! Simulated rides: samples whose draws come of known coefficients.

use super::{Fractions, Generator};
use crate::factoring::ceiling_quotient;
use crate::floats::{sixteenfold, Exact};
use crate::rides::Sample;

/// 16 times a simulated number is a whole number of 2^-30.
const PLACES: i32 = 30;
/// No simulated number but 0 is smaller: its last digit is 2^-34.
const SMALLEST: f64 = 1.0 / 2048.0;
/// The range of a sample's numbers.
const RANGE: f64 = 8.0;
/// The greatest denominator of a coefficient.
const MOST: i64 = 8;

/// How a ride's samples are drawn.
#[derive(Clone, Copy, Debug, PartialEq, Eq)]
pub enum Road {
    /// Factors are whole numbers of sixteenths, so that their brackets are thin.
    Rounded,
    /// Factors are any floats.
    Measured,
}

/// A ride: its samples, and the coefficients that its draws come of.
#[derive(Clone, Debug)]
#[allow(missing_docs)]
pub struct Ride {
    pub samples: Vec<Sample>,
    pub truth: Fractions,
}

impl Ride {
    /// The square of 16·draw − 16·factors·x for a sample and the true x, exactly,
    /// in units of 1/(p²·2^60).
    pub fn square(&self, sample: &Sample) -> i128 {
        let whole = |bits: u32| {
            let exact = sixteenfold(bits).expect("a simulated number is finite");
            in_units(exact)
        };
        let predicted: i128 = self
            .truth
            .numbers
            .iter()
            .zip(sample.factors)
            .map(|(x, factor)| x * whole(factor))
            .sum();
        let missed = self.truth.denominator * whole(sample.draw) - predicted;
        missed * missed
    }

    /// The least allowance for squares that add up to so many units.
    pub fn least_allowance(&self, squares: i128) -> i128 {
        let p = self.truth.denominator;
        ceiling_quotient(squares, (p * p) << (2 * PLACES))
    }
}

/// An exact value in units of 2^-30.
fn in_units(exact: Exact) -> i128 {
    let shift = exact.exponent + PLACES;
    if shift >= 0 {
        exact.significand << shift
    } else {
        let unit = 1 << -shift;
        assert_eq!(exact.significand % unit, 0, "{exact:?}");
        exact.significand / unit
    }
}

impl Generator {
    /// A ride of so many samples, each draw off by up to `noise`.
    pub fn ride(&mut self, road: Road, count: usize, noise: f64) -> Ride {
        let size = self.random.pick(&[1, 10, 60]);
        let truth = self.coefficients(size);
        self.ride_of(&truth, road, count, noise)
    }

    /// Coefficients of up to this size, to be known.
    pub fn coefficients(&mut self, size: i64) -> Fractions {
        let p = self.random.between(1, MOST);
        Fractions {
            numbers: (0..4)
                .map(|_| i128::from(self.random.within(size * p)))
                .collect(),
            denominator: i128::from(p),
        }
    }

    /// A ride with these coefficients.
    pub fn ride_of(&mut self, truth: &Fractions, road: Road, count: usize, noise: f64) -> Ride {
        let samples = (0..count)
            .map(|_| self.simulated(road, truth, noise))
            .collect();
        Ride {
            samples,
            truth: truth.clone(),
        }
    }

    /// A sample whose draw comes of the coefficients. Factors are made smaller
    /// until the draw is in range.
    fn simulated(&mut self, road: Road, truth: &Fractions, noise: f64) -> Sample {
        let mut factors: [f32; 4] = std::array::from_fn(|_| self.factor(road));
        let offset = noise * self.random.within(1000) as f64 / 1000.0;
        loop {
            let terms = factors.iter().zip(&truth.numbers);
            let sum: f64 = terms.map(|(f, x)| f64::from(*f) * *x as f64).sum();
            let draw = settled(sum / truth.denominator as f64 + offset);
            if f64::from(draw).abs() <= RANGE {
                return Sample {
                    factors: factors.map(f32::to_bits),
                    draw: draw.to_bits(),
                };
            }
            factors = factors.map(|factor| match road {
                Road::Rounded => (factor * 8.0).trunc() / 16.0,
                Road::Measured => settled(f64::from(factor) / 2.0),
            });
        }
    }

    fn factor(&mut self, road: Road) -> f32 {
        match road {
            Road::Rounded => self.random.within(128) as f32 / 16.0,
            Road::Measured => settled(self.random.within(8_000_000) as f64 / 1e6),
        }
    }
}

/// The float next to a number, or 0 for one that is too small.
fn settled(number: f64) -> f32 {
    let float = number as f32;
    if f64::from(float).abs() < SMALLEST {
        0.0
    } else {
        float
    }
}
