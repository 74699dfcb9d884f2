//! Samples, running sums, and calls of the acts on them, faulty ones among them.

use super::{Generator, RawProblem};
use crate::floats::bracket;
use crate::problem::LIMIT_RANGE;
use crate::rides::{gather, Sample, MOST_ALLOWANCE, SAMPLE_ORDER};
use crate::summary::{encode, NUMBER_WIDTH};

/// The arguments of gathering; the sums with their contents before the call.
#[derive(Clone, Debug, PartialEq, Eq)]
#[allow(missing_docs)]
pub struct GatherCall {
    pub sample: Sample,
    pub n: i64,
    pub low: Vec<u8>,
    pub high: Vec<u8>,
    pub linear_low: Vec<u8>,
    pub linear_high: Vec<u8>,
    pub running_limit: Vec<u8>,
}

/// The arguments of reading the sums; the limit with its content before the call.
#[derive(Clone, Debug, PartialEq, Eq)]
#[allow(missing_docs)]
pub struct SumsCall {
    pub n: i64,
    pub low: Vec<u8>,
    pub high: Vec<u8>,
    pub linear_low: Vec<u8>,
    pub linear_high: Vec<u8>,
    pub running_limit: i64,
    pub allowance: i64,
    pub limit: Vec<u8>,
}

/// The bits of floats where something changes: zeros, the least and the greatest
/// subnormal number, the least normal one, 1/16 and its neighbours, 8 and its
/// neighbours, the greatest number, infinity, and NaNs, quiet and signalling.
pub const EDGES: [u32; 17] = [
    0,
    1,
    0x007F_FFFF,
    0x0080_0000,
    0x0080_0001,
    0x3D7F_FFFF,
    0x3D80_0000,
    0x3D80_0001,
    0x40FF_FFFF,
    0x4100_0000,
    0x4100_0001,
    0x7F7F_FFFF,
    0x7F80_0000,
    0x7F80_0001,
    0x7FBF_FFFF,
    0x7FC0_0000,
    0x7FFF_FFFF,
];

const SIGN: u32 = 1 << 31;

/// One sample in this many has a number that may be any, and one call in this many
/// has sums of another order.
const ANY_SHARE: usize = 2;
const FAULT_SHARE: usize = 12;

impl Generator {
    /// The bits of a float: any bits, any exponent, an edge, or a number that 17
    /// lets through.
    pub fn float(&mut self) -> u32 {
        let bits = self.random.bits() as u32;
        match self.random.index(4) {
            0 => bits,
            1 => (bits & (SIGN | 0x7F_FFFF)) | (self.random.index(256) as u32) << 23,
            2 => self.random.pick(&EDGES) | (bits & SIGN),
            _ => self.good_float(),
        }
    }

    /// The bits of a float that 17 lets through: a whole number of sixteenths, one
    /// of its neighbours, or any.
    pub fn good_float(&mut self) -> u32 {
        loop {
            let sign = self.random.pick(&[0, SIGN]);
            let whole = (self.random.between(0, 128) as f32 / 16.0).to_bits();
            let digits = self.random.bits() as u32 & 0x7F_FFFF;
            let exponent = self.random.between(118, 130) as u32;
            let bits = match self.random.index(8) {
                0..=2 => whole,
                3 => whole.wrapping_add(1),
                4 => whole.wrapping_sub(1),
                5 => self.random.pick(&EDGES),
                _ => exponent << 23 | digits,
            };
            if bracket(bits | sign).is_some() {
                return bits | sign;
            }
        }
    }

    /// A sample that 17 lets through.
    pub fn good_sample(&mut self) -> Sample {
        Sample::of(std::array::from_fn(|_| self.good_float()))
    }

    /// A sample, now and then with a number that may be any.
    pub fn sample(&mut self) -> Sample {
        let mut numbers = self.good_sample().numbers();
        if self.random.one_in(ANY_SHARE) {
            let place = self.random.index(numbers.len());
            numbers[place] = self.float();
        }
        Sample::of(numbers)
    }

    /// Sums of order 4 that are let through: those of some samples, at or near the
    /// ends of a range now and then, or those of a problem. Now and then their halves
    /// are rounded apart. The centre plays no part.
    pub fn sums(&mut self) -> RawProblem {
        let sums = self.symmetric_sums();
        self.perhaps_apart(sums)
    }

    fn symmetric_sums(&mut self) -> RawProblem {
        if self.random.one_in(4) {
            let kind = self.random.pick(&super::KINDS);
            let wide = self.random.one_in(2);
            return self.problem(kind, SAMPLE_ORDER, wide);
        }
        let mut sums = RawProblem::zeros(SAMPLE_ORDER);
        for _ in 0..self.random.pick(&[0, 1, 3, 30]) {
            let sample = self.good_sample();
            gather(&sample, SAMPLE_ORDER as i64, sums.lend()).expect("18 never refuses a sample");
        }
        if self.random.one_in(2) {
            self.fill_up(&mut sums);
        }
        sums
    }

    /// A call of gathering.
    pub fn gather_call(&mut self) -> GatherCall {
        let mut sums = self.sums();
        self.damage_entries(&mut sums);
        self.damage_terms(&mut sums);
        let mut call = GatherCall {
            sample: self.sample(),
            n: sums.order as i64,
            low: bytes(&sums.low),
            high: bytes(&sums.high),
            linear_low: bytes(&sums.linear_low),
            linear_high: bytes(&sums.linear_high),
            running_limit: bytes(&[sums.limit]),
        };
        if self.random.one_in(FAULT_SHARE) {
            // Sums of another order, which are refused for that alone.
            let other = self.any_problem();
            call.n = other.order as i64;
            call.low = bytes(&other.low);
            call.high = bytes(&other.high);
            call.linear_low = bytes(&other.linear_low);
            call.linear_high = bytes(&other.linear_high);
        }
        let buffers = &mut [
            &mut call.low,
            &mut call.high,
            &mut call.linear_low,
            &mut call.linear_high,
            &mut call.running_limit,
        ];
        self.damage_sizes(&mut call.n, buffers);
        call
    }

    /// A call of reading the sums.
    pub fn sums_call(&mut self) -> SumsCall {
        let mut sums = self.any_problem();
        self.damage_entries(&mut sums);
        self.damage_terms(&mut sums);
        let mut call = SumsCall {
            n: sums.order as i64,
            low: bytes(&sums.low),
            high: bytes(&sums.high),
            linear_low: bytes(&sums.linear_low),
            linear_high: bytes(&sums.linear_high),
            running_limit: sums.limit,
            allowance: self.allowance(),
            limit: self.random.bytes(NUMBER_WIDTH),
        };
        if self.random.one_in(4) {
            // At the upper end of its range, where the allowance decides.
            let end = LIMIT_RANGE as i64;
            call.running_limit = end - self.random.pick(&[0, 1, call.allowance.max(0)]);
            call.running_limit += self.random.pick(&[-1, 0, 0, 1]);
        }
        let buffers = &mut [
            &mut call.low,
            &mut call.high,
            &mut call.linear_low,
            &mut call.linear_high,
            &mut call.limit,
        ];
        self.damage_sizes(&mut call.n, buffers);
        call
    }

    /// An allowance, one in six of them out of its range or at its end.
    fn allowance(&mut self) -> i64 {
        let range = self.random.pick(&[0, 1000, MOST_ALLOWANCE]);
        let ends = [
            -1,
            0,
            MOST_ALLOWANCE,
            MOST_ALLOWANCE + 1,
            i64::MIN,
            i64::MAX,
        ];
        if self.random.one_in(6) {
            self.random.pick(&ends)
        } else {
            self.random.between(0, range)
        }
    }
}

fn bytes(numbers: &[i64]) -> Vec<u8> {
    encode(numbers, NUMBER_WIDTH)
}
