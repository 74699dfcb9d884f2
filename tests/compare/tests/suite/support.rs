//! Calls from numbers.

use hankboulder_compare::enclosure::BOX;
use hankboulder_compare::judge::JUDGE;
use hankboulder_compare::read_sums::READ_SUMS;
use hankboulder_compare::stiffness::STIFFNESS;
use hankboulder_compare::test_factor::TEST_FACTOR;
use hankboulder_compare::test_vector::TEST_VECTOR;
use hankboulder_compare::write_summary::WRITE_SUMMARY;
use hankboulder_compare::{bytes, Act, Call};
use hankboulder_reference::generate::RawProblem;
use hankboulder_reference::random::Random;

pub const ENTRY_RANGE: i64 = 1 << 20;
pub const FACTOR_RANGE: i64 = 1 << 26;
/// The scale of a factor: 2^16 times the identity is a factor of the identity.
pub const SCALE: i64 = 1 << 16;
/// The scale of the residual: an entry of 1 counts for 2^32.
pub const UNIT: i64 = SCALE * SCALE;

/// The place of what the rows have over, among the buffers of the factor test and of the
/// judge
pub const TESTED_OVER: usize = 3;
pub const JUDGED_OVER: usize = 4;

/// The arguments of the factor test, before they are put into bytes.
#[derive(Clone, Debug)]
pub struct FactorTest {
    pub order: usize,
    pub low: Vec<i64>,
    pub high: Vec<i64>,
    pub factor: Vec<i64>,
}

impl FactorTest {
    /// Bounds `diagonal` on the diagonal and `others` elsewhere, L = U, with
    /// the factor `root` times the identity.
    pub fn even(order: usize, diagonal: i64, others: i64, root: i64) -> FactorTest {
        let table = square(order, diagonal, others);
        FactorTest {
            order,
            low: table.clone(),
            high: table,
            factor: square(order, root, 0),
        }
    }

    /// A call that is accepted, where each row has 2^33 over.
    pub fn accepted(order: usize) -> FactorTest {
        FactorTest::even(order, 3, 0, SCALE)
    }

    /// The place of row i and column j.
    pub fn at(&self, i: usize, j: usize) -> usize {
        i * self.order + j
    }

    /// The call, whose output holds random bytes.
    pub fn call(&self) -> Call {
        factor_call(&self.low, &self.high, &self.factor)
    }

    /// Fails where the library does not answer so, with this number over.
    pub fn expect(&self, answer: i64, over: i64) {
        let call = self.call();
        let mut after = call.buffers.clone();
        after[TESTED_OVER] = bytes(&[over]);
        TEST_FACTOR.expect_after(&call, answer, &after);
    }

    /// Fails where the library does not refuse the call by this number, or writes.
    pub fn expect_refused(&self, refusal: i64) {
        TEST_FACTOR.expect(&self.call(), refusal);
    }
}

/// Makes a call of an act on the bounds of a factor test.
pub type Caller = fn(&FactorTest) -> Call;

/// Every act on bounds of any order.
pub const ACTS: [(&Act, Caller); 7] = [
    (&TEST_FACTOR, FactorTest::call),
    (&TEST_VECTOR, |test| {
        let ones = vec![1; test.order];
        call_on(&test.low, &test.high, &[bytes(&ones)])
    }),
    (&JUDGE, |test| judge_call(&test.low, &test.high)),
    (&STIFFNESS, |test| stiffness_call(&test.low, &test.high)),
    (&BOX, |test| {
        let zeros = vec![0; test.order];
        box_call(&test.low, &test.high, &zeros, 0, &zeros)
    }),
    (&READ_SUMS, |test| {
        let zeros = bytes(&vec![0; test.order]);
        let others = [zeros.clone(), zeros, vec![0x5A; 8]];
        Call {
            numbers: vec![0, 0],
            ..call_on(&test.low, &test.high, &others)
        }
    }),
    (&WRITE_SUMMARY, |test| {
        let zeros = vec![0; test.order];
        write_call(&RawProblem {
            order: test.order,
            low: test.low.clone(),
            high: test.high.clone(),
            linear_low: zeros.clone(),
            linear_high: zeros.clone(),
            limit: 0,
            centre: zeros,
        })
    }),
];

/// A call of the judge, whose outputs hold random bytes.
pub fn judge_call(low: &[i64], high: &[i64]) -> Call {
    let order = low.len().isqrt();
    let mut random = Random::new(order as u64);
    let mut output = |count: usize| random.bytes(8 * count);
    let outputs = [output(order * order), output(order), output(1)];
    call_on(low, high, &outputs)
}

/// A call of the bracket, whose outputs hold random bytes.
pub fn stiffness_call(low: &[i64], high: &[i64]) -> Call {
    let order = low.len().isqrt();
    let mut random = Random::new(order as u64);
    let mut output = |count: usize| random.bytes(8 * count);
    let outputs = [output(1), output(1), output(order)];
    call_on(low, high, &outputs)
}

/// A call of the factor test, whose output holds random bytes.
pub fn factor_call(low: &[i64], high: &[i64], factor: &[i64]) -> Call {
    let over = Random::new(low.len() as u64).bytes(8);
    call_on(low, high, &[bytes(factor), over])
}

/// The places of the box's buffers after the bounds; sums have the first two
pub const LINEAR_LOW: usize = 2;
pub const LINEAR_HIGH: usize = 3;
pub const CENTRE: usize = 4;
pub const SIDES: usize = 5;

/// A call of the box with equal ends, whose sides hold random bytes.
pub fn box_call(low: &[i64], high: &[i64], linear: &[i64], limit: i64, centre: &[i64]) -> Call {
    problem_call(&RawProblem {
        order: linear.len(),
        low: low.to_vec(),
        high: high.to_vec(),
        linear_low: linear.to_vec(),
        linear_high: linear.to_vec(),
        limit,
        centre: centre.to_vec(),
    })
}

/// A call of the box of a problem, whose sides hold random bytes.
pub fn problem_call(problem: &RawProblem) -> Call {
    let order = problem.order;
    let sides = Random::new(order as u64).bytes(16 * order);
    let others = [
        bytes(&problem.linear_low),
        bytes(&problem.linear_high),
        bytes(&problem.centre),
        sides,
    ];
    Call {
        numbers: vec![problem.limit],
        ..call_on(&problem.low, &problem.high, &others)
    }
}

/// The place of the file in a call of the writer
pub const FILE: usize = 5;

/// A call of the writer, whose file holds random bytes.
pub fn write_call(problem: &RawProblem) -> Call {
    let order = problem.order;
    let size = 30 + 8 * order * order + 24 * order;
    let mut call = problem_call(problem);
    call.buffers[FILE] = Random::new(size as u64).bytes(size);
    call
}

/// A call on bounds, with the buffers that follow them.
pub fn call_on(low: &[i64], high: &[i64], others: &[Vec<u8>]) -> Call {
    let buffers = [&[bytes(low), bytes(high)], others].concat();
    Call::new(low.len().isqrt() as i64, buffers)
}

/// A table with one number on the diagonal and another elsewhere.
pub fn square(order: usize, diagonal: i64, others: i64) -> Vec<i64> {
    let mut table = vec![others; order * order];
    for i in 0..order {
        table[i * order + i] = diagonal;
    }
    table
}

/// A number beyond a range on each side, then the ends of 64 bits.
pub fn beyond(range: i64) -> [i64; 4] {
    [-range - 1, range + 1, i64::MIN, i64::MAX]
}

/// All places (i, j) at every order.
pub fn places() -> impl Iterator<Item = (usize, usize, usize)> {
    let rows = (1..=8).flat_map(|order| (0..order).map(move |i| (order, i)));
    rows.flat_map(|(order, i)| (0..order).map(move |j| (order, i, j)))
}
