//! Calls with plain numbers, and exact checks by routes other than the
//! library's.

use std::collections::BTreeSet;

use hankboulder_reference::entries;
use hankboulder_reference::generate::{
    BoxCall, FactorCall, GatherCall, JudgeCall, PoolCall, RawProblem, ReadCall, StiffnessCall,
    SumsCall, WriteCall,
};
use hankboulder_reference::writer::file_size;

/// Contents of output buffers before a call.
pub const UNWRITTEN: i64 = 0x5A5A_5A5A_5A5A_5A5A;

/// Numbers as 8 bytes each.
pub fn bytes(numbers: &[i64]) -> Vec<u8> {
    numbers.iter().flat_map(|m| m.to_le_bytes()).collect()
}

/// The numbers of 8 bytes each.
pub fn numbers(bytes: &[u8]) -> Vec<i64> {
    let number = |chunk: &[u8]| i64::from_le_bytes(chunk.try_into().unwrap());
    bytes.chunks(8).map(number).collect()
}

/// The judge's return value and its three outputs.
#[derive(Debug, PartialEq, Eq)]
pub struct Judged {
    pub code: i64,
    pub factor: Vec<i64>,
    pub vector: Vec<i64>,
    pub over: i64,
}

/// Judges tables given as numbers.
pub fn judge(n: usize, low: &[i64], high: &[i64]) -> Judged {
    let mut call = JudgeCall {
        n: n as i64,
        low: bytes(low),
        high: bytes(high),
        factor: bytes(&vec![UNWRITTEN; n * n]),
        vector: bytes(&vec![UNWRITTEN; n]),
        over: bytes(&[UNWRITTEN]),
    };
    Judged {
        code: run_judge(&mut call),
        factor: numbers(&call.factor),
        vector: numbers(&call.vector),
        over: numbers(&call.over)[0],
    }
}

/// The factor test's return value, and what the rows have over, of tables given as
/// numbers.
pub fn test_factor(n: usize, low: &[i64], high: &[i64], factor: &[i64]) -> (i64, i64) {
    let mut call = FactorCall {
        n: n as i64,
        low: bytes(low),
        high: bytes(high),
        factor: bytes(factor),
        over: bytes(&[UNWRITTEN]),
    };
    let code = run_factor(&mut call);
    (code, numbers(&call.over)[0])
}

/// The return value of the bracket and its three outputs.
#[derive(Debug, PartialEq, Eq)]
pub struct Bracketed {
    pub code: i64,
    pub step: i64,
    pub bound: i64,
    pub vector: Vec<i64>,
}

/// The bracket of tables given as numbers.
pub fn bracket(n: usize, low: &[i64], high: &[i64]) -> Bracketed {
    let mut call = StiffnessCall {
        n: n as i64,
        low: bytes(low),
        high: bytes(high),
        step: bytes(&[UNWRITTEN]),
        bound: bytes(&[UNWRITTEN]),
        vector: bytes(&vec![UNWRITTEN; n]),
    };
    Bracketed {
        code: run_stiffness(&mut call),
        step: numbers(&call.step)[0],
        bound: numbers(&call.bound)[0],
        vector: numbers(&call.vector),
    }
}

/// Runs a generated call of the judge.
pub fn run_judge(call: &mut JudgeCall) -> i64 {
    entries::judge(
        call.n,
        &call.low,
        &call.high,
        &mut call.factor,
        &mut call.vector,
        &mut call.over,
    )
}

/// Runs a generated call of the factor test.
pub fn run_factor(call: &mut FactorCall) -> i64 {
    entries::test_factor(call.n, &call.low, &call.high, &call.factor, &mut call.over)
}

/// Runs a generated call of the box.
pub fn run_box(call: &mut BoxCall) -> i64 {
    entries::enclose(
        call.n,
        &call.low,
        &call.high,
        &call.linear_low,
        &call.linear_high,
        call.limit,
        &call.centre,
        &mut call.sides,
    )
}

/// Runs a generated call of the bracket.
pub fn run_stiffness(call: &mut StiffnessCall) -> i64 {
    entries::stiffness(
        call.n,
        &call.low,
        &call.high,
        &mut call.step,
        &mut call.bound,
        &mut call.vector,
    )
}

/// Runs a generated call of gathering.
pub fn run_gather(call: &mut GatherCall) -> i64 {
    entries::gather(
        &call.sample,
        call.n,
        &mut call.low,
        &mut call.high,
        &mut call.linear_low,
        &mut call.linear_high,
        &mut call.running_limit,
    )
}

/// Runs a call of pooling.
pub fn run_pool(call: &mut PoolCall) -> i64 {
    entries::pool(
        call.n,
        &mut call.low,
        &mut call.high,
        &mut call.linear_low,
        &mut call.linear_high,
        &mut call.running_limit,
        &call.orders,
        &call.lows,
        &call.highs,
        &call.linear_lows,
        &call.linear_highs,
        &call.limits,
    )
}

/// Runs a generated call of reading the sums.
pub fn run_sums(call: &mut SumsCall) -> i64 {
    entries::read_sums(
        call.n,
        &call.low,
        &call.high,
        &call.linear_low,
        &call.linear_high,
        call.running_limit,
        call.allowance,
        &mut call.limit,
    )
}

/// Runs a call of the writer.
pub fn run_write(call: &mut WriteCall) -> i64 {
    entries::write_summary(
        call.n,
        &call.low,
        &call.high,
        &call.linear_low,
        &call.linear_high,
        call.limit,
        &call.centre,
        &mut call.file,
    )
}

/// Runs a call of reading a summary.
pub fn run_read(call: &mut ReadCall) -> i64 {
    entries::read_summary(
        &call.file,
        &mut call.order,
        &mut call.low,
        &mut call.high,
        &mut call.linear_low,
        &mut call.linear_high,
        &mut call.limit,
        &mut call.centre,
    )
}

/// The call that writes a problem.
pub fn write_call(problem: &RawProblem) -> WriteCall {
    WriteCall {
        n: problem.order as i64,
        low: bytes(&problem.low),
        high: bytes(&problem.high),
        linear_low: bytes(&problem.linear_low),
        linear_high: bytes(&problem.linear_high),
        limit: problem.limit,
        centre: bytes(&problem.centre),
        file: vec![0x5A; file_size(problem.order)],
    }
}

/// The call that reads a file, its outputs unwritten.
pub fn read_call(file: &[u8]) -> ReadCall {
    let output = |count: usize| bytes(&vec![UNWRITTEN; count]);
    ReadCall {
        file: file.to_vec(),
        order: output(1),
        low: output(64),
        high: output(64),
        linear_low: output(8),
        linear_high: output(8),
        limit: output(1),
        centre: output(8),
    }
}

/// The box's return value and the sides, with equal ends of the linear terms.
pub fn enclose(low: &[i64], high: &[i64], a: &[i64], limit: i64, c: &[i64]) -> (i64, Vec<i64>) {
    enclose_problem(&RawProblem {
        order: a.len(),
        low: low.to_vec(),
        high: high.to_vec(),
        linear_low: a.to_vec(),
        linear_high: a.to_vec(),
        limit,
        centre: c.to_vec(),
    })
}

/// The box's return value and the sides of a whole problem.
pub fn enclose_problem(problem: &RawProblem) -> (i64, Vec<i64>) {
    let mut call = BoxCall {
        n: problem.order as i64,
        low: bytes(&problem.low),
        high: bytes(&problem.high),
        linear_low: bytes(&problem.linear_low),
        linear_high: bytes(&problem.linear_high),
        limit: problem.limit,
        centre: bytes(&problem.centre),
        sides: bytes(&vec![UNWRITTEN; 2 * problem.order]),
    };
    let code = run_box(&mut call);
    (code, numbers(&call.sides))
}

/// x'Mx for a table of numbers.
pub fn quadratic_form(matrix: &[i64], x: &[i64]) -> i128 {
    let n = x.len();
    let mut sum = 0;
    for (place, entry) in matrix.iter().enumerate() {
        sum += i128::from(*entry) * i128::from(x[place / n]) * i128::from(x[place % n]);
    }
    sum
}

/// Every member (R3.2) with each entry at a bound of its place or of the mirrored one.
/// A member is symmetric, and between the bounds of both places.
pub fn corners(n: usize, low: &[i64], high: &[i64]) -> Vec<Vec<i64>> {
    let mut list = vec![vec![0; n * n]];
    for (i, j) in (0..n).flat_map(|i| (i..n).map(move |j| (i, j))) {
        let places = [i * n + j, j * n + i];
        let between = |entry: &i64| {
            places
                .iter()
                .all(|p| low[*p] <= *entry && *entry <= high[*p])
        };
        let bounds = places.iter().flat_map(|place| [low[*place], high[*place]]);
        let entries: BTreeSet<i64> = bounds.filter(between).collect();
        let with = |entry: &i64| {
            let mut longer = list.clone();
            for matrix in &mut longer {
                places.iter().for_each(|place| matrix[*place] = *entry);
            }
            longer
        };
        list = entries.iter().flat_map(with).collect();
    }
    list
}

/// Whether all leading minors are positive, by elimination without fractions.
/// For orders up to 4 no number leaves 128 bits.
pub fn minors_positive(n: usize, matrix: &[i64]) -> bool {
    assert!(n <= 4);
    let mut m: Vec<Vec<i128>> = matrix
        .chunks(n)
        .map(|row| row.iter().map(|entry| i128::from(*entry)).collect())
        .collect();
    let mut previous = 1;
    for k in 0..n {
        let pivot = m[k][k];
        if pivot <= 0 {
            return false;
        }
        let upper = m[k].clone();
        for row in &mut m[k + 1..] {
            let head = row[k];
            for (entry, above) in row.iter_mut().zip(&upper) {
                *entry = (*entry * pivot - head * above) / previous;
            }
        }
        previous = pivot;
    }
    true
}
