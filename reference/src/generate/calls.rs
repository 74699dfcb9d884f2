//! Calls of the acts on a problem, faulty ones among them.

use super::{Generator, RawProblem};
use crate::judge::{verdict, Verdict};
use crate::problem::{
    sides_size, table_size, CENTRE_RANGE, ENTRY_RANGE, LIMIT_RANGE, LINEAR_RANGE, VECTOR_RANGE,
};
use crate::summary::{encode, NUMBER_WIDTH};
use crate::writer::file_size;

/// The factor test's arguments; what the rows have over with its contents before the
/// call.
#[derive(Clone, Debug, PartialEq, Eq)]
#[allow(missing_docs)]
pub struct FactorCall {
    pub n: i64,
    pub low: Vec<u8>,
    pub high: Vec<u8>,
    pub factor: Vec<u8>,
    pub over: Vec<u8>,
}

/// The vector test's arguments.
#[derive(Clone, Debug, PartialEq, Eq)]
#[allow(missing_docs)]
pub struct VectorCall {
    pub n: i64,
    pub low: Vec<u8>,
    pub high: Vec<u8>,
    pub vector: Vec<u8>,
}

/// The judge's arguments; the outputs with their contents before the call.
#[derive(Clone, Debug, PartialEq, Eq)]
#[allow(missing_docs)]
pub struct JudgeCall {
    pub n: i64,
    pub low: Vec<u8>,
    pub high: Vec<u8>,
    pub factor: Vec<u8>,
    pub vector: Vec<u8>,
    pub over: Vec<u8>,
}

/// The box's arguments; the sides with their contents before the call.
#[derive(Clone, Debug, PartialEq, Eq)]
#[allow(missing_docs)]
pub struct BoxCall {
    pub n: i64,
    pub low: Vec<u8>,
    pub high: Vec<u8>,
    pub linear_low: Vec<u8>,
    pub linear_high: Vec<u8>,
    pub limit: i64,
    pub centre: Vec<u8>,
    pub sides: Vec<u8>,
}

/// The bracket's arguments; the outputs with their contents before the call.
#[derive(Clone, Debug, PartialEq, Eq)]
#[allow(missing_docs)]
pub struct StiffnessCall {
    pub n: i64,
    pub low: Vec<u8>,
    pub high: Vec<u8>,
    pub step: Vec<u8>,
    pub bound: Vec<u8>,
    pub vector: Vec<u8>,
}

/// The writer's arguments; the file with its contents before the call.
#[derive(Clone, Debug, PartialEq, Eq)]
#[allow(missing_docs)]
pub struct WriteCall {
    pub n: i64,
    pub low: Vec<u8>,
    pub high: Vec<u8>,
    pub linear_low: Vec<u8>,
    pub linear_high: Vec<u8>,
    pub limit: i64,
    pub centre: Vec<u8>,
    pub file: Vec<u8>,
}

/// Orders that check 1 refuses.
pub(super) const WRONG_ORDERS: [i64; 9] = [
    0,
    -1,
    9,
    257,
    264,
    (1 << 32) + 1,
    -(1 << 32) + 2,
    i64::MIN,
    i64::MAX,
];

/// One call in this many is made faulty, in each of the ways below.
const FAULT_SHARE: usize = 12;

/// One call of the box in this many has t > 0 and t(k) = 0 for some k, where the
/// order allows it.
const STEPLESS_SHARE: usize = 16;

impl Generator {
    /// A call of the factor test.
    pub fn factor_call(&mut self) -> FactorCall {
        let (mut problem, factor) = self.offer();
        self.damage_entries(&mut problem);
        let mut call = FactorCall {
            n: problem.order as i64,
            low: bytes(&problem.low),
            high: bytes(&problem.high),
            factor: bytes(&factor),
            over: self.buffer(1),
        };
        let buffers = &mut [
            &mut call.low,
            &mut call.high,
            &mut call.factor,
            &mut call.over,
        ];
        self.damage_sizes(&mut call.n, buffers);
        call
    }

    /// A call of the vector test.
    pub fn vector_call(&mut self) -> VectorCall {
        let mut problem = self.any_problem();
        let vector = self.offered_vector(&problem);
        self.damage_entries(&mut problem);
        let mut call = VectorCall {
            n: problem.order as i64,
            low: bytes(&problem.low),
            high: bytes(&problem.high),
            vector: bytes(&vector),
        };
        let buffers = &mut [&mut call.low, &mut call.high, &mut call.vector];
        self.damage_sizes(&mut call.n, buffers);
        call
    }

    /// A call of the judge.
    pub fn judge_call(&mut self) -> JudgeCall {
        let mut problem = self.any_problem();
        self.damage_entries(&mut problem);
        let mut call = JudgeCall {
            n: problem.order as i64,
            low: bytes(&problem.low),
            high: bytes(&problem.high),
            factor: self.buffer(table_size(problem.order)),
            vector: self.buffer(problem.order),
            over: self.buffer(1),
        };
        let buffers = &mut [
            &mut call.low,
            &mut call.high,
            &mut call.factor,
            &mut call.vector,
            &mut call.over,
        ];
        self.damage_sizes(&mut call.n, buffers);
        call
    }

    /// A call of the box.
    pub fn box_call(&mut self) -> BoxCall {
        let mut problem = self.any_problem();
        if problem.order >= 3 && self.random.one_in(STEPLESS_SHARE) {
            let stepless = self.stepless(problem.order);
            problem = self.perhaps_apart(stepless);
        }
        self.damage_entries(&mut problem);
        self.damage_terms(&mut problem);
        let mut call = BoxCall {
            n: problem.order as i64,
            low: bytes(&problem.low),
            high: bytes(&problem.high),
            linear_low: bytes(&problem.linear_low),
            linear_high: bytes(&problem.linear_high),
            limit: problem.limit,
            centre: bytes(&problem.centre),
            sides: self.buffer(sides_size(problem.order)),
        };
        let buffers = &mut [
            &mut call.low,
            &mut call.high,
            &mut call.linear_low,
            &mut call.linear_high,
            &mut call.centre,
            &mut call.sides,
        ];
        self.damage_sizes(&mut call.n, buffers);
        call
    }

    /// A call of the bracket of the stiffness.
    pub fn stiffness_call(&mut self) -> StiffnessCall {
        let mut problem = self.bracket_problem();
        self.damage_entries(&mut problem);
        let mut call = StiffnessCall {
            n: problem.order as i64,
            low: bytes(&problem.low),
            high: bytes(&problem.high),
            step: self.buffer(1),
            bound: self.buffer(1),
            vector: self.buffer(problem.order),
        };
        let buffers = &mut [
            &mut call.low,
            &mut call.high,
            &mut call.step,
            &mut call.bound,
            &mut call.vector,
        ];
        self.damage_sizes(&mut call.n, buffers);
        call
    }

    /// A call of the writer.
    pub fn write_call(&mut self) -> WriteCall {
        let mut problem = self.any_problem();
        self.damage_entries(&mut problem);
        self.damage_terms(&mut problem);
        self.damage_width(&mut problem);
        let mut call = WriteCall {
            n: problem.order as i64,
            low: bytes(&problem.low),
            high: bytes(&problem.high),
            linear_low: bytes(&problem.linear_low),
            linear_high: bytes(&problem.linear_high),
            limit: problem.limit,
            centre: bytes(&problem.centre),
            file: self.random.bytes(file_size(problem.order)),
        };
        let buffers = &mut [
            &mut call.low,
            &mut call.high,
            &mut call.linear_low,
            &mut call.linear_high,
            &mut call.centre,
            &mut call.file,
        ];
        self.damage_sizes(&mut call.n, buffers);
        call
    }

    /// Now and then an entry of both tables that its 4 bytes in a file have no room
    /// for: what they would have of it is in range.
    fn damage_width(&mut self, problem: &mut RawProblem) {
        if !self.random.one_in(FAULT_SHARE) {
            return;
        }
        let turns = self.random.pick(&[1, -1, 1 << 20, i64::from(i32::MAX)]);
        let order = problem.order;
        let (i, j) = (self.random.index(order), self.random.index(order));
        for place in [i * order + j, j * order + i] {
            for table in [&mut problem.low, &mut problem.high] {
                table[place] = table[place].wrapping_add(turns << 32);
            }
        }
    }

    /// Random contents for an output of so many numbers.
    pub(super) fn buffer(&mut self, count: usize) -> Vec<u8> {
        self.random.bytes(NUMBER_WIDTH * count)
    }

    /// Now and then a wrong order or a wrong size of one buffer.
    pub(super) fn damage_sizes(&mut self, n: &mut i64, buffers: &mut [&mut Vec<u8>]) {
        if self.random.one_in(2 * FAULT_SHARE) {
            *n = self.random.pick(&WRONG_ORDERS);
        }
        if self.random.one_in(2 * FAULT_SHARE) {
            // An order that the buffers were mostly not made for.
            *n = self.random.between(1, 8);
        }
        if self.random.one_in(FAULT_SHARE) {
            let place = self.random.index(buffers.len());
            let length = buffers[place].len();
            let change = self.random.pick(&[-8, -7, -1, 1, 4, 8, 800]);
            let changed = self.random.pick(&[0, length.saturating_add_signed(change)]);
            let more = changed.saturating_sub(length);
            buffers[place].extend(self.random.bytes(more));
            buffers[place].truncate(changed);
        }
    }

    /// Now and then an entry that check 3 or 4 refuses, in both halves or in one
    /// alone, or a pair of places that check 5 refuses.
    pub(super) fn damage_entries(&mut self, problem: &mut RawProblem) {
        let order = problem.order;
        let i = self.random.index(order);
        let j = self.random.index(order);
        let mut places = vec![i * order + j, j * order + i];
        if self.random.one_in(3) {
            places.pop();
        }
        if self.random.one_in(FAULT_SHARE) {
            let entry = self.beyond(ENTRY_RANGE);
            let mut table = &mut problem.low;
            if self.random.one_in(2) {
                table = &mut problem.high;
            }
            places.iter().for_each(|place| table[*place] = entry);
        }
        if self.random.one_in(FAULT_SHARE) {
            for place in &places {
                problem.low[*place] = problem.high[*place].saturating_add(1);
            }
        }
        if self.random.one_in(FAULT_SHARE / 2) {
            if let Some(pair) = self.mirror_images(order) {
                self.leave_no_number(problem, pair);
            }
        }
    }

    /// Now and then a linear term, limit or centre entry that check 3 refuses,
    /// or one at the end of its range, or a linear term that check 16 refuses.
    pub(super) fn damage_terms(&mut self, problem: &mut RawProblem) {
        let k = self.random.index(problem.order);
        if self.random.one_in(4 * FAULT_SHARE) {
            let end = self.beyond(LINEAR_RANGE);
            match self.random.index(3) {
                0 => problem.linear_low[k] = end,
                1 => problem.linear_high[k] = end,
                _ => (problem.linear_low[k], problem.linear_high[k]) = (end, end),
            }
        }
        if self.random.one_in(2 * FAULT_SHARE) {
            let step = self.random.pick(&[1, 1000, 2 * LINEAR_RANGE as i64]);
            problem.linear_low[k] = problem.linear_high[k].saturating_add(step);
        }
        if self.random.one_in(4 * FAULT_SHARE) {
            problem.limit = self.beyond(LIMIT_RANGE);
        }
        if self.random.one_in(4 * FAULT_SHARE) {
            problem.centre[k] = self.beyond(CENTRE_RANGE);
        }
    }

    /// A number at the end of a range or beyond it.
    pub(super) fn beyond(&mut self, range: i128) -> i64 {
        let range = range as i64;
        let choices = [-range - 1, range + 1, -range, range, i64::MIN, i64::MAX];
        self.random.pick(&choices)
    }

    /// A vector: a witness vector, a random one, zero or one out of range.
    fn offered_vector(&mut self, problem: &RawProblem) -> Vec<i64> {
        let range = self.random.pick(&[1, 1, 3, 100, VECTOR_RANGE as i64]);
        let mut vector: Vec<i64> = (0..problem.order)
            .map(|_| self.random.within(range))
            .collect();
        let place = self.random.index(vector.len());
        match self.random.index(8) {
            0 | 1 => {
                let verdict = problem.bounds().map(|bounds| verdict(&bounds));
                if let Some(Verdict::NotDefinite(_, x)) = verdict {
                    vector = x.iter().map(|entry| *entry as i64).collect();
                }
            }
            2 => vector.fill(0),
            3 => vector[place] = self.beyond(VECTOR_RANGE),
            _ => {}
        }
        vector
    }
}

fn bytes(numbers: &[i64]) -> Vec<u8> {
    encode(numbers, NUMBER_WIDTH)
}
