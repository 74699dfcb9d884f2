//! The calls of an act, and the second implementation's answers.

use hankboulder_reference::entries;
use hankboulder_reference::generate::Generator;
use hankboulder_reference::rides::Sample;

use crate::bus;

/// The acts, numbered as in `load.h`.
#[derive(Clone, Copy, Debug, PartialEq, Eq)]
#[repr(i64)]
#[allow(missing_docs)]
pub enum Act {
    Judge = 0,
    TestFactor = 1,
    TestVector = 2,
    Box = 3,
    Stiffness = 4,
    Gather = 5,
    Pool = 6,
    ReadSums = 7,
    WriteSummary = 8,
    ReadSummary = 9,
    BusWrite = 10,
    BusTick = 11,
    BusRead = 12,
    BusLine = 13,
}

/// How many buffers running sums have.
pub const SUMS: usize = 5;

impl Act {
    /// How many of the buffers are read: the first ones.
    pub fn read(self) -> usize {
        match self {
            Act::Judge | Act::Stiffness | Act::BusTick => 2,
            Act::TestFactor | Act::TestVector => 3,
            Act::Box | Act::Gather | Act::WriteSummary => 5,
            Act::Pool => 11,
            Act::ReadSums | Act::BusWrite => 4,
            Act::ReadSummary | Act::BusRead | Act::BusLine => 1,
        }
    }

    /// From which one on these are only read: the sums in front are written too, and so are
    /// block and run area.
    pub fn only_read_from(self) -> usize {
        match self {
            Act::Gather | Act::Pool => SUMS,
            Act::BusWrite | Act::BusTick => 2,
            _ => 0,
        }
    }

    /// Whether it is an act of the bus.
    pub fn is_of_bus(self) -> bool {
        matches!(
            self,
            Act::BusWrite | Act::BusTick | Act::BusRead | Act::BusLine
        )
    }

    /// Whether its buffers have both ends of linear terms, after the tables.
    pub fn has_ends(self) -> bool {
        matches!(
            self,
            Act::Box | Act::Gather | Act::ReadSums | Act::WriteSummary
        )
    }
}

/// The order that a file begins with, and 0 where it does not begin with one.
pub fn order_in(file: &[u8]) -> i64 {
    match file {
        [1, 1, 0, order, ..] => i64::from(*order),
        _ => 0,
    }
}

/// What a call is passed besides its buffers. What its act does not take is 0, but
/// n of a summary that is read is the order that the file begins with, and of the bus the
/// order in its block, or for a tick that in its run area.
#[derive(Clone, Debug, Default)]
#[allow(missing_docs)]
pub struct Passed {
    pub n: i64,
    pub sample: Sample,
    pub limit: i64,
    pub running_limit: i64,
    pub allowance: i64,
    pub address: i64,
    pub value: u8,
}

/// The arguments of a call.
#[derive(Clone, Debug)]
pub struct Call {
    /// The act
    pub act: Act,
    /// What is passed by value
    pub passed: Passed,
    /// The buffers in the order of the C entry
    pub buffers: Vec<Vec<u8>>,
}

impl Call {
    /// A generated call, faulty ones among them.
    pub fn generated(act: Act, generator: &mut Generator) -> Call {
        let mut passed = Passed::default();
        let buffers = match act {
            Act::Judge => {
                let call = generator.judge_call();
                passed.n = call.n;
                vec![call.low, call.high, call.factor, call.vector, call.over]
            }
            Act::TestFactor => {
                let call = generator.factor_call();
                passed.n = call.n;
                vec![call.low, call.high, call.factor, call.over]
            }
            Act::TestVector => {
                let call = generator.vector_call();
                passed.n = call.n;
                vec![call.low, call.high, call.vector]
            }
            Act::Box => {
                let call = generator.box_call();
                (passed.n, passed.limit) = (call.n, call.limit);
                let sums = [call.low, call.high, call.linear_low, call.linear_high];
                sums.into_iter().chain([call.centre, call.sides]).collect()
            }
            Act::Stiffness => {
                let call = generator.stiffness_call();
                passed.n = call.n;
                vec![call.low, call.high, call.step, call.bound, call.vector]
            }
            Act::Gather => {
                let call = generator.gather_call();
                (passed.n, passed.sample) = (call.n, call.sample);
                let sums = [call.low, call.high, call.linear_low, call.linear_high];
                sums.into_iter().chain([call.running_limit]).collect()
            }
            Act::Pool => {
                let call = generator.pool_call();
                passed.n = call.n;
                let sums = [call.low, call.high, call.linear_low, call.linear_high];
                let sums = sums.into_iter().chain([call.running_limit, call.orders]);
                let lists = [call.lows, call.highs, call.linear_lows, call.linear_highs];
                sums.chain(lists).chain([call.limits]).collect()
            }
            Act::ReadSums => {
                let call = generator.sums_call();
                (passed.n, passed.allowance) = (call.n, call.allowance);
                passed.running_limit = call.running_limit;
                let sums = [call.low, call.high, call.linear_low, call.linear_high];
                sums.into_iter().chain([call.limit]).collect()
            }
            Act::WriteSummary => {
                let call = generator.write_call();
                (passed.n, passed.limit) = (call.n, call.limit);
                let sums = [call.low, call.high, call.linear_low, call.linear_high];
                sums.into_iter().chain([call.centre, call.file]).collect()
            }
            Act::ReadSummary => {
                let call = generator.read_call();
                passed.n = order_in(&call.file);
                vec![
                    call.file,
                    call.order,
                    call.low,
                    call.high,
                    call.linear_low,
                    call.linear_high,
                    call.limit,
                    call.centre,
                ]
            }
            Act::BusWrite | Act::BusTick | Act::BusRead | Act::BusLine => {
                bus::generated(act, generator, &mut passed)
            }
        };
        Call {
            act,
            passed,
            buffers,
        }
    }

    /// The second implementation's answer. The buffers are left as they are
    /// after the call.
    pub fn answer(&mut self) -> i64 {
        let passed = &self.passed;
        let n = passed.n;
        match (self.act, &mut self.buffers[..]) {
            (Act::Judge, [low, high, factor, vector, over]) => {
                entries::judge(n, low, high, factor, vector, over)
            }
            (Act::TestFactor, [low, high, factor, over]) => {
                entries::test_factor(n, low, high, factor, over)
            }
            (Act::TestVector, [low, high, vector]) => entries::test_vector(n, low, high, vector),
            (Act::Box, [low, high, least, most, centre, sides]) => {
                entries::enclose(n, low, high, least, most, passed.limit, centre, sides)
            }
            (Act::Stiffness, [low, high, step, bound, vector]) => {
                entries::stiffness(n, low, high, step, bound, vector)
            }
            (Act::Gather, [low, high, least, most, running]) => {
                entries::gather(&passed.sample, n, low, high, least, most, running)
            }
            (
                Act::Pool,
                [low, high, least, most, running, orders, lows, highs, leasts, mosts, limits],
            ) => entries::pool(
                n, low, high, least, most, running, orders, lows, highs, leasts, mosts, limits,
            ),
            (Act::ReadSums, [low, high, least, most, limit]) => {
                let (running, allowance) = (passed.running_limit, passed.allowance);
                entries::read_sums(n, low, high, least, most, running, allowance, limit)
            }
            (Act::WriteSummary, [low, high, least, most, centre, file]) => {
                entries::write_summary(n, low, high, least, most, passed.limit, centre, file)
            }
            (Act::ReadSummary, [file, order, low, high, least, most, limit, centre]) => {
                entries::read_summary(file, order, low, high, least, most, limit, centre)
            }
            (Act::BusWrite, [block, run, low, high]) => {
                entries::bus_write(block, run, passed.address, passed.value, low, high)
            }
            (Act::BusTick, [block, run]) => entries::bus_tick(block, run),
            (Act::BusRead, [block, value]) => entries::bus_read(block, passed.address, value),
            (Act::BusLine, [block]) => entries::bus_line(block),
            _ => unreachable!("each act has its number of buffers"),
        }
    }
}
