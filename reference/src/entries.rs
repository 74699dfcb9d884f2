//! The acts over bytes, as the C entries have them: R15 and R22 to R28.
//!
//! Numbers take up 8 bytes (R15.2); what is returned is that of R15.4.

use crate::bus::{self, Bus};
use crate::enclosure::{self, Enclosure};
use crate::judge::{self as judging, Verdict};
use crate::pool::{self as pooling, Lists};
use crate::problem::{
    check_lengths, check_order, sides_size, table_size, write_numbers, Bounds, MAX_ORDER,
};
use crate::refusal::{require, Refusal};
use crate::residual::{self, FactorAnswer};
use crate::rides::{self, Sample};
use crate::stiffness::{self, Bracket};
use crate::summary::{decode, encode, read_problem, NUMBER_WIDTH};
use crate::sums::LentSums;
use crate::vectors;
use crate::writer;

/// 'definite', 'accepted', 'yes', a box, a bracket with its step, a sample taken,
/// problems taken, a limit written, a file written, a problem written, a write, tick or
/// read of the bus done, its line low
pub const POSITIVE: i64 = 0;
/// 'not definite', 'not accepted', 'no', 'empty', a bound alone, the line of the bus raised
pub const NEGATIVE: i64 = -1;
/// 'undecided'
pub const UNDECIDED: i64 = -2;

/// R15.3: how many numbers belong to an order.
type Count = fn(usize) -> usize;
/// The numbers of an end of a, of c or of a vector.
const LIST: Count = |order| order;
/// A buffer of a single number.
const SINGLE: Count = |_| 1;

/// Checks 1 and 2 over bytes, then the numbers of each buffer.
fn read<const N: usize>(n: i64, buffers: [(&[u8], Count); N]) -> Result<[Vec<i64>; N], Refusal> {
    let order = check_order(n)?;
    let lengths = buffers.map(|(bytes, count)| (bytes.len(), NUMBER_WIDTH * count(order)));
    check_lengths(&lengths)?;
    Ok(buffers.map(|(bytes, _)| decode(bytes, NUMBER_WIDTH)))
}

fn write(numbers: &[i64], buffer: &mut [u8]) {
    buffer.copy_from_slice(&encode(numbers, NUMBER_WIDTH));
}

fn write_single(number: i128, buffer: &mut [u8]) {
    let mut numbers = [0];
    write_numbers(&[number], &mut numbers);
    write(&numbers, buffer);
}

/// The judge's return value.
pub fn judge_code(answer: &Result<Verdict, Refusal>) -> i64 {
    match answer {
        Ok(Verdict::Definite(..)) => POSITIVE,
        Ok(Verdict::NotDefinite(..)) => NEGATIVE,
        Ok(Verdict::Undecided) => UNDECIDED,
        Err(refusal) => refusal.number(),
    }
}

/// The box's return value.
pub fn enclosure_code(answer: &Result<Enclosure, Refusal>) -> i64 {
    match answer {
        Ok(Enclosure::Sides(_)) => POSITIVE,
        Ok(Enclosure::Empty) => NEGATIVE,
        Err(refusal) => refusal.number(),
    }
}

/// The factor test. R15.6: 'accepted' and 'not accepted' both write what the rows have
/// over.
pub fn test_factor(n: i64, low: &[u8], high: &[u8], factor: &[u8], over: &mut [u8]) -> i64 {
    let buffers = [
        (low, table_size as Count),
        (high, table_size),
        (factor, table_size),
        (&*over, SINGLE),
    ];
    let tested = read(n, buffers)
        .and_then(|[low, high, factor, _]| residual::test_factor(n, &low, &high, &factor));
    let (code, number) = match tested {
        Ok(FactorAnswer::Accepted(number)) => (POSITIVE, number),
        Ok(FactorAnswer::NotAccepted(number)) => (NEGATIVE, number),
        Err(refusal) => return refusal.number(),
    };
    write_single(number, over);
    code
}

/// The vector test.
pub fn test_vector(n: i64, low: &[u8], high: &[u8], vector: &[u8]) -> i64 {
    let buffers = [
        (low, table_size as Count),
        (high, table_size),
        (vector, LIST),
    ];
    let tested = read(n, buffers)
        .and_then(|[low, high, vector]| vectors::test_vector(n, &low, &high, &vector));
    match tested {
        Ok(true) => POSITIVE,
        Ok(false) => NEGATIVE,
        Err(refusal) => refusal.number(),
    }
}

/// The judge.
pub fn judge(
    n: i64,
    low: &[u8],
    high: &[u8],
    factor: &mut [u8],
    vector: &mut [u8],
    over: &mut [u8],
) -> i64 {
    judge_code(&judged(n, low, high, factor, vector, over))
}

/// The judge, with all that its return value leaves out. R15.6: what the rows have over
/// is written with the factor.
pub fn judged(
    n: i64,
    low: &[u8],
    high: &[u8],
    factor: &mut [u8],
    vector: &mut [u8],
    over: &mut [u8],
) -> Result<Verdict, Refusal> {
    let buffers = [
        (low, table_size as Count),
        (high, table_size),
        (&*factor, table_size),
        (&*vector, LIST),
        (&*over, SINGLE),
    ];
    let [low, high, mut rows, mut x, _] = read(n, buffers)?;
    let verdict = judging::judge(n, &low, &high, &mut rows, &mut x)?;
    write(&rows, factor);
    write(&x, vector);
    if let Verdict::Definite(_, number) = verdict {
        write_single(number, over);
    }
    Ok(verdict)
}

/// The box.
#[allow(clippy::too_many_arguments)]
pub fn enclose(
    n: i64,
    low: &[u8],
    high: &[u8],
    linear_low: &[u8],
    linear_high: &[u8],
    limit: i64,
    centre: &[u8],
    sides: &mut [u8],
) -> i64 {
    let answer = enclosed(n, low, high, linear_low, linear_high, limit, centre, sides);
    enclosure_code(&answer)
}

/// The box, with all that its return value leaves out.
#[allow(clippy::too_many_arguments)]
pub fn enclosed(
    n: i64,
    low: &[u8],
    high: &[u8],
    linear_low: &[u8],
    linear_high: &[u8],
    limit: i64,
    centre: &[u8],
    sides: &mut [u8],
) -> Result<Enclosure, Refusal> {
    let buffers = [
        (low, table_size as Count),
        (high, table_size),
        (linear_low, LIST),
        (linear_high, LIST),
        (centre, LIST),
        (&*sides, sides_size),
    ];
    let [low, high, least, most, centre, mut pairs] = read(n, buffers)?;
    let answer = enclosure::enclose(n, &low, &high, &least, &most, limit, &centre, &mut pairs)?;
    write(&pairs, sides);
    Ok(answer)
}

/// The return value of the bracket of the stiffness.
pub fn stiffness_code(answer: &Result<Bracket, Refusal>) -> i64 {
    match answer {
        Ok(Bracket { step: Some(_), .. }) => POSITIVE,
        Ok(Bracket { step: None, .. }) => NEGATIVE,
        Err(refusal) => refusal.number(),
    }
}

/// The bracket of the stiffness.
pub fn stiffness(
    n: i64,
    low: &[u8],
    high: &[u8],
    step: &mut [u8],
    bound: &mut [u8],
    vector: &mut [u8],
) -> i64 {
    stiffness_code(&bracketed(n, low, high, step, bound, vector))
}

/// The bracket of the stiffness, with all that its return value leaves out. R15.7: bound
/// and vector are written with either answer, and the step where it is given.
pub fn bracketed(
    n: i64,
    low: &[u8],
    high: &[u8],
    step: &mut [u8],
    bound: &mut [u8],
    vector: &mut [u8],
) -> Result<Bracket, Refusal> {
    let buffers = [
        (low, table_size as Count),
        (high, table_size),
        (&*step, SINGLE),
        (&*bound, SINGLE),
        (&*vector, LIST),
    ];
    let [low, high, _, _, mut x] = read(n, buffers)?;
    let bracket = stiffness::bracket(n, &low, &high, &mut x)?;
    write(&x, vector);
    write_single(bracket.bound, bound);
    if let Some(t) = bracket.step {
        write_single(t, step);
    }
    Ok(bracket)
}

/// The return value of what only takes or refuses.
fn taken_code(answer: Result<(), Refusal>) -> i64 {
    answer.map_or_else(Refusal::number, |()| POSITIVE)
}

/// Gathering: the sums are read and written.
#[allow(clippy::too_many_arguments)]
pub fn gather(
    sample: &Sample,
    n: i64,
    low: &mut [u8],
    high: &mut [u8],
    linear_low: &mut [u8],
    linear_high: &mut [u8],
    running_limit: &mut [u8],
) -> i64 {
    let lent = [low, high, linear_low, linear_high, running_limit];
    taken_code(gathered(sample, n, lent))
}

fn gathered(sample: &Sample, n: i64, lent: [&mut [u8]; 5]) -> Result<(), Refusal> {
    // R22.6: 17 comes before 1.
    sample.check()?;
    on_sums(n, lent, |sums| rides::gather(sample, n, sums).map(|_| ()))
}

/// Checks 1 and 2 of sums over bytes, then an act on their numbers. What it leaves of them
/// is written, unless it refuses.
fn on_sums(
    n: i64,
    mut lent: [&mut [u8]; 5],
    act: impl FnOnce(LentSums) -> Result<(), Refusal>,
) -> Result<(), Refusal> {
    let counts = [table_size as Count, table_size, LIST, LIST, SINGLE];
    let buffers = std::array::from_fn(|k| (&*lent[k], counts[k]));
    let mut numbers = read(n, buffers)?;
    let [low, high, linear_low, linear_high, running_limit] = &mut numbers;
    act(LentSums {
        low,
        high,
        linear_low,
        linear_high,
        running_limit,
    })?;
    for (buffer, list) in lent.iter_mut().zip(&numbers) {
        write(list, buffer);
    }
    Ok(())
}

/// Pooling: the sums are read and written, and the six lists read.
#[allow(clippy::too_many_arguments)]
pub fn pool(
    n: i64,
    low: &mut [u8],
    high: &mut [u8],
    linear_low: &mut [u8],
    linear_high: &mut [u8],
    running_limit: &mut [u8],
    orders: &[u8],
    lows: &[u8],
    highs: &[u8],
    linear_lows: &[u8],
    linear_highs: &[u8],
    limits: &[u8],
) -> i64 {
    let sums = [low, high, linear_low, linear_high, running_limit];
    let lists = [lows, highs, linear_lows, linear_highs, limits];
    taken_code(pooled(n, sums, orders, lists))
}

fn pooled(n: i64, lent: [&mut [u8]; 5], orders: &[u8], lists: [&[u8]; 5]) -> Result<(), Refusal> {
    // R27.2: bytes that are no whole numbers have no order that 1 would be asked of.
    check_order(n)?;
    require(orders.len().is_multiple_of(NUMBER_WIDTH), Refusal::Length)?;
    let orders = decode(orders, NUMBER_WIDTH);
    let order = pooling::check_orders(n, &orders)?;
    // R15.3
    let counts = [table_size as Count, table_size, LIST, LIST, SINGLE];
    let size = |count: Count| NUMBER_WIDTH * orders.len() * count(order);
    let lengths: [_; 5] = std::array::from_fn(|k| (lists[k].len(), size(counts[k])));
    check_lengths(&lengths)?;
    let [lows, highs, linear_lows, linear_highs, limits] =
        &lists.map(|list| decode(list, NUMBER_WIDTH));
    let lists = Lists {
        orders: &orders,
        lows,
        highs,
        linear_lows,
        linear_highs,
        limits,
    };
    on_sums(n, lent, |sums| pooling::pool(n, sums, &lists))
}

/// Reading the sums.
#[allow(clippy::too_many_arguments)]
pub fn read_sums(
    n: i64,
    low: &[u8],
    high: &[u8],
    linear_low: &[u8],
    linear_high: &[u8],
    running_limit: i64,
    allowance: i64,
    limit: &mut [u8],
) -> i64 {
    let buffers = [
        (low, table_size as Count),
        (high, table_size),
        (linear_low, LIST),
        (linear_high, LIST),
        (&*limit, SINGLE),
    ];
    taken_code(
        read(n, buffers).and_then(|[low, high, least, most, mut alpha]| {
            let (sum, k) = (running_limit, allowance);
            rides::read_sums(n, &low, &high, &least, &most, sum, k, &mut alpha)?;
            write(&alpha, limit);
            Ok(())
        }),
    )
}

/// Writing a summary file. The file's size is in bytes, not in numbers.
#[allow(clippy::too_many_arguments)]
pub fn write_summary(
    n: i64,
    low: &[u8],
    high: &[u8],
    linear_low: &[u8],
    linear_high: &[u8],
    limit: i64,
    centre: &[u8],
    file: &mut [u8],
) -> i64 {
    let buffers = [
        (low, table_size as Count),
        (high, table_size),
        (linear_low, LIST),
        (linear_high, LIST),
        (centre, LIST),
    ];
    taken_code(
        read(n, buffers).and_then(|[low, high, least, most, centre]| {
            writer::write_summary(n, &low, &high, &least, &most, limit, &centre, file)
        }),
    )
}

/// Reading a summary file (R25): the sizes of the seven outputs, which are those of
/// the greatest order, come before the file.
#[allow(clippy::too_many_arguments)]
pub fn read_summary(
    file: &[u8],
    order: &mut [u8],
    low: &mut [u8],
    high: &mut [u8],
    linear_low: &mut [u8],
    linear_high: &mut [u8],
    limit: &mut [u8],
    centre: &mut [u8],
) -> i64 {
    let lent = [order, low, high, linear_low, linear_high, limit, centre];
    taken_code(summary_read(file, lent))
}

fn summary_read(file: &[u8], mut lent: [&mut [u8]; 7]) -> Result<(), Refusal> {
    let counts = [SINGLE, table_size, table_size, LIST, LIST, SINGLE, LIST];
    let size = |count: Count| NUMBER_WIDTH * count(MAX_ORDER as usize);
    let lengths: Vec<(usize, usize)> = lent
        .iter()
        .zip(counts)
        .map(|(bytes, count)| (bytes.len(), size(count)))
        .collect();
    check_lengths(&lengths)?;
    let problem = read_problem(file)?;
    let bounds = problem.bounds;
    let lists = [
        vec![bounds.order as i128],
        bounds.low.concat(),
        bounds.high.concat(),
        problem.linear_low,
        problem.linear_high,
        vec![problem.limit],
        problem.centre,
    ];
    for (buffer, list) in lent.iter_mut().zip(lists) {
        write_in_front(&list, buffer);
    }
    Ok(())
}

/// R25.3: numbers in front, zeros behind them.
fn write_in_front(numbers: &[i128], buffer: &mut [u8]) {
    let mut whole = vec![0; buffer.len() / NUMBER_WIDTH];
    write_numbers(numbers, &mut whole[..numbers.len()]);
    write(&whole, buffer);
}

/// A write to the bus. The tables are those of a start; no other write looks at them.
pub fn bus_write(
    block: &mut [u8],
    run: &mut [u8],
    address: i64,
    value: u8,
    low: &[u8],
    high: &[u8],
) -> i64 {
    let judge_checks = |n: i64| {
        let [low, high] = read(n, [(low, table_size as Count), (high, table_size)])?;
        Bounds::read(n as usize, &low, &high)
    };
    taken_code(Bus::lent(block, run).and_then(|mut bus| bus.write(address, value, judge_checks)))
}

/// A tick of the bus.
pub fn bus_tick(block: &mut [u8], run: &mut [u8]) -> i64 {
    taken_code(Bus::lent(block, run).map(|mut bus| bus.tick()))
}

/// A read from the bus.
pub fn bus_read(block: &[u8], address: i64, value: &mut [u8]) -> i64 {
    taken_code(bus::read(block, address).and_then(|byte| {
        check_lengths(&[(value.len(), 1)])?;
        value[0] = byte;
        Ok(())
    }))
}

/// The line of the bus (R15.8).
pub fn bus_line(block: &[u8]) -> i64 {
    match bus::is_raised(block) {
        Ok(false) => POSITIVE,
        Ok(true) => NEGATIVE,
        Err(refusal) => refusal.number(),
    }
}
