//! Pooling.

use hankboulder_reference::entries;
use hankboulder_reference::generate::{Generator, PoolCall};
use hankboulder_reference::pool::{self, Lists};
use hankboulder_reference::problem::{ENTRY_RANGE, LIMIT_RANGE, LINEAR_RANGE};
use hankboulder_reference::refusal::Refusal;
use hankboulder_reference::sums::Sums;

use crate::act::{symmetric_at_1, Act, Call, Inputs};
use crate::counts::{one_beyond, Detail, Halvings, Kind, Outcome, Part, Row};
use crate::guarded::Lent;
use crate::numbers;
use crate::sums::{confirm_read, lists, with_lent};

extern "C" {
    fn hb_pool(
        n: i64,
        low: *mut u8,
        low_len: usize,
        high: *mut u8,
        high_len: usize,
        linear_low: *mut u8,
        linear_low_len: usize,
        linear_high: *mut u8,
        linear_high_len: usize,
        running_limit: *mut u8,
        running_limit_len: usize,
        orders: *const u8,
        orders_len: usize,
        lows: *const u8,
        lows_len: usize,
        highs: *const u8,
        highs_len: usize,
        linear_lows: *const u8,
        linear_lows_len: usize,
        linear_highs: *const u8,
        linear_highs_len: usize,
        limits: *const u8,
        limits_len: usize,
    ) -> i64;
}

const TAKEN: i64 = 0;
const REFUSED_RANGE: i64 = 3;
const REFUSED_FULL: i64 = 18;

/// The places of the lists among the buffers, behind the five sums
pub const ORDERS: usize = 5;
/// That of the list of L
pub const LOWS: usize = 6;
/// That of the list of U
pub const HIGHS: usize = 7;
/// That of the list of low ends
pub const LINEAR_LOWS: usize = 8;
/// That of the list of high ends
pub const LINEAR_HIGHS: usize = 9;
/// That of the list of limits
pub const LIMITS: usize = 10;

/// Pooling.
pub const POOL: Act = Act {
    name: "hb_pool",
    answers: &[0, 1, 2, 3, 4, 5, 16, 18],
    possible: symmetric_at_1,
    inputs: Inputs::Pooled,
    generate,
    reference,
    library,
    confirm,
};

fn generate(generator: &mut Generator) -> Call {
    of(generator.pool_call())
}

/// The call with the arguments of a generated one.
pub fn of(call: PoolCall) -> Call {
    let buffers = vec![
        call.low,
        call.high,
        call.linear_low,
        call.linear_high,
        call.running_limit,
        call.orders,
        call.lows,
        call.highs,
        call.linear_lows,
        call.linear_highs,
        call.limits,
    ];
    Call::new(call.n, buffers)
}

fn reference(call: &mut Call) -> Outcome {
    let before = call.clone();
    let [low, high, least, most, running, orders, lows, highs, leasts, mosts, limits] =
        &mut call.buffers[..]
    else {
        unreachable!("pooling has eleven buffers");
    };
    let answer = entries::pool(
        call.n, low, high, least, most, running, orders, lows, highs, leasts, mosts, limits,
    );
    let detail = match answer {
        TAKEN | REFUSED_FULL => Some(adding(&before, answer)),
        REFUSED_RANGE => beyond(&before).map(Detail::Beyond),
        4 | 5 | 16 => part(&before, answer).map(Detail::In),
        _ => None,
    };
    Outcome { answer, detail }
}

/// The lists of a call whose buffers have their sizes, as numbers.
fn problems(call: &Call) -> [Vec<i64>; 6] {
    std::array::from_fn(|place| numbers(&call.buffers[ORDERS + place]))
}

/// Where the sums are halved, or where 18 refuses.
fn adding(call: &Call, answer: i64) -> Detail {
    let [orders, lows, highs, leasts, mosts, limits] = &problems(call);
    let handed = Lists {
        orders,
        lows,
        highs,
        linear_lows: leasts,
        linear_highs: mosts,
        limits,
    };
    let read = with_lent(&mut lists(call), |sums| pool::read(call.n, &sums, &handed));
    let (sums, problems) = read.expect("no check but 18 refuses");
    let adding = pool::add_all(sums, &problems);
    if answer == TAKEN {
        Detail::Pooled(Halvings::of(&adding.halved))
    } else {
        Detail::FullAt(Row::of(adding.halved.len(), problems.len()))
    }
}

/// The kind of the numbers that are beyond their range, where it is one alone.
fn beyond(call: &Call) -> Option<Kind> {
    let [low, high, least, most, running] = lists(call);
    let [_, lows, highs, leasts, mosts, limits] = problems(call);
    one_beyond(&[
        (Kind::Low, low, ENTRY_RANGE),
        (Kind::High, high, ENTRY_RANGE),
        (Kind::LinearLow, least, LINEAR_RANGE),
        (Kind::LinearHigh, most, LINEAR_RANGE),
        (Kind::RunningLimit, running, LIMIT_RANGE),
        (Kind::Lows, lows, ENTRY_RANGE),
        (Kind::Highs, highs, ENTRY_RANGE),
        (Kind::LinearLows, leasts, LINEAR_RANGE),
        (Kind::LinearHighs, mosts, LINEAR_RANGE),
        (Kind::Limits, limits, LIMIT_RANGE),
    ])
}

/// The sums, or the problem, that a check refuses, where it is one alone.
fn part(call: &Call, answer: i64) -> Option<Part> {
    let [low, high, least, most, running] = lists(call);
    let [orders, lows, highs, leasts, mosts, limits] = problems(call);
    let order = call.n as usize;
    let refused = |sums: Result<Sums, Refusal>| sums.map_err(Refusal::number) == Err(answer);
    let of_sums = refused(Sums::read(order, &low, &high, &least, &most, running[0]));
    let of_problem = |k: usize| {
        let tables = k * order * order..(k + 1) * order * order;
        let ends = k * order..(k + 1) * order;
        let (low, high) = (&lows[tables.clone()], &highs[tables]);
        let (least, most) = (&leasts[ends.clone()], &mosts[ends]);
        refused(Sums::read(order, low, high, least, most, limits[k]))
    };
    let places: Vec<usize> = (0..orders.len()).filter(|k| of_problem(*k)).collect();
    match (of_sums, &places[..]) {
        (true, []) => Some(Part::Sums),
        (false, [place]) => Some(Part::Problem(Row::of(*place, orders.len()))),
        _ => None,
    }
}

fn library(call: &Call, lent: &[Lent]) -> i64 {
    let [low, high, least, most, running, orders, lows, highs, leasts, mosts, limits] = lent else {
        unreachable!("pooling has eleven buffers");
    };
    // SAFETY: each pointer has its length in readable and writable bytes, and no two
    // overlap, unless both are lists of tables, or both are lists of ends.
    unsafe {
        hb_pool(
            call.n,
            low.pointer,
            low.length,
            high.pointer,
            high.length,
            least.pointer,
            least.length,
            most.pointer,
            most.length,
            running.pointer,
            running.length,
            orders.pointer,
            orders.length,
            lows.pointer,
            lows.length,
            highs.pointer,
            highs.length,
            leasts.pointer,
            leasts.length,
            mosts.pointer,
            mosts.length,
            limits.pointer,
            limits.length,
        )
    }
}

/// Sums that have taken problems are let through by reading, with no allowance.
fn confirm(after: &Call, answer: i64) {
    if answer == TAKEN {
        confirm_read(after);
    }
}
