//! Reading the sums.

use hankboulder_reference::entries;
use hankboulder_reference::generate::Generator;
use hankboulder_reference::problem::{ENTRY_RANGE, LIMIT_RANGE, LINEAR_RANGE};
use hankboulder_reference::rides::MOST_ALLOWANCE;

use crate::act::{symmetric_at_1, Act, Call, Inputs};
use crate::counts::{one_beyond, Detail, Kind, OfKind, Outcome};
use crate::guarded::Lent;
use crate::numbers;

extern "C" {
    fn hb_read_sums(
        n: i64,
        low: *const u8,
        low_len: usize,
        high: *const u8,
        high_len: usize,
        linear_low: *const u8,
        linear_low_len: usize,
        linear_high: *const u8,
        linear_high_len: usize,
        running_limit: i64,
        allowance: i64,
        limit: *mut u8,
        limit_len: usize,
    ) -> i64;
}

const REFUSED_RANGE: i64 = 3;

/// Reading the sums.
pub const READ_SUMS: Act = Act {
    name: "hb_read_sums",
    answers: &[0, 1, 2, 3, 4, 5, 16],
    possible: symmetric_at_1,
    inputs: Inputs::Numbers(4),
    generate,
    reference,
    library,
    confirm: |_, _| {},
};

fn generate(generator: &mut Generator) -> Call {
    let call = generator.sums_call();
    let buffers = vec![
        call.low,
        call.high,
        call.linear_low,
        call.linear_high,
        call.limit,
    ];
    Call {
        numbers: vec![call.running_limit, call.allowance],
        ..Call::new(call.n, buffers)
    }
}

fn reference(call: &mut Call) -> Outcome {
    let (n, running_limit, allowance) = (call.n, call.numbers[0], call.numbers[1]);
    let [low, high, least, most, limit] = &mut call.buffers[..] else {
        unreachable!("reading the sums has five buffers");
    };
    let answer = entries::read_sums(n, low, high, least, most, running_limit, allowance, limit);
    let detail = match answer {
        REFUSED_RANGE => beyond(call).map(Detail::Beyond),
        _ => None,
    };
    Outcome { answer, detail }
}

/// The kind of the numbers that are beyond their range, where it is one alone. The
/// limit counts where the running limit and the allowance are in theirs.
fn beyond(call: &Call) -> Option<Kind> {
    let [low, high, linear_low, linear_high, _] = &call.buffers[..] else {
        unreachable!("reading the sums has five buffers");
    };
    let (running_limit, allowance) = (call.numbers[0], call.numbers[1]);
    // From 0 to a most is within half of it from its half.
    let half = MOST_ALLOWANCE / 2;
    let mut of_kinds: Vec<OfKind> = vec![
        (Kind::Low, numbers(low), ENTRY_RANGE),
        (Kind::High, numbers(high), ENTRY_RANGE),
        (Kind::LinearLow, numbers(linear_low), LINEAR_RANGE),
        (Kind::LinearHigh, numbers(linear_high), LINEAR_RANGE),
        (Kind::RunningLimit, vec![running_limit], LIMIT_RANGE),
        (
            Kind::Allowance,
            vec![allowance.saturating_sub(half)],
            half.into(),
        ),
    ];
    let in_theirs = one_beyond(&of_kinds[4..]).is_none();
    if in_theirs {
        let limit = running_limit.saturating_add(allowance);
        of_kinds.push((Kind::Limit, vec![limit], LIMIT_RANGE));
    }
    one_beyond(&of_kinds)
}

fn library(call: &Call, lent: &[Lent]) -> i64 {
    let [low, high, linear_low, linear_high, limit] = lent else {
        unreachable!("reading the sums has five buffers");
    };
    // SAFETY: each pointer has its length in readable and writable bytes, and no
    // two overlap, unless both are of the low and the high end.
    unsafe {
        hb_read_sums(
            call.n,
            low.pointer,
            low.length,
            high.pointer,
            high.length,
            linear_low.pointer,
            linear_low.length,
            linear_high.pointer,
            linear_high.length,
            call.numbers[0],
            call.numbers[1],
            limit.pointer,
            limit.length,
        )
    }
}

/// The limit that the library writes, or its refusal.
pub fn given(n: i64, sums: [Vec<u8>; 4], running_limit: i64, allowance: i64) -> Result<i64, i64> {
    let buffers = sums.into_iter().chain([vec![0x5A; 8]]).collect();
    let call = Call {
        numbers: vec![running_limit, allowance],
        ..Call::new(n, buffers)
    };
    match READ_SUMS.given(&call) {
        (0, buffers) => Ok(numbers(&buffers[4])[0]),
        (refusal, _) => Err(refusal),
    }
}
