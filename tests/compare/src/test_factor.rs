//! The factor test.

use hankboulder_reference::entries::{self, POSITIVE};
use hankboulder_reference::problem::{square, Bounds};
use hankboulder_reference::residual::rows_over;

use crate::act::{symmetric_at_1, Act, Call, Inputs};
use crate::counts::{Detail, Outcome, Row};
use crate::guarded::Lent;
use crate::numbers;

extern "C" {
    fn hb_test_factor(
        n: i64,
        low: *const u8,
        low_len: usize,
        high: *const u8,
        high_len: usize,
        factor: *const u8,
        factor_len: usize,
        over: *mut u8,
        over_len: usize,
    ) -> i64;
}

/// The factor test.
pub const TEST_FACTOR: Act = Act {
    name: "hb_test_factor",
    answers: &[0, -1, 1, 2, 3, 4, 5, 6],
    possible: symmetric_at_1,
    inputs: Inputs::Numbers(3),
    generate: |generator| {
        let call = generator.factor_call();
        Call::new(call.n, vec![call.low, call.high, call.factor, call.over])
    },
    reference,
    library,
    confirm,
};

fn reference(call: &mut Call) -> Outcome {
    let [low, high, factor, over] = &mut call.buffers[..] else {
        unreachable!("the factor test has four buffers");
    };
    let answer = entries::test_factor(call.n, low, high, factor, over);
    let detail = match answer {
        ..=0 => least_row(call).map(Detail::LeastIn),
        _ => None,
    };
    Outcome { answer, detail }
}

/// The row that alone has the least over, of a call that is not refused.
fn least_row(call: &Call) -> Option<Row> {
    let order = call.n as usize;
    let list = |place: usize| numbers(&call.buffers[place]);
    let bounds = Bounds::read(order, &list(0), &list(1)).ok()?;
    let rows = rows_over(&bounds, &square(order, &list(2)));
    let least = rows.iter().min()?;
    let mut found = (0..order).filter(|i| rows[*i] == *least);
    let row = found.next()?;
    found.next().is_none().then_some(match row {
        0 => Row::First,
        last if last + 1 == order => Row::Last,
        _ => Row::Middle,
    })
}

fn library(call: &Call, lent: &[Lent]) -> i64 {
    let [low, high, factor, over] = lent else {
        unreachable!("the factor test has four buffers");
    };
    // SAFETY: each pointer has its length in readable and writable bytes, and no two
    // overlap, unless both are tables.
    unsafe {
        hb_test_factor(
            call.n,
            low.pointer,
            low.length,
            high.pointer,
            high.length,
            factor.pointer,
            factor.length,
            over.pointer,
            over.length,
        )
    }
}

/// What the rows have over is 0 or more exactly where the factor is accepted, and within
/// ±2^60.
fn confirm(after: &Call, answer: i64) {
    if answer <= 0 {
        let over = numbers(&after.buffers[3])[0];
        assert_eq!(over >= 0, answer == POSITIVE, "{over}: {after:?}");
        assert!(over.unsigned_abs() < 1 << 60, "{over}: {after:?}");
    }
}
