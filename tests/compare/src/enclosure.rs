//! The box.

use hankboulder_reference::enclosure::Enclosure;
use hankboulder_reference::entries::{enclosed, enclosure_code};
use hankboulder_reference::generate::Generator;
use hankboulder_reference::problem::{CENTRE_RANGE, ENTRY_RANGE, LIMIT_RANGE, LINEAR_RANGE};
use hankboulder_reference::refusal::Refusal;

use crate::act::{symmetric_at_1, Act, Call, Inputs};
use crate::counts::{one_beyond, Detail, Kind, Outcome};
use crate::guarded::Lent;
use crate::numbers;

extern "C" {
    fn hb_box(
        n: i64,
        low: *const u8,
        low_len: usize,
        high: *const u8,
        high_len: usize,
        linear_low: *const u8,
        linear_low_len: usize,
        linear_high: *const u8,
        linear_high_len: usize,
        limit: i64,
        centre: *const u8,
        centre_len: usize,
        sides: *mut u8,
        sides_len: usize,
    ) -> i64;
}

/// The box.
pub const BOX: Act = Act {
    name: "hb_box",
    answers: &[0, -1, 1, 2, 3, 4, 5, 16, 8, 9],
    possible: symmetric_at_1,
    inputs: Inputs::Numbers(5),
    generate,
    reference,
    library,
    confirm,
};

fn generate(generator: &mut Generator) -> Call {
    let call = generator.box_call();
    let buffers = vec![
        call.low,
        call.high,
        call.linear_low,
        call.linear_high,
        call.centre,
        call.sides,
    ];
    Call {
        numbers: vec![call.limit],
        ..Call::new(call.n, buffers)
    }
}

fn reference(call: &mut Call) -> Outcome {
    let (n, limit) = (call.n, call.numbers[0]);
    let [low, high, linear_low, linear_high, centre, sides] = &mut call.buffers[..] else {
        unreachable!("the box has six buffers");
    };
    let answer = enclosed(n, low, high, linear_low, linear_high, limit, centre, sides);
    Outcome {
        answer: enclosure_code(&answer),
        detail: match answer {
            Err(Refusal::Range) => beyond(call).map(Detail::Beyond),
            Ok(Enclosure::Sides(sides)) => {
                let stepless = sides.iter().any(|side| side.step == 0);
                stepless.then_some(Detail::Stepless)
            }
            _ => None,
        },
    }
}

/// The kind of the numbers that are beyond their range, where it is one alone.
fn beyond(call: &Call) -> Option<Kind> {
    let [low, high, linear_low, linear_high, centre, _] = &call.buffers[..] else {
        unreachable!("the box has six buffers");
    };
    one_beyond(&[
        (Kind::Low, numbers(low), ENTRY_RANGE),
        (Kind::High, numbers(high), ENTRY_RANGE),
        (Kind::LinearLow, numbers(linear_low), LINEAR_RANGE),
        (Kind::LinearHigh, numbers(linear_high), LINEAR_RANGE),
        (Kind::Limit, call.numbers.clone(), LIMIT_RANGE),
        (Kind::Centre, numbers(centre), CENTRE_RANGE),
    ])
}

fn library(call: &Call, lent: &[Lent]) -> i64 {
    let [low, high, linear_low, linear_high, centre, sides] = lent else {
        unreachable!("the box has six buffers");
    };
    // SAFETY: each pointer has its length in readable and writable bytes, and no
    // two overlap, unless both are of the low and the high end.
    unsafe {
        hb_box(
            call.n,
            low.pointer,
            low.length,
            high.pointer,
            high.length,
            linear_low.pointer,
            linear_low.length,
            linear_high.pointer,
            linear_high.length,
            call.numbers[0],
            centre.pointer,
            centre.length,
            sides.pointer,
            sides.length,
        )
    }
}

/// Side k of a box that was given has the centre's entry k in its middle.
fn confirm(after: &Call, answer: i64) {
    if answer != 0 {
        return;
    }
    let [_, _, _, _, centre, sides] = &after.buffers[..] else {
        unreachable!("the box has six buffers");
    };
    for (c, side) in numbers(centre).iter().zip(numbers(sides).chunks(2)) {
        assert_eq!(side[0] + side[1], 2 * c, "{after:?}");
        assert!(side[0] <= side[1], "{after:?}");
    }
}
