//! Writing a summary.

use hankboulder_reference::entries;
use hankboulder_reference::generate::Generator;
use hankboulder_reference::problem::{CENTRE_RANGE, ENTRY_RANGE, LIMIT_RANGE, LINEAR_RANGE};

use crate::act::{symmetric_at_1, Act, Call, Inputs};
use crate::counts::{one_beyond, Detail, Kind, Outcome};
use crate::guarded::Lent;
use crate::numbers;
use crate::read_summary::{of_file, unwritten, written_for, READ_SUMMARY};

extern "C" {
    fn hb_write_summary(
        n: i64,
        low: *const u8,
        low_len: usize,
        high: *const u8,
        high_len: usize,
        linear_low: *const u8,
        linear_low_len: usize,
        linear_high: *const u8,
        linear_high_len: usize,
        limit: i64,
        centre: *const u8,
        centre_len: usize,
        file: *mut u8,
        file_len: usize,
    ) -> i64;
}

const REFUSED_RANGE: i64 = 3;
const WRITTEN: i64 = 0;

/// Writing a summary.
pub const WRITE_SUMMARY: Act = Act {
    name: "hb_write_summary",
    answers: &[0, 1, 2, 3, 4, 5, 16],
    possible: symmetric_at_1,
    inputs: Inputs::Numbers(5),
    generate,
    reference,
    library,
    confirm,
};

fn generate(generator: &mut Generator) -> Call {
    let call = generator.write_call();
    let buffers = vec![
        call.low,
        call.high,
        call.linear_low,
        call.linear_high,
        call.centre,
        call.file,
    ];
    Call {
        numbers: vec![call.limit],
        ..Call::new(call.n, buffers)
    }
}

fn reference(call: &mut Call) -> Outcome {
    let (n, limit) = (call.n, call.numbers[0]);
    let [low, high, least, most, centre, file] = &mut call.buffers[..] else {
        unreachable!("writing a summary has six buffers");
    };
    let answer = entries::write_summary(n, low, high, least, most, limit, centre, file);
    let detail = match answer {
        REFUSED_RANGE => beyond(call).map(Detail::Beyond),
        _ => None,
    };
    Outcome { answer, detail }
}

/// The kind of the numbers that are beyond their range, where it is one alone.
fn beyond(call: &Call) -> Option<Kind> {
    let [low, high, linear_low, linear_high, centre, _] = &call.buffers[..] else {
        unreachable!("writing a summary has six buffers");
    };
    one_beyond(&[
        (Kind::Low, numbers(low), ENTRY_RANGE),
        (Kind::High, numbers(high), ENTRY_RANGE),
        (Kind::LinearLow, numbers(linear_low), LINEAR_RANGE),
        (Kind::LinearHigh, numbers(linear_high), LINEAR_RANGE),
        (Kind::Limit, call.numbers.clone(), LIMIT_RANGE),
        (Kind::Centre, numbers(centre), CENTRE_RANGE),
    ])
}

fn library(call: &Call, lent: &[Lent]) -> i64 {
    let [low, high, linear_low, linear_high, centre, file] = lent else {
        unreachable!("writing a summary has six buffers");
    };
    // SAFETY: each pointer has its length in readable and writable bytes, and no
    // two overlap, unless both are of the low and the high end.
    unsafe {
        hb_write_summary(
            call.n,
            low.pointer,
            low.length,
            high.pointer,
            high.length,
            linear_low.pointer,
            linear_low.length,
            linear_high.pointer,
            linear_high.length,
            call.numbers[0],
            centre.pointer,
            centre.length,
            file.pointer,
            file.length,
        )
    }
}

/// A file that is written is read as the numbers that were handed over, mended.
fn confirm(after: &Call, answer: i64) {
    if answer == WRITTEN {
        let read = of_file(after.buffers[5].clone(), unwritten());
        READ_SUMMARY.expect_after(&read, WRITTEN, &written_for(after));
    }
}
