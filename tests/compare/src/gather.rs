//! Gathering.

use hankboulder_reference::entries;
use hankboulder_reference::generate::Generator;
use hankboulder_reference::rides::{self, Sample};

use crate::act::{Act, Call, Inputs};
use crate::counts::{Detail, Kind, Outcome};
use crate::guarded::Lent;
use crate::sums::{beyond, confirm_read, lists, with_lent};

/// A sample as C passes it. The bits of its floats are passed as they are.
#[repr(C)]
struct HbSample {
    rolling: f32,
    climb: f32,
    air: f32,
    start: f32,
    draw: f32,
}

extern "C" {
    fn hb_gather(
        sample: HbSample,
        n: i64,
        low: *mut u8,
        low_len: usize,
        high: *mut u8,
        high_len: usize,
        linear_low: *mut u8,
        linear_low_len: usize,
        linear_high: *mut u8,
        linear_high_len: usize,
        running_limit: *mut u8,
        running_limit_len: usize,
    ) -> i64;
}

const TAKEN: i64 = 0;
const REFUSED_RANGE: i64 = 3;

/// Gathering.
pub const GATHER: Act = Act {
    name: "hb_gather",
    answers: &[0, 17, 1, 2, 3, 4, 5, 16],
    // An order other than 4 is refused, at the latest by 2.
    possible: |order, answer| order == 4 || answer == 17 || answer == 2,
    inputs: Inputs::Sampled(5),
    generate,
    reference,
    library,
    confirm,
};

fn generate(generator: &mut Generator) -> Call {
    let call = generator.gather_call();
    let buffers = vec![
        call.low,
        call.high,
        call.linear_low,
        call.linear_high,
        call.running_limit,
    ];
    Call {
        sample: call.sample,
        ..Call::new(call.n, buffers)
    }
}

fn reference(call: &mut Call) -> Outcome {
    let before = call.clone();
    let [low, high, linear_low, linear_high, running] = &mut call.buffers[..] else {
        unreachable!("gathering has five buffers");
    };
    let (n, sample) = (call.n, &call.sample);
    let answer = entries::gather(sample, n, low, high, linear_low, linear_high, running);
    let detail = match answer {
        TAKEN => halved_for(&before).map(Detail::Halved),
        REFUSED_RANGE => beyond(&lists(&before)).map(Detail::Beyond),
        _ => None,
    };
    Outcome { answer, detail }
}

/// The kind of the sums that would leave their range with the sample in them, where it is
/// one alone.
fn halved_for(call: &Call) -> Option<Kind> {
    let read = with_lent(&mut lists(call), |lent| {
        rides::read(&call.sample, call.n, &lent)
    });
    let (sums, gains) = read.expect("the sample is taken");
    let whole = sums.plus(&gains);
    let narrow = |list: &[i128]| list.iter().map(|number| *number as i64).collect();
    beyond(&[
        narrow(&whole.low),
        narrow(&whole.high),
        narrow(&whole.linear_low),
        narrow(&whole.linear_high),
        narrow(&[whole.running_limit]),
    ])
}

fn passed(sample: &Sample) -> HbSample {
    let [rolling, climb, air, start, draw] = sample.numbers().map(f32::from_bits);
    HbSample {
        rolling,
        climb,
        air,
        start,
        draw,
    }
}

fn library(call: &Call, lent: &[Lent]) -> i64 {
    let [low, high, linear_low, linear_high, running_limit] = lent else {
        unreachable!("gathering has five buffers");
    };
    // SAFETY: each pointer has its length in readable and writable bytes, and no
    // two overlap.
    unsafe {
        hb_gather(
            passed(&call.sample),
            call.n,
            low.pointer,
            low.length,
            high.pointer,
            high.length,
            linear_low.pointer,
            linear_low.length,
            linear_high.pointer,
            linear_high.length,
            running_limit.pointer,
            running_limit.length,
        )
    }
}

/// Sums that have taken a sample are let through by reading, with no allowance.
fn confirm(after: &Call, answer: i64) {
    if answer == TAKEN {
        confirm_read(after);
    }
}
