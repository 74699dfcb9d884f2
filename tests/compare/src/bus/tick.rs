//! A tick of the bus.

use hankboulder_reference::bus::{BUSY, STATUS, VERDICT};
use hankboulder_reference::bus_run::NEXT;
use hankboulder_reference::entries;
use hankboulder_reference::generate::Operation;

use super::{generated, write::WRITE, BLOCK, RUN};
use crate::act::{Act, Call};
use crate::counts::{Detail, Outcome};
use crate::guarded::Lent;
use crate::numbers;

extern "C" {
    fn hb_bus_tick(block: *mut u8, block_len: usize, run: *mut u8, run_len: usize) -> i64;
}

const TAKEN: i64 = 0;

/// What a tick of good sizes does.
#[derive(Clone, Copy, Debug, PartialEq, Eq, PartialOrd, Ord)]
#[allow(missing_docs)]
pub enum Ticked {
    Idle,
    WithoutRun,
    Column,
    Stop,
    /// The verdict with this number
    Verdict(u8),
}

/// A tick.
pub const TICK: Act = Act {
    name: "hb_bus_tick",
    answers: &[TAKEN, 2],
    generate: |generator| generated(generator, |one| *one == Operation::Tick),
    reference,
    library,
    confirm: |_, _| {},
    ..WRITE
};

fn reference(call: &mut Call) -> Outcome {
    let before = call.clone();
    let [block, run] = &mut call.buffers[..] else {
        unreachable!("a tick has two buffers");
    };
    let answer = entries::bus_tick(block, run);
    let detail = (answer == TAKEN).then(|| Detail::Ticked(ticked(&before, call)));
    Outcome { answer, detail }
}

/// What a tick has done.
fn ticked(before: &Call, after: &Call) -> Ticked {
    let is_busy = |call: &Call| call.buffers[BLOCK][STATUS] & BUSY != 0;
    let next = |call: &Call| numbers(&call.buffers[RUN])[NEXT];
    match (is_busy(before), is_busy(after)) {
        (false, _) => Ticked::Idle,
        (true, false) => Ticked::Verdict(after.buffers[BLOCK][VERDICT]),
        (true, true) if before.buffers == after.buffers => Ticked::WithoutRun,
        (true, true) if next(before) < next(after) => Ticked::Column,
        (true, true) => Ticked::Stop,
    }
}

fn library(_: &Call, lent: &[Lent]) -> i64 {
    let [block, run] = lent else {
        unreachable!("a tick has two buffers");
    };
    // SAFETY: each pointer has its length in readable and writable bytes, and they do not
    // overlap.
    unsafe { hb_bus_tick(block.pointer, block.length, run.pointer, run.length) }
}
