//! The line of the bus.

use hankboulder_reference::entries;
use hankboulder_reference::generate::Operation;

use super::{generated, tick::TICK, BLOCK};
use crate::act::{Act, Call};
use crate::guarded::Lent;

extern "C" {
    fn hb_bus_line(block: *const u8, block_len: usize) -> i64;
}

/// The line.
pub const LINE: Act = Act {
    name: "hb_bus_line",
    answers: &[0, -1, 2],
    generate: |generator| generated(generator, |one| *one == Operation::Line),
    reference: |call| entries::bus_line(&call.buffers[BLOCK]).into(),
    library,
    ..TICK
};

fn library(_: &Call, lent: &[Lent]) -> i64 {
    let block = lent[BLOCK];
    // SAFETY: the pointer has its length in readable bytes.
    unsafe { hb_bus_line(block.pointer, block.length) }
}
