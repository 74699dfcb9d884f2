//! A read from the bus.

use hankboulder_reference::entries;
use hankboulder_reference::generate::Operation;

use super::{generated, tick::TICK};
use crate::act::{Act, Call};
use crate::counts::Outcome;
use crate::guarded::Lent;

extern "C" {
    fn hb_bus_read(
        block: *const u8,
        block_len: usize,
        address: i64,
        value: *mut u8,
        value_len: usize,
    ) -> i64;
}

/// A read. Its number is the address.
pub const READ: Act = Act {
    name: "hb_bus_read",
    generate: |generator| generated(generator, |one| matches!(one, Operation::Read { .. })),
    reference,
    library,
    ..TICK
};

fn reference(call: &mut Call) -> Outcome {
    let [block, value] = &mut call.buffers[..] else {
        unreachable!("a read has two buffers");
    };
    entries::bus_read(block, call.numbers[0], value).into()
}

fn library(call: &Call, lent: &[Lent]) -> i64 {
    let [block, value] = lent else {
        unreachable!("a read has two buffers");
    };
    let address = call.numbers[0];
    // SAFETY: each pointer has its length in readable and writable bytes, and they do not
    // overlap.
    unsafe {
        hb_bus_read(
            block.pointer,
            block.length,
            address,
            value.pointer,
            value.length,
        )
    }
}
