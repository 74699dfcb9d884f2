//! A write to the bus.

use hankboulder_reference::bus::{
    BUSY, COMMAND, FLAGS, MASK, ORDER, REFUSAL, RESET, START, STATUS,
};
use hankboulder_reference::entries;
use hankboulder_reference::generate::Operation;
use hankboulder_reference::problem::MAX_ORDER;

use super::{generated, BLOCK, TABLES};
use crate::act::{Act, Call, Inputs};
use crate::counts::{Detail, Outcome};
use crate::guarded::Lent;
use crate::judge::JUDGE;

extern "C" {
    fn hb_bus_write(
        block: *mut u8,
        block_len: usize,
        run: *mut u8,
        run_len: usize,
        address: i64,
        value: u8,
        low: *const u8,
        low_len: usize,
        high: *const u8,
        high_len: usize,
    ) -> i64;
}

const TAKEN: i64 = 0;
const REFUSED_BUSY: i64 = 20;

/// What a write of good sizes is about.
#[derive(Clone, Copy, Debug, PartialEq, Eq, PartialOrd, Ord)]
#[allow(missing_docs)]
pub enum Written {
    Started,
    /// A start that the judge refuses by this number
    Refused(u8),
    WhileBusy,
    Reset,
    OtherCommand,
    Mask,
    Flags,
    Order,
    Elsewhere,
}

/// A write. Its numbers are the address and the value.
pub const WRITE: Act = Act {
    name: "hb_bus_write",
    answers: &[TAKEN, 2, REFUSED_BUSY],
    possible: |_, _| true,
    inputs: Inputs::Bus,
    generate: |generator| generated(generator, |one| matches!(one, Operation::Write { .. })),
    reference,
    library,
    confirm,
};

/// The address and the value of a write.
pub fn written_to(call: &Call) -> (i64, u8) {
    let [address, value] = call.numbers[..] else {
        unreachable!("a write has an address and a value");
    };
    (address, value as u8)
}

fn reference(call: &mut Call) -> Outcome {
    let (address, value) = written_to(call);
    let [block, run, low, high] = &mut call.buffers[..] else {
        unreachable!("a write has four buffers");
    };
    let answer = entries::bus_write(block, run, address, value, low, high);
    let detail = match answer {
        TAKEN => Some(Detail::Written(taken(call))),
        REFUSED_BUSY => Some(Detail::Written(Written::WhileBusy)),
        _ => None,
    };
    Outcome { answer, detail }
}

/// What a write that is taken is about.
fn taken(after: &Call) -> Written {
    let block = &after.buffers[BLOCK];
    let (address, value) = written_to(after);
    match (usize::try_from(address), value) {
        (Ok(COMMAND), START) if block[STATUS] == BUSY => Written::Started,
        (Ok(COMMAND), START) => Written::Refused(block[REFUSAL]),
        (Ok(COMMAND), RESET) => Written::Reset,
        (Ok(COMMAND), _) => Written::OtherCommand,
        (Ok(MASK), _) => Written::Mask,
        (Ok(FLAGS), _) => Written::Flags,
        (Ok(ORDER), _) => Written::Order,
        _ => Written::Elsewhere,
    }
}

fn library(call: &Call, lent: &[Lent]) -> i64 {
    let (address, value) = written_to(call);
    let [block, run, low, high] = lent else {
        unreachable!("a write has four buffers");
    };
    // SAFETY: each pointer has its length in readable and writable bytes, and no two
    // overlap, unless both are tables.
    unsafe {
        hb_bus_write(
            block.pointer,
            block.length,
            run.pointer,
            run.length,
            address,
            value,
            low.pointer,
            low.length,
            high.pointer,
            high.length,
        )
    }
}

/// A start is refused, in its registers, as the judge refuses its order and tables.
fn confirm(after: &Call, answer: i64) {
    if answer != TAKEN || written_to(after) != (COMMAND as i64, START) {
        return;
    }
    let (block, n) = (&after.buffers[BLOCK], after.n);
    let order = Some(n).filter(|n| *n <= MAX_ORDER).unwrap_or(0) as usize;
    let tables = TABLES.map(|place| after.buffers[place].clone());
    let outputs = [8 * order * order, 8 * order, 8].map(|size| vec![0; size]);
    let judged = JUDGE.given(&Call::new(n, [&tables[..], &outputs].concat()));
    let refusal = judged.0.max(0);
    assert_eq!(i64::from(block[REFUSAL]), refusal, "{after:?}");
    assert_eq!(block[STATUS] == BUSY, refusal == 0, "{after:?}");
}
