//! Answers that are wrong in one place, reads and the line among them.

use hankboulder_compare::bus::given;
use hankboulder_reference::bus::START;
use hankboulder_reference::generate::{Operation, RawBus};

use super::{is_command, Carry, Wrong, BUSY};
use crate::bus::{FLAGS, MASK, STATUS};

const REFUSED_LENGTH: i64 = 2;
const REFUSED_BUSY: i64 = 20;

/// Another answer: of the bus before and after an operation, and the library's answer.
fn answers(other: fn(&RawBus, &Operation, &RawBus, i64) -> i64) -> Carry {
    Box::new(move |bus, operation| {
        let before = bus.clone();
        let answer = given(bus, operation);
        other(&before, operation, bus, answer)
    })
}

/// Another read of an address that the library reads; of the bus after it, and the byte as it
/// was before.
fn reads(other: fn(i64, &mut RawBus, u8)) -> Carry {
    Box::new(move |bus, operation| {
        let before = bus.value.clone();
        let answer = given(bus, operation);
        if let (Operation::Read { address }, 0) = (operation, answer) {
            other(*address, bus, before[0]);
        }
        answer
    })
}

/// Another line: whether it is raised, by the block.
fn lines(is_raised: fn(&[u8]) -> bool) -> Carry {
    Box::new(
        move |bus, operation| match (operation, given(bus, operation)) {
            (Operation::Line, 0 | -1) => -i64::from(is_raised(&bus.block)),
            (_, answer) => answer,
        },
    )
}

/// The library's entries, where one of the buffers is as long as this at least, and what is
/// behind it stays.
fn as_long_as(buffer: fn(&mut RawBus) -> &mut Vec<u8>, length: usize) -> Carry {
    Box::new(move |bus, operation| {
        let size = buffer(bus).len();
        let behind = buffer(bus).split_off(size.min(length));
        let answer = given(bus, operation);
        buffer(bus).extend(behind);
        answer
    })
}

/// The list of them.
pub fn wrong() -> Vec<Wrong> {
    vec![
        (
            "a start while busy that is taken",
            answers(|_, _, _, answer| if answer == REFUSED_BUSY { 0 } else { answer }),
        ),
        (
            "the judge's refusal for an answer",
            answers(|_, operation, bus, answer| {
                if is_command(operation, START) && answer == 0 {
                    i64::from(bus.block[2])
                } else {
                    answer
                }
            }),
        ),
        (
            "20 before 2",
            answers(|before, operation, _, answer| {
                let status = before.block.get(STATUS).copied().unwrap_or(0);
                if is_command(operation, START) && status & BUSY != 0 {
                    REFUSED_BUSY
                } else {
                    answer
                }
            }),
        ),
        (
            "a block that is too long",
            as_long_as(|bus| &mut bus.block, 32),
        ),
        (
            "a run area that is too long",
            as_long_as(|bus| &mut bus.run, 1560),
        ),
        (
            "a read into more than a byte",
            as_long_as(|bus| &mut bus.value, 1),
        ),
        (
            "a read of every register",
            reads(|address, bus, _| {
                if let 0 | 7..=31 = address {
                    bus.value[0] = bus.block[address as usize];
                }
            }),
        ),
        (
            "a read that takes the flags",
            reads(|address, bus, _| {
                if address == FLAGS as i64 {
                    bus.block[FLAGS] = 0;
                }
            }),
        ),
        (
            "a read beyond the block that gives nothing",
            reads(|address, bus, before| {
                if !(0..32).contains(&address) {
                    bus.value[0] = before;
                }
            }),
        ),
        (
            "a read beyond the block that is refused",
            answers(|_, operation, _, answer| match operation {
                Operation::Read { address } if !(0..32).contains(address) => REFUSED_LENGTH,
                _ => answer,
            }),
        ),
        (
            "a line of three bits",
            lines(|block| block[FLAGS] & block[MASK] & 7 != 0),
        ),
        (
            "a line of the status",
            lines(|block| block[STATUS] & block[MASK] != 0),
        ),
        ("a line whatever the mask", lines(|block| block[FLAGS] != 0)),
    ]
}
