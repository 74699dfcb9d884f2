//! Writes that are wrong in one place.

use hankboulder_compare::bus::given;
use hankboulder_reference::bus::{RESET, START};
use hankboulder_reference::bus_run::ORDER as RUN_ORDER;
use hankboulder_reference::generate::{Operation, RawBus};

use super::{has_sizes, is_busy, is_command, Carry, Wrong, BUSY, DONE};
use crate::bus::{FLAGS, MASK, ORDER, STATUS, VERDICT};

/// Another write to an address, with this value where it is one alone; of a bus with its sizes,
/// as it was before and as the library leaves it.
fn writes(at: i64, only: Option<u8>, other: fn(&RawBus, &mut RawBus, u8)) -> Carry {
    Box::new(move |bus, operation| {
        let before = bus.clone();
        let answer = given(bus, operation);
        if let Operation::Write { address, value, .. } = operation {
            if *address == at && only.is_none_or(|only| only == *value) && has_sizes(bus) {
                other(&before, bus, *value);
            }
        }
        answer
    })
}

fn starts(other: fn(&RawBus, &mut RawBus, u8)) -> Carry {
    writes(0, Some(START), other)
}

/// Another operation in place of one.
fn in_place_of(other: fn(&RawBus, &Operation) -> Option<Operation>) -> Carry {
    Box::new(move |bus, operation| {
        let operation = other(bus, operation);
        operation.map_or(0, |operation| given(bus, &operation))
    })
}

/// An operation at another address, or with another value.
fn moved(operation: &Operation, place: fn(i64, u8) -> (i64, u8)) -> Operation {
    let mut operation = operation.clone();
    match &mut operation {
        Operation::Write { address, value, .. } => (*address, *value) = place(*address, *value),
        Operation::Read { address } => *address = place(*address, 0).0,
        _ => {}
    }
    operation
}

/// The list of them.
pub fn wrong() -> Vec<Wrong> {
    let at = |address: usize, other| writes(address as i64, None, other);
    vec![
        (
            "a write of 0 that clears the flags",
            writes(FLAGS as i64, Some(0), |_, bus, _| bus.block[FLAGS] &= !7),
        ),
        (
            "flags written as they come",
            at(FLAGS, |_, bus, value| bus.block[FLAGS] = value & 7),
        ),
        (
            "flags cleared by zeros",
            at(FLAGS, |before, bus, value| {
                bus.block[FLAGS] = before.block[FLAGS] & value;
            }),
        ),
        (
            "bit 3 of the mask writable",
            at(MASK, |_, bus, value| {
                bus.block[MASK] = bus.block[MASK] & !8 | value & 8;
            }),
        ),
        (
            "the mask's other bits lost",
            at(MASK, |_, bus, _| bus.block[MASK] &= 7),
        ),
        (
            "three bits of the order",
            at(ORDER, |_, bus, value| bus.block[ORDER] = value & 7),
        ),
        (
            "a status that is written",
            at(STATUS, |_, bus, value| bus.block[STATUS] = value),
        ),
        (
            "a command that is kept",
            at(0, |_, bus, value| bus.block[0] = value),
        ),
        (
            "a start while busy that clears the status",
            starts(|before, bus, _| {
                if is_busy(before) {
                    bus.block[STATUS] = 0;
                }
            }),
        ),
        (
            "a start while busy that begins anew",
            Box::new(|bus, operation| {
                if is_command(operation, START) && is_busy(bus) {
                    bus.block[STATUS] &= !BUSY;
                }
                given(bus, operation)
            }),
        ),
        (
            "a start that leaves the verdict",
            starts(|before, bus, _| bus.block[VERDICT] = before.block[VERDICT]),
        ),
        (
            "a start that leaves done up",
            starts(|before, bus, _| bus.block[STATUS] |= before.block[STATUS] & DONE),
        ),
        (
            "a refused start that leaves the run area",
            starts(|before, bus, _| {
                if bus.block[STATUS] & BUSY == 0 {
                    bus.run.clone_from(&before.run);
                }
            }),
        ),
        (
            "a start that works out a column",
            starts(|before, bus, _| {
                if !is_busy(before) {
                    given(bus, &Operation::Tick);
                }
            }),
        ),
        (
            "a reset that leaves the mask",
            writes(0, Some(RESET), |before, bus, _| {
                bus.block[MASK] = before.block[MASK]
            }),
        ),
        (
            "a reset that leaves the run area",
            writes(0, Some(RESET), |before, bus, _| {
                bus.run.clone_from(&before.run)
            }),
        ),
        (
            "a reset of the registers that have a meaning alone",
            writes(0, Some(RESET), |before, bus, _| {
                bus.block[7..].copy_from_slice(&before.block[7..]);
            }),
        ),
        (
            "no reset while busy",
            in_place_of(|bus, operation| {
                let reset = is_command(operation, RESET);
                (!reset || !is_busy(bus)).then(|| operation.clone())
            }),
        ),
        (
            "two bits of the command",
            in_place_of(|_, operation| {
                let two_bits = |address, value| match address {
                    0 => (address, value & 3),
                    _ => (address, value),
                };
                Some(moved(operation, two_bits))
            }),
        ),
        (
            "addresses of one byte",
            in_place_of(|_, operation| Some(moved(operation, |a, v| (i64::from(a as u8), v)))),
        ),
        (
            "an order that changes the run",
            at(ORDER, |_, bus, value| {
                if is_busy(bus) {
                    let mut numbers = bus.numbers();
                    numbers[RUN_ORDER] = i64::from(value);
                    bus.put_numbers(&numbers);
                }
            }),
        ),
    ]
}
