//! Calls of the bus.

use hankboulder_reference::bus::{BLOCK_SIZE, ORDER};
use hankboulder_reference::bus_run;
use hankboulder_reference::generate::numbers::{change_list, read};
use hankboulder_reference::generate::{BusCall, Generator, Operation, RawBus};
use hankboulder_reference::random::Random;

use crate::call::{Act, Call, Passed};

/// The places of block and run area among the buffers
const BLOCK: usize = 0;
const RUN: usize = 1;

/// The act of an operation.
fn act_of(operation: &Operation) -> Act {
    match operation {
        Operation::Write { .. } => Act::BusWrite,
        Operation::Tick => Act::BusTick,
        Operation::Read { .. } => Act::BusRead,
        Operation::Line => Act::BusLine,
    }
}

/// The buffers of a generated call of an act, and what it is passed.
pub fn generated(act: Act, generator: &mut Generator, passed: &mut Passed) -> Vec<Vec<u8>> {
    let BusCall { bus, mut operation } = generator.bus_call();
    while act_of(&operation) != act {
        operation = generator.operation();
    }
    let RawBus { block, run, value } = bus;
    let buffers = match operation {
        Operation::Write {
            address,
            value,
            low,
            high,
        } => {
            (passed.address, passed.value) = (address, value);
            vec![block, run, low, high]
        }
        Operation::Tick => vec![block, run],
        Operation::Read { address } => {
            passed.address = address;
            vec![block, value]
        }
        Operation::Line => vec![block],
    };
    passed.n = order_in(act, &buffers);
    buffers
}

/// The order in the run area of a tick, or in the block; 0 where there is none.
fn order_in(act: Act, buffers: &[Vec<u8>]) -> i64 {
    let block = &buffers[BLOCK];
    match act {
        Act::BusTick => read(&buffers[RUN], bus_run::ORDER).unwrap_or(0),
        _ if block.len() == BLOCK_SIZE => i64::from(block[ORDER]),
        _ => 0,
    }
}

/// Changes a byte of a register, a number behind the block, or what is passed by value.
pub fn change(call: &mut Call, random: &mut Random) {
    let place = random.index(call.buffers.len() + 2);
    if place == BLOCK && !call.buffers[BLOCK].is_empty() {
        let block = &mut call.buffers[BLOCK];
        let register = random.index(block.len().min(ORDER + 1));
        block[register] ^= 1 << random.index(8);
    } else if place < call.buffers.len() {
        change_list(&mut call.buffers[place], random);
    } else if place == call.buffers.len() {
        call.passed.address = random.between(-2, 40);
    } else {
        call.passed.value = random.bits() as u8;
    }
}

/// Puts n as its buffers have it.
pub fn put_order(call: &mut Call) {
    call.passed.n = order_in(call.act, &call.buffers);
}
