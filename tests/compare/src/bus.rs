//! The bus. Its four entries are an act each, on buffers that begin with the block.

pub mod line;
pub mod read;
pub mod tick;
pub mod write;

use hankboulder_reference::bus::{BLOCK_SIZE, ORDER};
use hankboulder_reference::bus_run;
use hankboulder_reference::generate::numbers::{change_list, read as number_of};
use hankboulder_reference::generate::{BusCall, Generator, Operation, RawBus};
use hankboulder_reference::random::Random;

use crate::act::{Act, Call};
use line::LINE;
use read::READ;
use tick::TICK;
use write::WRITE;

/// The place of the block among the buffers
pub const BLOCK: usize = 0;
/// That of the run area, of a write and of a tick
pub const RUN: usize = 1;
/// That of the byte that is read
pub const VALUE: usize = 1;
/// Those of the tables of a write
pub const TABLES: [usize; 2] = [2, 3];

/// The act and the call of an operation on a bus.
pub fn of(bus: RawBus, operation: &Operation) -> (&'static Act, Call) {
    let RawBus { block, run, value } = bus;
    let (n_of_block, n_of_run) = (order_in(&block), number_of(&run, bus_run::ORDER));
    let (act, n, numbers, buffers) = match operation {
        Operation::Write {
            address,
            value,
            low,
            high,
        } => {
            let buffers = vec![block, run, low.clone(), high.clone()];
            let numbers = vec![*address, i64::from(*value)];
            (&WRITE, n_of_block, numbers, buffers)
        }
        Operation::Tick => (&TICK, n_of_run.unwrap_or(0), vec![], vec![block, run]),
        Operation::Read { address } => (&READ, n_of_block, vec![*address], vec![block, value]),
        Operation::Line => (&LINE, n_of_block, vec![], vec![block]),
    };
    let call = Call::new(n, buffers);
    (act, Call { numbers, ..call })
}

/// The library's answer to an operation, which leaves the bus as the library does.
pub fn given(bus: &mut RawBus, operation: &Operation) -> i64 {
    let (act, call) = of(bus.clone(), operation);
    let (answer, after) = act.given(&call);
    let mut after = after.into_iter();
    bus.block = after.next().expect("every act of the bus has a block");
    match (operation, after.next()) {
        (Operation::Read { .. }, Some(value)) => bus.value = value,
        (_, Some(run)) => bus.run = run,
        (_, None) => {}
    }
    answer
}

/// The order in the block; 0 in one of another size.
fn order_in(block: &[u8]) -> i64 {
    let order = block.get(ORDER).filter(|_| block.len() == BLOCK_SIZE);
    order.map_or(0, |order| i64::from(*order))
}

/// A generated call of the bus whose operation is of this kind.
fn generated(generator: &mut Generator, is_kind: fn(&Operation) -> bool) -> Call {
    let BusCall { bus, mut operation } = generator.bus_call();
    while !is_kind(&operation) {
        operation = generator.operation();
    }
    of(bus, &operation).1
}

/// The call with one change: of a byte of the block, or of a number behind it, the address
/// and the value among them.
pub fn varied(call: &Call, random: &mut Random) -> Call {
    let mut varied = call.clone();
    let place = random.index(call.buffers.len() + call.numbers.len());
    match place.checked_sub(call.buffers.len()) {
        Some(0) => varied.numbers[0] = random.between(-2, 40),
        Some(value) => varied.numbers[value] = random.between(0, 255),
        None if place == BLOCK && !call.buffers[BLOCK].is_empty() => {
            let block = &mut varied.buffers[BLOCK];
            let register = random.index(block.len().min(ORDER + 1));
            let bit = 1 << random.index(8);
            block[register] = random.pick(&[block[register] ^ bit, 0, 255, bit]);
        }
        None => change_list(&mut varied.buffers[place], random),
    }
    // Where it is the run that has the order
    if call.buffers.len() == 2 && call.numbers.is_empty() {
        varied.n = number_of(&varied.buffers[RUN], bus_run::ORDER).unwrap_or(0);
    } else {
        varied.n = order_in(&varied.buffers[BLOCK]);
    }
    varied
}
