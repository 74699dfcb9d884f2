//! Buses that are wrong in one place, each made of the library's own entries. Comparing block, run
//! area, byte read and answer after each operation tells every one of them from the reference.

mod answers;
mod ticks;
mod writes;

use hankboulder_compare::bus::given;
use hankboulder_reference::generate::{BusCall, Generator, Operation, RawBus};

use crate::bus::STATUS;

/// A bus's entries: carries out an operation; its answer.
type Carry = Box<dyn FnMut(&mut RawBus, &Operation) -> i64>;

/// What is wrong, and the entries that are.
type Wrong = (&'static str, Carry);

const BUSY: u8 = 1;
const DONE: u8 = 2;

fn has_sizes(bus: &RawBus) -> bool {
    (bus.block.len(), bus.run.len()) == (32, 1560)
}

fn is_busy(bus: &RawBus) -> bool {
    has_sizes(bus) && bus.block[STATUS] & BUSY != 0
}

fn is_command(operation: &Operation, command: u8) -> bool {
    matches!(operation, Operation::Write { address: 0, value, .. } if *value == command)
}

/// How many operations it takes until a bus is told from the reference: lists of operations, and
/// single ones on buses of any bytes, in turn.
fn operations_until_told(mut carry: Carry) -> Option<usize> {
    let mut generator = Generator::new(321);
    let mut count = 0;
    let mut differs = |bus: &mut RawBus, expected: &mut RawBus, operation: &Operation| {
        count += 1;
        let answers = (carry(bus, operation), expected.carry_out(operation));
        (answers.0 != answers.1 || bus != expected).then_some(count)
    };
    for _ in 0..600 {
        let (mut bus, mut expected) = (RawBus::zeros(), RawBus::zeros());
        for operation in generator.bus_operations() {
            if let told @ Some(_) = differs(&mut bus, &mut expected, &operation) {
                return told;
            }
        }
        for _ in 0..20 {
            let BusCall { bus, operation } = generator.bus_call();
            if let told @ Some(_) = differs(&mut bus.clone(), &mut bus.clone(), &operation) {
                return told;
            }
        }
    }
    None
}

#[test]
fn every_wrong_bus_is_told_and_the_library_is_not() {
    assert_eq!(operations_until_told(Box::new(given)), None);
    let wrong = [ticks::wrong(), writes::wrong(), answers::wrong()];
    let mut count = 0;
    for (name, carry) in wrong.into_iter().flatten() {
        let told = operations_until_told(carry);
        let operations = told.unwrap_or_else(|| panic!("not told: {name}"));
        println!("{name}: told by operation {operations}");
        count += 1;
    }
    assert_eq!(count, 51);
}
