//! Ticks that are wrong in one place.

use hankboulder_compare::bus::given;
use hankboulder_reference::bus_run::{HIGH, LOW, NEXT, ORDER as RUN_ORDER, STOP};
use hankboulder_reference::generate::{Operation, RawBus};

use super::{has_sizes, is_busy, Carry, Wrong, BUSY, DONE};
use crate::bus::{FLAGS, MASK, ORDER, STATUS, VERDICT};

/// Another tick, of a bus with its sizes. It has the bus as it was before the library's tick
/// and as it is after.
fn ticks(mut other: impl FnMut(&RawBus, &mut RawBus) + 'static) -> Carry {
    Box::new(move |bus, operation| {
        let before = bus.clone();
        let answer = given(bus, operation);
        if *operation == Operation::Tick && has_sizes(bus) {
            other(&before, bus);
        }
        answer
    })
}

/// The same, of ticks that give a verdict alone.
fn last_ticks(mut other: impl FnMut(&RawBus, &mut RawBus) + 'static) -> Carry {
    ticks(move |before, bus| {
        if is_busy(before) && !is_busy(bus) {
            other(before, bus);
        }
    })
}

/// Another tick, of a busy bus, that the library makes of other bytes.
fn ticks_of(mut changed: impl FnMut(&mut RawBus) + 'static) -> Carry {
    Box::new(move |bus, operation| {
        if *operation == Operation::Tick && is_busy(bus) {
            changed(bus);
        }
        given(bus, operation)
    })
}

/// The list of them.
pub fn wrong() -> Vec<Wrong> {
    let mut held = false;
    vec![
        (
            "done one tick late",
            last_ticks(move |before, bus| {
                held = !held;
                if held {
                    bus.clone_from(before);
                }
            }),
        ),
        (
            "done one tick early",
            ticks(|before, bus| {
                let mut next = bus.clone();
                given(&mut next, &Operation::Tick);
                if is_busy(before) && is_busy(bus) && !is_busy(&next) {
                    *bus = next;
                }
            }),
        ),
        (
            "verdict before done",
            ticks(|before, bus| {
                if is_busy(before) && bus.numbers()[STOP] > 0 {
                    bus.block[VERDICT] = 2;
                }
            }),
        ),
        (
            "done without a verdict",
            last_ticks(|before, bus| bus.block[VERDICT] = before.block[VERDICT]),
        ),
        (
            "a flag set while its bit stays up",
            last_ticks(|_, bus| bus.block[FLAGS] |= DONE),
        ),
        (
            "a flag set at each tick behind done",
            ticks(|_, bus| {
                if bus.block[STATUS] & DONE != 0 {
                    bus.block[FLAGS] |= DONE;
                }
            }),
        ),
        (
            "a flag that its bit takes down",
            last_ticks(|_, bus| bus.block[FLAGS] &= !BUSY),
        ),
        (
            "a flag that the mask holds back",
            last_ticks(|before, bus| {
                bus.block[FLAGS] &= before.block[FLAGS] | !DONE | bus.block[MASK];
            }),
        ),
        (
            "busy beside done",
            last_ticks(|_, bus| bus.block[STATUS] |= BUSY),
        ),
        (
            "a status of done alone",
            last_ticks(|_, bus| bus.block[STATUS] = DONE),
        ),
        (
            "a run area that stays with the verdict",
            last_ticks(|before, bus| bus.run.clone_from(&before.run)),
        ),
        ("tables read again at a tick", tables_read_again()),
        (
            "order read again at a tick",
            ticks_of(|bus| {
                let mut numbers = bus.numbers();
                numbers[RUN_ORDER] = i64::from(bus.block[ORDER]);
                bus.put_numbers(&numbers);
            }),
        ),
        (
            "low table read for both",
            ticks_of(|bus| {
                let mut numbers = bus.numbers();
                numbers.copy_within(LOW..HIGH, HIGH);
                bus.put_numbers(&numbers);
            }),
        ),
        (
            "a third number below 0 taken for 0",
            ticks_of(|bus| {
                let mut numbers = bus.numbers();
                numbers[STOP] = numbers[STOP].max(0);
                bus.put_numbers(&numbers);
            }),
        ),
        (
            "a run that is none made to zeros",
            ticks(|before, bus| {
                if is_busy(before) && before.run == bus.run {
                    bus.run.fill(0);
                }
            }),
        ),
        (
            "ticks without busy",
            ticks(|before, bus| {
                if !is_busy(before) {
                    bus.block[STATUS] |= BUSY;
                    given(bus, &Operation::Tick);
                }
            }),
        ),
    ]
}

/// The tables that came with the last write of any kind are those of the run, as far as it is.
fn tables_read_again() -> Carry {
    let mut lent: Option<Operation> = None;
    Box::new(move |bus, operation| {
        if let Operation::Write { low, high, .. } = operation {
            lent = Some(Operation::start(low.clone(), high.clone()));
        }
        if let (Operation::Tick, true, Some(start)) = (operation, is_busy(bus), &lent) {
            let [order, next] = [RUN_ORDER, NEXT].map(|place| bus.numbers()[place]);
            let mut again = RawBus::zeros();
            again.block[ORDER] = order as u8;
            given(&mut again, start);
            (0..next.clamp(0, 8)).for_each(|_| _ = given(&mut again, &Operation::Tick));
            if again.block[STATUS] == BUSY && bus.numbers()[STOP] == 0 {
                bus.run = again.run;
            }
        }
        given(bus, operation)
    })
}
