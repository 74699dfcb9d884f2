//! Operations on a bus, one by one and in lists, and buses with any bytes.

use super::{Generator, JudgeCall};
use crate::bus::{
    BLOCK_SIZE, BUSY, COMMAND, DONE, FLAGS, MASK, ORDER, REFUSED, RESET, START, STATUS,
};
use crate::bus_run::RUN_SIZE;
use crate::entries;
use crate::problem::MAX_ORDER;
use crate::summary::{decode, encode, NUMBER_WIDTH};

/// An operation on a bus, with what it is handed.
#[derive(Clone, Debug, PartialEq, Eq)]
#[allow(missing_docs)]
pub enum Operation {
    Write {
        address: i64,
        value: u8,
        low: Vec<u8>,
        high: Vec<u8>,
    },
    Tick,
    Read {
        address: i64,
    },
    Line,
}

impl Operation {
    /// A write that is handed no tables.
    pub fn plain_write(address: usize, value: u8) -> Operation {
        Operation::Write {
            address: address as i64,
            value,
            low: vec![],
            high: vec![],
        }
    }

    /// A start with two tables.
    pub fn start(low: Vec<u8>, high: Vec<u8>) -> Operation {
        Operation::Write {
            address: COMMAND as i64,
            value: START,
            low,
            high,
        }
    }
}

/// A bus as a caller holds it: its block and its run area, and the byte that is read.
#[derive(Clone, Debug, PartialEq, Eq)]
#[allow(missing_docs)]
pub struct RawBus {
    pub block: Vec<u8>,
    pub run: Vec<u8>,
    pub value: Vec<u8>,
}

/// A call of the bus.
#[derive(Clone, Debug, PartialEq, Eq)]
#[allow(missing_docs)]
pub struct BusCall {
    pub bus: RawBus,
    pub operation: Operation,
}

impl RawBus {
    /// A bus that was reset.
    pub fn zeros() -> RawBus {
        RawBus {
            block: vec![0; BLOCK_SIZE],
            run: vec![0; RUN_SIZE],
            value: vec![0],
        }
    }

    /// The numbers of the run area.
    pub fn numbers(&self) -> Vec<i64> {
        decode(&self.run, NUMBER_WIDTH)
    }

    /// Puts numbers for the run area.
    pub fn put_numbers(&mut self, numbers: &[i64]) {
        self.run = encode(numbers, NUMBER_WIDTH);
    }

    /// Carries out an operation; its answer.
    pub fn carry_out(&mut self, operation: &Operation) -> i64 {
        match operation {
            Operation::Write {
                address,
                value,
                low,
                high,
            } => entries::bus_write(&mut self.block, &mut self.run, *address, *value, low, high),
            Operation::Tick => entries::bus_tick(&mut self.block, &mut self.run),
            Operation::Read { address } => {
                entries::bus_read(&self.block, *address, &mut self.value)
            }
            Operation::Line => entries::bus_line(&self.block),
        }
    }
}

/// Addresses beside those of the registers, some with a register's in their low bytes.
const OTHER_ADDRESSES: [i64; 9] = [
    -1,
    32,
    33,
    256,
    261,
    1 << 32,
    (1 << 32) + 6,
    i64::MIN,
    i64::MAX,
];

impl Generator {
    /// A list of operations: some rounds of an order, a start and ticks, with other operations
    /// before, between and behind them.
    pub fn bus_operations(&mut self) -> Vec<Operation> {
        let mut list = vec![];
        for _ in 0..1 + self.random.index(3) {
            self.put_round(&mut list);
        }
        list
    }

    fn put_round(&mut self, list: &mut Vec<Operation>) {
        let JudgeCall { n, low, high, .. } = self.judge_call();
        list.push(Operation::plain_write(ORDER, n as u8));
        self.put_others(list);
        list.push(Operation::start(low, high));
        // One tick more than a verdict takes at most, mostly.
        let most = n.clamp(0, MAX_ORDER) as usize + 2;
        let ticks = if self.random.one_in(4) {
            self.random.index(most)
        } else {
            most
        };
        for _ in 0..ticks {
            self.put_others(list);
            list.push(Operation::Tick);
        }
        self.put_others(list);
    }

    fn put_others(&mut self, list: &mut Vec<Operation>) {
        while self.random.one_in(3) {
            list.push(self.operation());
        }
    }

    /// An operation. A reset is seldom, so that runs come to their end.
    pub fn operation(&mut self) -> Operation {
        let any = self.random.bits() as u8;
        let bits = any & (BUSY | DONE | REFUSED);
        let (address, value) = match self.random.index(16) {
            0 | 1 => return Operation::Tick,
            2 | 3 => return Operation::Line,
            4 | 5 => {
                let address = self.address();
                return Operation::Read { address };
            }
            6 => (COMMAND, START),
            7 if self.random.one_in(4) => (COMMAND, RESET),
            7 | 8 => (COMMAND, any),
            9 => (MASK, bits),
            10 => (MASK, any),
            11 => (FLAGS, bits),
            12 => (FLAGS, any),
            13 => (ORDER, self.random.between(1, MAX_ORDER) as u8),
            _ => return self.write(any),
        };
        self.write_with_tables(address as i64, value)
    }

    fn write(&mut self, value: u8) -> Operation {
        let address = self.address();
        // A command at any address is mostly none.
        let value = if self.random.one_in(4) { START } else { value };
        self.write_with_tables(address, value)
    }

    /// A write with some tables, which play no part unless it is a start.
    fn write_with_tables(&mut self, address: i64, value: u8) -> Operation {
        let (low, high) = if self.random.one_in(4) {
            (vec![], vec![])
        } else {
            let call = self.judge_call();
            (call.low, call.high)
        };
        Operation::Write {
            address,
            value,
            low,
            high,
        }
    }

    fn address(&mut self) -> i64 {
        if self.random.one_in(4) {
            self.random.pick(&OTHER_ADDRESSES)
        } else {
            let last = self.random.pick(&[ORDER, BLOCK_SIZE - 1]);
            self.random.index(last + 1) as i64
        }
    }

    /// A bus of any bytes.
    pub fn raw_bus(&mut self) -> RawBus {
        let mut bus = match self.random.index(8) {
            0 => RawBus::zeros(),
            1 => {
                let mut bus = RawBus::zeros();
                bus.run = self.random.bytes(RUN_SIZE);
                bus.block[STATUS] = BUSY;
                bus
            }
            2 | 3 => self.bus_in_range(),
            4 => {
                let mut bus = self.bus_in_range();
                self.damage_run(&mut bus);
                bus
            }
            5 => {
                let mut bus = self.bus_after_operations();
                self.damage_run(&mut bus);
                bus
            }
            _ => self.bus_after_operations(),
        };
        match self.random.index(6) {
            0 => bus.block = self.random.bytes(BLOCK_SIZE),
            1 => bus.block[STATUS] |= BUSY,
            2 => {
                let register = self.random.index(BLOCK_SIZE);
                bus.block[register] = self.random.bits() as u8;
            }
            _ => {}
        }
        bus.value = self.random.bytes(1);
        bus
    }

    /// A bus that a list of operations, cut off somewhere, has left. Mostly it is busy.
    fn bus_after_operations(&mut self) -> RawBus {
        let mut bus = RawBus::zeros();
        let mut left = vec![bus.clone()];
        for operation in self.bus_operations() {
            bus.carry_out(&operation);
            left.push(bus.clone());
        }
        let is_busy = |bus: &RawBus| bus.block[STATUS] & BUSY != 0;
        if left.iter().any(is_busy) && !self.random.one_in(3) {
            left.retain(is_busy);
        }
        left.swap_remove(self.random.index(left.len()))
    }

    /// A call of the bus: any operation on any bus, and now and then buffers of other sizes.
    pub fn bus_call(&mut self) -> BusCall {
        let mut bus = self.raw_bus();
        let mut operation = if self.random.one_in(3) {
            Operation::Tick
        } else {
            self.operation()
        };
        // A start with the tables of its order, unless the block has another order.
        if self.random.one_in(4) {
            let JudgeCall { n, low, high, .. } = self.judge_call();
            bus.block[ORDER] = n as u8;
            operation = Operation::start(low, high);
        }
        let mut unused = 1;
        let buffers = &mut [&mut bus.block, &mut bus.run, &mut bus.value];
        self.damage_sizes(&mut unused, buffers);
        BusCall { bus, operation }
    }
}
