//! The judge on the display bus: a block of registers (R28.1 to R28.7) over a run area.

use crate::bus_run::{Run, RUN_SIZE};
use crate::problem::{check_lengths, Bounds};
use crate::refusal::{require, Refusal};

/// R28.1: the bytes of a block, one to a register.
pub const BLOCK_SIZE: usize = 32;

/// The address of the command
pub const COMMAND: usize = 0;
/// That of the status
pub const STATUS: usize = 1;
/// That of the refusal number
pub const REFUSAL: usize = 2;
/// That of the verdict
pub const VERDICT: usize = 3;
/// That of the interrupt mask
pub const MASK: usize = 4;
/// That of the interrupt flags
pub const FLAGS: usize = 5;
/// That of the order of the next start
pub const ORDER: usize = 6;

/// Bit 0 of status, mask and flags
pub const BUSY: u8 = 1;
/// Bit 1 of them
pub const DONE: u8 = 2;
/// Bit 2 of them
pub const REFUSED: u8 = 4;

/// The command that starts a run
pub const START: u8 = 1;
/// The command that resets the bus
pub const RESET: u8 = 2;

/// A line of the table of registers (R28.2).
#[derive(Clone, Copy)]
struct Register {
    reset: u8,
    writable: u8,
}

/// R28.2: every register, by its address.
const REGISTERS: [Register; BLOCK_SIZE] = {
    let none = Register {
        reset: 0,
        writable: 0,
    };
    let mut table = [none; BLOCK_SIZE];
    table[COMMAND].writable = u8::MAX;
    table[MASK].writable = BUSY | DONE | REFUSED;
    table[FLAGS].writable = BUSY | DONE | REFUSED;
    table[ORDER].writable = u8::MAX;
    table
};

/// R28.12: the size of a block.
fn check_block(block: &[u8]) -> Result<(), Refusal> {
    check_lengths(&[(block.len(), BLOCK_SIZE)])
}

/// R28.3: what a read of an address gives.
pub fn read(block: &[u8], address: i64) -> Result<u8, Refusal> {
    check_block(block)?;
    let told = usize::try_from(address).ok();
    let told = told.filter(|address| (STATUS..=ORDER).contains(address));
    Ok(told.map_or(0, |address| block[address]))
}

/// R28.11: whether the line is raised.
pub fn is_raised(block: &[u8]) -> Result<bool, Refusal> {
    check_block(block)?;
    Ok(block[FLAGS] & block[MASK] != 0)
}

/// A bus, lent with whatever bytes it has.
#[derive(Debug, PartialEq, Eq)]
pub struct Bus<'a> {
    block: &'a mut [u8],
    run: &'a mut [u8],
}

impl Bus<'_> {
    /// R28.12: the sizes, then the bus.
    pub fn lent<'a>(block: &'a mut [u8], run: &'a mut [u8]) -> Result<Bus<'a>, Refusal> {
        check_block(block)?;
        check_lengths(&[(run.len(), RUN_SIZE)])?;
        Ok(Bus { block, run })
    }

    /// R28.4: a write. Only a start asks for the judge's checks of the order in register 6
    /// and the tables that come with the write.
    pub fn write(
        &mut self,
        address: i64,
        value: u8,
        judge_checks: impl FnOnce(i64) -> Result<Bounds, Refusal>,
    ) -> Result<(), Refusal> {
        let met = usize::try_from(address).ok();
        let Some(address) = met.filter(|address| *address < BLOCK_SIZE) else {
            return Ok(());
        };
        let writable = REGISTERS[address].writable;
        let (chosen, byte) = (value & writable, self.block[address]);
        match (address, chosen) {
            (COMMAND, START) => return self.start(judge_checks),
            (COMMAND, RESET) => self.reset(),
            (COMMAND, _) => {}
            (FLAGS, _) => self.block[FLAGS] = byte & !chosen,
            _ => self.block[address] = byte & !writable | chosen,
        }
        Ok(())
    }

    /// R28.5
    fn start(
        &mut self,
        judge_checks: impl FnOnce(i64) -> Result<Bounds, Refusal>,
    ) -> Result<(), Refusal> {
        require(self.block[STATUS] & BUSY == 0, Refusal::Busy)?;
        for register in [STATUS, REFUSAL, VERDICT] {
            self.block[register] = 0;
        }
        match judge_checks(i64::from(self.block[ORDER])) {
            Ok(bounds) => {
                self.rise(BUSY);
                self.run.copy_from_slice(&Run::begun(&bounds).bytes());
            }
            Err(refusal) => {
                self.rise(REFUSED);
                self.block[REFUSAL] = refusal.number() as u8;
                self.run.fill(0);
            }
        }
        Ok(())
    }

    /// R28.6
    fn reset(&mut self) {
        for (byte, register) in self.block.iter_mut().zip(REGISTERS) {
            *byte = register.reset;
        }
        self.run.fill(0);
    }

    /// R28.7: a bit of the status becomes one, and its flag with it where it was not.
    fn rise(&mut self, bit: u8) {
        if self.block[STATUS] & bit == 0 {
            self.block[FLAGS] |= bit;
        }
        self.block[STATUS] |= bit;
    }

    /// R28.9: a tick.
    pub fn tick(&mut self) {
        if self.block[STATUS] & BUSY == 0 {
            return;
        }
        let Some(mut run) = Run::read(self.run) else {
            return;
        };
        match run.tick() {
            None => self.run.copy_from_slice(&run.bytes()),
            Some(finding) => {
                self.block[VERDICT] = finding as u8;
                self.block[STATUS] &= !BUSY;
                self.rise(DONE);
                self.run.fill(0);
            }
        }
    }
}
