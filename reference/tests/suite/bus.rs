//! The registers of the bus (R28.1 to R28.7, R28.11, R28.12): every value at every address,
//! reads, the line, flags that rise, and buffers of other sizes.

use hankboulder_reference::generate::{Generator, Operation, RawBus};
use hankboulder_reference::random::Random;

use crate::support::bytes;

pub const TAKEN: i64 = 0;
pub const RAISED: i64 = -1;
pub const LENGTH: i64 = 2;
pub const BUSY: i64 = 20;

/// The registers
pub const STATUS: usize = 1;
pub const VERDICT: usize = 3;
pub const MASK: usize = 4;
pub const FLAGS: usize = 5;
pub const ORDER: usize = 6;

/// A write without tables.
pub fn write(bus: &mut RawBus, address: i64, value: u8) -> i64 {
    bus.carry_out(&Operation::Write {
        address,
        value,
        low: vec![],
        high: vec![],
    })
}

/// A start with thin tables.
pub fn start(bus: &mut RawBus, table: &[i64]) -> i64 {
    bus.carry_out(&Operation::start(bytes(table), bytes(table)))
}

pub fn tick(bus: &mut RawBus) -> i64 {
    bus.carry_out(&Operation::Tick)
}

/// The registers from the status to the order.
pub fn registers(bus: &RawBus) -> [u8; 6] {
    bus.block[STATUS..=ORDER].try_into().unwrap()
}

/// A bus with any bytes in its block, and a run of [1].
fn bus_of(random: &mut Random) -> RawBus {
    let mut bus = RawBus::zeros();
    bus.block[ORDER] = 1;
    assert_eq!(start(&mut bus, &[1]), TAKEN);
    bus.block = random.bytes(32);
    bus
}

/// All 256 values at all addresses from -1 to 32, whatever the block holds. The commands 1
/// and 2 have tests of their own.
#[test]
fn every_value_at_every_address() {
    let mut random = Random::new(201);
    for round in 0..8 {
        let before = match round {
            0 => RawBus::zeros(),
            1 => RawBus {
                block: vec![255; 32],
                ..bus_of(&mut random)
            },
            _ => bus_of(&mut random),
        };
        for (address, value) in (-1..=32).flat_map(|a| (0..=255_u8).map(move |v| (a, v))) {
            if address == 0 && [1, 2].contains(&value) {
                continue;
            }
            let mut after = before.clone();
            assert_eq!(write(&mut after, address, value), TAKEN);
            let mut expected = before.clone();
            match address {
                4 => expected.block[4] = before.block[4] / 8 * 8 + value % 8,
                5 => {
                    for bit in [1, 2, 4].into_iter().filter(|bit| value & bit > 0) {
                        expected.block[5] &= 255 - bit;
                    }
                }
                6 => expected.block[6] = value,
                _ => {}
            }
            assert_eq!(after, expected, "{value} to {address}");
        }
    }
}

/// 256 times an address, and more, is another one.
#[test]
fn addresses_beyond_the_block_take_nothing() {
    let mut random = Random::new(202);
    for address in [-2, -255, 33, 256, 257, 262, 1 << 32, (1 << 32) + 4] {
        for (address, value) in [address, i64::MIN, i64::MIN + 5, i64::MAX]
            .into_iter()
            .flat_map(|address| [0, 1, 2, 7, 255].map(|value| (address, value)))
        {
            let before = bus_of(&mut random);
            let mut after = before.clone();
            assert_eq!(write(&mut after, address, value), TAKEN);
            assert_eq!(after, before, "{value} to {address}");
            let read = Operation::Read { address };
            assert_eq!((after.carry_out(&read), after.value[0]), (TAKEN, 0));
        }
    }
}

#[test]
fn reads_give_the_registers_from_1_to_6() {
    let mut bus = RawBus::zeros();
    bus.block = (100..132).collect();
    for address in -40..=300 {
        let before = bus.clone();
        bus.value = vec![0x5A];
        assert_eq!(bus.carry_out(&Operation::Read { address }), TAKEN);
        let told = (1..=6).contains(&address);
        assert_eq!(bus.value[0], if told { 100 + address as u8 } else { 0 });
        assert_eq!((&bus.block, &bus.run), (&before.block, &before.run));
    }
}

/// Of all flags and all masks, bits above the third too.
#[test]
fn the_line_is_raised_where_flags_and_mask_meet() {
    let mut bus = RawBus::zeros();
    for (flags, mask) in (0..=255).flat_map(|f| (0..=255).map(move |m| (f, m))) {
        (bus.block[FLAGS], bus.block[MASK]) = (flags, mask);
        let before = bus.clone();
        let meet = (0..8).any(|bit| flags >> bit & 1 == 1 && mask >> bit & 1 == 1);
        assert_eq!(
            bus.carry_out(&Operation::Line),
            if meet { RAISED } else { TAKEN }
        );
        assert_eq!(bus, before);
    }
}

/// Whatever the block and the run area hold.
#[test]
fn a_reset_leaves_zeros() {
    let mut generator = Generator::new(203);
    for _ in 0..500 {
        let mut bus = generator.raw_bus();
        assert_eq!(write(&mut bus, 0, 2), TAKEN);
        bus.value = vec![0];
        assert_eq!(bus, RawBus::zeros());
    }
}

/// A start is refused by 20 exactly where bit 0 of the status is one, and otherwise the other
/// seven bits, and the two registers behind it, are 0 before something rises.
#[test]
fn starts_with_every_status() {
    let mut random = Random::new(204);
    for (status, table) in (0..=255).flat_map(|status| [(status, 1), (status, 1 << 21)]) {
        let mut before = bus_of(&mut random);
        (before.block[STATUS], before.block[ORDER]) = (status, 1);
        let mut after = before.clone();
        let answer = start(&mut after, &[table]);
        if status % 2 == 1 {
            assert_eq!((answer, &after), (BUSY, &before));
            continue;
        }
        let mut expected = before.clone();
        let (bit, refusal) = if table == 1 { (1, 0) } else { (4, 3) };
        expected.block[1..4].copy_from_slice(&[bit, refusal, 0]);
        expected.block[FLAGS] |= bit;
        assert_eq!((answer, &after.block), (TAKEN, &expected.block));
        assert_eq!(after.run.iter().any(|byte| *byte != 0), bit == 1);
    }
}

/// The tick that gives the verdict, with every status that has bit 0: a flag becomes one only
/// where done was not one before, and all other bits stay.
#[test]
fn done_rises_with_every_status() {
    let mut random = Random::new(205);
    for status in (1..=255).step_by(2) {
        let mut bus = bus_of(&mut random);
        bus.block[STATUS] = status;
        let mut expected = bus.block.clone();
        expected[STATUS] = (status | 2) - 1;
        expected[VERDICT] = 1;
        if status & 2 == 0 {
            expected[FLAGS] |= 2;
        }
        assert_eq!(tick(&mut bus), TAKEN);
        assert_eq!(bus.block, expected);
        assert_eq!(bus.run, vec![0; 1560]);
    }
}

/// Flags that were cleared stay so while their bits are up, and rise again with the next
/// start.
#[test]
fn a_flag_rises_once_for_each_time_that_its_bit_does() {
    let mut bus = RawBus::zeros();
    write(&mut bus, ORDER as i64, 2);
    let clear = |bus: &mut RawBus| write(bus, FLAGS as i64, 7);
    for _ in 0..3 {
        start(&mut bus, &[1, 3, 3, 10]);
        assert_eq!(registers(&bus), [1, 0, 0, 0, 1, 2]);
        clear(&mut bus);
        tick(&mut bus);
        tick(&mut bus);
        assert_eq!(registers(&bus), [1, 0, 0, 0, 0, 2]);
        tick(&mut bus);
        assert_eq!(registers(&bus), [2, 0, 3, 0, 2, 2]);
        clear(&mut bus);
        tick(&mut bus);
        assert_eq!(registers(&bus), [2, 0, 3, 0, 0, 2]);
        for _ in 0..2 {
            start(&mut bus, &[1, 3, 4, 10]);
            assert_eq!(registers(&bus), [4, 5, 0, 0, 4, 2]);
            clear(&mut bus);
        }
    }
}

/// Sizes come before everything else, a start while busy too, and a write of any kind.
#[test]
fn refusal_2_for_every_other_size() {
    let mut busy = RawBus::zeros();
    write(&mut busy, ORDER as i64, 1);
    start(&mut busy, &[1]);
    let one = bytes(&[1]);
    let operations = [
        Operation::start(one.clone(), one),
        Operation::plain_write(0, 2),
        Operation::plain_write(4, 7),
        Operation::plain_write(9, 0),
        Operation::Tick,
        Operation::Read { address: 1 },
        Operation::Line,
    ];
    let expect = |bus: RawBus, operation: &Operation, refused: bool| {
        let mut after = bus.clone();
        let answer = after.carry_out(operation);
        assert_eq!(answer == LENGTH, refused, "{operation:?}");
        assert!(!refused || after == bus, "{operation:?}");
    };
    for operation in &operations {
        let is_read = matches!(operation, Operation::Read { .. });
        let has_run = !is_read && *operation != Operation::Line;
        for size in (0..=100).chain([128, 1560]).filter(|size| *size != 32) {
            let mut bus = busy.clone();
            bus.block.resize(size, 1);
            expect(bus, operation, true);
        }
        let near = (0..=24).chain([32, 195, 1552]);
        for size in near.chain(1559..=1568).chain([3120]) {
            let mut bus = busy.clone();
            bus.run.resize(size, 1);
            expect(bus, operation, has_run && size != 1560);
        }
        for size in [0, 1, 2, 8, 32] {
            let mut bus = busy.clone();
            bus.value.resize(size, 1);
            expect(bus, operation, is_read && size != 1);
        }
    }
}

/// The judge's refusals of a start go to register 2, its 2 of either table among them.
#[test]
fn refusals_of_a_start_are_the_judges() {
    let zeros = |size: usize| vec![0; size];
    for n in 0..=255 {
        for size in (0..=8).map(|k| 8 * k * k).chain([1, 7, 9, 513]) {
            let mut bus = RawBus::zeros();
            write(&mut bus, ORDER as i64, n);
            let good = 8 * usize::from(n) * usize::from(n);
            let is_order = (1..=8).contains(&n);
            for (low, high) in [(size, good), (good, size), (size, size)] {
                let expected = match (is_order, (low, high) == (good, good)) {
                    (false, _) => [4, 1, 0, 0, 4, n],
                    (true, false) => [4, 2, 0, 0, 4, n],
                    (true, true) => [1, 0, 0, 0, 1, n],
                };
                let mut bus = bus.clone();
                let begin = Operation::start(zeros(low), zeros(high));
                assert_eq!(bus.carry_out(&begin), TAKEN);
                assert_eq!(registers(&bus), expected, "{n}, {low}, {high}");
            }
        }
    }
}
