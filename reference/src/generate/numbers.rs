//! The numbers in a call's buffers, and small changes of them.

use crate::problem::{
    CENTRE_RANGE, ENTRY_RANGE, FACTOR_RANGE, LIMIT_RANGE, LINEAR_RANGE, VECTOR_RANGE,
};
use crate::random::Random;
use crate::summary::NUMBER_WIDTH;

/// Numbers of any kind.
const CHOICES: [i64; 5] = [0, 1, -1, i64::MIN, i64::MAX];

/// The ranges of centres, vectors, entries, factors, linear terms and limits.
const RANGES: [i128; 6] = [
    CENTRE_RANGE,
    VECTOR_RANGE,
    ENTRY_RANGE,
    FACTOR_RANGE,
    LINEAR_RANGE,
    LIMIT_RANGE,
];

/// A number a little or much different.
pub fn changed(number: i64, random: &mut Random) -> i64 {
    let choice = random.pick(&CHOICES);
    let end = random.pick(&RANGES) as i64 + random.between(0, 1);
    let step = random.pick(&[1, 1, 2, 100, 1 << 16]);
    match random.index(24) {
        0 => choice,
        1 => random.pick(&[end, -end]),
        2 | 3 => number ^ (1 << random.index(64)),
        _ => number.saturating_add(random.within(step)),
    }
}

/// How many numbers a buffer has.
pub fn count(buffer: &[u8]) -> usize {
    buffer.len() / NUMBER_WIDTH
}

/// A number of a buffer, where it has the place.
pub fn read(buffer: &[u8], place: usize) -> Option<i64> {
    let bytes = buffer.get(NUMBER_WIDTH * place..NUMBER_WIDTH * (place + 1))?;
    Some(i64::from_le_bytes(bytes.try_into().ok()?))
}

/// Writes a number, where the buffer has the place.
pub fn write(buffer: &mut [u8], place: usize, number: i64) {
    if let Some(bytes) = buffer.get_mut(NUMBER_WIDTH * place..NUMBER_WIDTH * (place + 1)) {
        bytes.copy_from_slice(&number.to_le_bytes());
    }
}

/// The place of the mirrored entry in a square table of so many numbers.
pub fn mirrored(place: usize, count: usize) -> usize {
    let order = count.isqrt();
    place % order * order + place / order
}

/// Changes one number of a list of tables of an order. In a symmetric pair of places the other
/// is mostly changed with it.
pub fn change_table(buffer: &mut [u8], order: usize, random: &mut Random) {
    let (count, table) = (count(buffer), order * order);
    if count == 0 {
        return;
    }
    let place = random.index(count);
    let before = read(buffer, place).expect("the place is in the buffer");
    let after = changed(before, random);
    write(buffer, place, after);
    let first = place / table * table;
    let mirrored = first + mirrored(place - first, table);
    if read(buffer, mirrored) == Some(before) && !random.one_in(8) {
        write(buffer, mirrored, after);
    }
}

/// Changes one number of a list.
pub fn change_list(buffer: &mut [u8], random: &mut Random) {
    change_table(buffer, 1, random);
}

/// Whether a table is not symmetric. One that is not square is not looked at.
pub fn is_lopsided(table: &[i64]) -> bool {
    let (count, order) = (table.len(), table.len().isqrt());
    order * order == count && (0..count).any(|k| table[k] != table[mirrored(k, count)])
}

/// A float's bits a little or much different.
pub fn changed_float(bits: u32, random: &mut Random) -> u32 {
    match random.index(4) {
        0 => bits ^ (1 << random.index(32)),
        1 => random.bits() as u32,
        2 => bits.wrapping_add(1),
        _ => bits.wrapping_sub(1),
    }
}
