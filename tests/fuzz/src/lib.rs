//! The second implementation's output for a summary file, its bracket of the
//! stiffness, its pools, its bus, and new files, for the fuzz harness in C. `fuzz.h` has the C
//! side of what is here.

#![warn(missing_docs)]
#![deny(unsafe_op_in_unsafe_fn)]

mod bus;
mod repair;

use std::slice;

use hankboulder_reference::entries::{pool, read_summary, stiffness};
use hankboulder_reference::generate::Generator;
use hankboulder_reference::program::output;
use hankboulder_reference::summary::read_problem;
use hankboulder_reference::writer::file_of;

use repair::repaired;

/// Writes what the program has to print for a file; its length.
///
/// # Safety
///
/// The file's bytes can be read, and so many bytes of text can be written.
#[no_mangle]
pub unsafe extern "C" fn fuzz_expected(
    file: *const u8,
    size: usize,
    text: *mut u8,
    room: usize,
) -> usize {
    // SAFETY: the caller's promise. No file has no bytes to read.
    let (file, text) = unsafe { (read(file, size), slice::from_raw_parts_mut(text, room)) };
    write(output(file).as_bytes(), text).expect("the text has room")
}

/// The sizes of the seven buffers that a file is read into.
const SIZES: [usize; 7] = [8, 512, 512, 64, 64, 8, 64];

/// Reads a file into the seven buffers, one behind the other; the answer.
///
/// # Safety
///
/// The file's bytes can be read, and as many bytes as the seven have be written.
#[no_mangle]
pub unsafe extern "C" fn fuzz_read(file: *const u8, size: usize, problem: *mut u8) -> i64 {
    let room = SIZES.iter().sum();
    // SAFETY: the caller's promise.
    let (file, mut rest) = unsafe { (read(file, size), slice::from_raw_parts_mut(problem, room)) };
    let [order, low, high, least, most, limit, centre] = SIZES.map(|size| {
        let (buffer, behind) = std::mem::take(&mut rest).split_at_mut(size);
        rest = behind;
        buffer
    });
    read_summary(file, order, low, high, least, most, limit, centre)
}

/// Writes the file of the problem that a file is read as; its length, and 0 where the
/// file is refused. A file with symmetric tables is this file itself.
///
/// # Safety
///
/// The file's bytes can be read, and so many bytes be written as a file has.
#[no_mangle]
pub unsafe extern "C" fn fuzz_again(
    file: *const u8,
    size: usize,
    again: *mut u8,
    room: usize,
) -> usize {
    // SAFETY: the caller's promise.
    let (file, again) = unsafe { (read(file, size), slice::from_raw_parts_mut(again, room)) };
    let Ok(problem) = read_problem(file) else {
        return 0;
    };
    write(&file_of(&problem), again).expect("the file has room")
}

/// Writes the bracket of a problem into the three buffers for step, bound and vector, one
/// behind the other; the answer.
///
/// # Safety
///
/// The order is 1 to 8, as many bytes as its tables have can be read, and as many as the
/// three have be written.
#[no_mangle]
pub unsafe extern "C" fn fuzz_bracket(
    n: i64,
    low: *const u8,
    high: *const u8,
    bracket: *mut u8,
) -> i64 {
    let order = n as usize;
    let (table, number) = (8 * order * order, 8);
    // SAFETY: the caller's promise.
    let (low, high) = unsafe { (read(low, table), read(high, table)) };
    // SAFETY: the caller's promise.
    let bracket = unsafe { slice::from_raw_parts_mut(bracket, 2 * number + 8 * order) };
    let (step, behind) = bracket.split_at_mut(number);
    let (bound, vector) = behind.split_at_mut(number);
    stiffness(n, low, high, step, bound, vector)
}

/// The numbers of the five sums, or of what a problem has of them, one behind the other.
fn sizes_of_sums(order: usize) -> [usize; 5] {
    let (table, vector) = (8 * order * order, 8 * order);
    [table, table, vector, vector, 8]
}

/// Pools a problem, as often as there are orders, into the five sums, one behind the other;
/// the answer. The problem is five buffers, one behind the other, too.
///
/// # Safety
///
/// The order is 1 to 8, as many bytes as a problem of this order and so many orders have can
/// be read, and as many as its sums have be written.
#[no_mangle]
pub unsafe extern "C" fn fuzz_pool(
    n: i64,
    sums: *mut u8,
    problem: *const u8,
    orders: *const u8,
    count: usize,
) -> i64 {
    let sizes = sizes_of_sums(n as usize);
    let room = sizes.iter().sum();
    // SAFETY: the caller's promise.
    let (mut rest, problem) =
        unsafe { (slice::from_raw_parts_mut(sums, room), read(problem, room)) };
    // SAFETY: the caller's promise.
    let orders = unsafe { read(orders, 8 * count) };
    let [low, high, least, most, running] = sizes.map(|size| {
        let (buffer, behind) = std::mem::take(&mut rest).split_at_mut(size);
        rest = behind;
        buffer
    });
    let mut behind = problem;
    let [lows, highs, leasts, mosts, limits] = sizes.map(|size| {
        let (part, after) = behind.split_at(size);
        behind = after;
        part.repeat(count)
    });
    pool(
        n, low, high, least, most, running, orders, &lows, &highs, &leasts, &mosts, &limits,
    )
}

/// Puts right what refuses a file; its new length, the old where it has no room.
///
/// # Safety
///
/// So many bytes of the file can be written, and the first of them be read.
#[no_mangle]
pub unsafe extern "C" fn fuzz_repair(file: *mut u8, size: usize, room: usize) -> usize {
    // SAFETY: the caller's promise.
    let file = unsafe { slice::from_raw_parts_mut(file, room) };
    let whole = repaired(&file[..size]);
    write(&whole, file).unwrap_or(size)
}

/// Writes a generated file; its length, 0 where it has no room.
///
/// # Safety
///
/// So many bytes of the file can be written.
#[no_mangle]
pub unsafe extern "C" fn fuzz_generate(seed: u32, file: *mut u8, room: usize) -> usize {
    // SAFETY: the caller's promise.
    let file = unsafe { slice::from_raw_parts_mut(file, room) };
    let generated = Generator::new(u64::from(seed)).summary_file();
    write(&generated, file).unwrap_or(0)
}

/// The bytes of a pointer that may be null where there are none.
unsafe fn read<'a>(bytes: *const u8, size: usize) -> &'a [u8] {
    if size == 0 {
        return &[];
    }
    // SAFETY: the caller's promise.
    unsafe { slice::from_raw_parts(bytes, size) }
}

/// Writes bytes to the front of a buffer that has room for them; their count.
fn write(bytes: &[u8], buffer: &mut [u8]) -> Option<usize> {
    buffer.get_mut(..bytes.len())?.copy_from_slice(bytes);
    Some(bytes.len())
}
