//! The second implementation's bus, with the library's declarations.

use std::slice;

use hankboulder_reference::entries;

use crate::read;

/// A write.
///
/// # Safety
///
/// The bytes of all buffers can be read, and those of block and run area be written.
#[no_mangle]
pub unsafe extern "C" fn fuzz_bus_write(
    block: *mut u8,
    block_len: usize,
    run: *mut u8,
    run_len: usize,
    address: i64,
    value: u8,
    low: *const u8,
    low_len: usize,
    high: *const u8,
    high_len: usize,
) -> i64 {
    // SAFETY: the caller's promise.
    let (block, run) = unsafe { bus(block, block_len, run, run_len) };
    // SAFETY: the caller's promise.
    let (low, high) = unsafe { (read(low, low_len), read(high, high_len)) };
    entries::bus_write(block, run, address, value, low, high)
}

/// A tick.
///
/// # Safety
///
/// The bytes of block and run area can be read and written.
#[no_mangle]
pub unsafe extern "C" fn fuzz_bus_tick(
    block: *mut u8,
    block_len: usize,
    run: *mut u8,
    run_len: usize,
) -> i64 {
    // SAFETY: the caller's promise.
    let (block, run) = unsafe { bus(block, block_len, run, run_len) };
    entries::bus_tick(block, run)
}

/// A read.
///
/// # Safety
///
/// The bytes of the block can be read, and those of the value be written.
#[no_mangle]
pub unsafe extern "C" fn fuzz_bus_read(
    block: *const u8,
    block_len: usize,
    address: i64,
    value: *mut u8,
    value_len: usize,
) -> i64 {
    // SAFETY: the caller's promise.
    let (block, value) = unsafe {
        (
            read(block, block_len),
            slice::from_raw_parts_mut(value, value_len),
        )
    };
    entries::bus_read(block, address, value)
}

/// The line.
///
/// # Safety
///
/// The bytes of the block can be read.
#[no_mangle]
pub unsafe extern "C" fn fuzz_bus_line(block: *const u8, block_len: usize) -> i64 {
    // SAFETY: the caller's promise.
    entries::bus_line(unsafe { read(block, block_len) })
}

/// Block and run area, which are not null.
unsafe fn bus<'a>(
    block: *mut u8,
    block_len: usize,
    run: *mut u8,
    run_len: usize,
) -> (&'a mut [u8], &'a mut [u8]) {
    // SAFETY: the caller's promise.
    unsafe {
        (
            slice::from_raw_parts_mut(block, block_len),
            slice::from_raw_parts_mut(run, run_len),
        )
    }
}
