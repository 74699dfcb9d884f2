//! Seeded calls of the acts with the second implementation's answers, and its
//! brackets of floats, for the programs in C. `load.h` has the C side of what is
//! here.

#![warn(missing_docs)]
#![deny(unsafe_op_in_unsafe_fn)]

mod bus;
mod call;
mod source;
mod variation;

use std::ffi::c_int;
use std::ptr;

use hankboulder_reference::floats::bracket;

use source::Source;

/// The most buffers that an act has.
const MOST: usize = 11;

/// A buffer of a call.
#[derive(Clone, Copy)]
#[repr(C)]
pub struct LoadBuffer {
    before: *const u8,
    after: *const u8,
    length: usize,
}

/// A call and what is expected of it.
#[repr(C)]
pub struct LoadCall {
    act: i64,
    n: i64,
    limit: i64,
    running_limit: i64,
    allowance: i64,
    address: i64,
    answer: i64,
    value: u8,
    sample: [u32; 5],
    read: usize,
    only_read_from: usize,
    count: usize,
    buffers: [LoadBuffer; MOST],
}

/// The calls of a seed. `load_close` ends them.
#[no_mangle]
pub extern "C" fn load_open(seed: u64) -> *mut Source {
    Box::into_raw(Box::new(Source::new(seed)))
}

/// Hands out a call by its number. Its buffers are there until the next.
///
/// # Safety
///
/// The source is from `load_open` and not closed, no other thread uses it, and
/// the call can be written.
#[no_mangle]
pub unsafe extern "C" fn load_call(source: *mut Source, number: u64, call: *mut LoadCall) {
    // SAFETY: the source is open, and this thread's alone.
    let source = unsafe { &mut *source };
    let answer = source.call(number);
    let (before, after) = (&source.before, &source.after);
    let mut buffers = [LoadBuffer {
        before: ptr::null(),
        after: ptr::null(),
        length: 0,
    }; MOST];
    for (k, (before, after)) in before.buffers.iter().zip(&after.buffers).enumerate() {
        buffers[k] = LoadBuffer {
            before: before.as_ptr(),
            after: after.as_ptr(),
            length: before.len(),
        };
    }
    let passed = &before.passed;
    let handed = LoadCall {
        act: before.act as i64,
        n: passed.n,
        limit: passed.limit,
        running_limit: passed.running_limit,
        allowance: passed.allowance,
        address: passed.address,
        answer,
        value: passed.value,
        sample: passed.sample.numbers(),
        read: before.act.read(),
        only_read_from: before.act.only_read_from(),
        count: before.buffers.len(),
        buffers,
    };
    // SAFETY: the call can be written.
    unsafe { call.write(handed) };
}

/// Ends the calls of a seed.
///
/// # Safety
///
/// The source is from `load_open` and not closed.
#[no_mangle]
pub unsafe extern "C" fn load_close(source: *mut Source) {
    // SAFETY: the source is open.
    drop(unsafe { Box::from_raw(source) });
}

/// The bracket of a float; 0 where it is refused.
///
/// # Safety
///
/// Both numbers can be written.
#[no_mangle]
pub unsafe extern "C" fn load_bracket(bits: u32, low: *mut i64, high: *mut i64) -> c_int {
    let Some(ends) = bracket(bits) else {
        return 0;
    };
    // SAFETY: both can be written. A bracket is within ±128.
    unsafe {
        low.write(ends.low as i64);
        high.write(ends.high as i64);
    }
    1
}
