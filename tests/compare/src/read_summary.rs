//! Reading a summary.

use hankboulder_reference::entries;
use hankboulder_reference::generate::Generator;
use hankboulder_reference::summary::read_problem;
use hankboulder_reference::writer::file_of;

use crate::act::{symmetric_at_1, Act, Call, Inputs};
use crate::counts::Outcome;
use crate::guarded::Lent;
use crate::lopsided::{has_lopsided, mended};
use crate::write_summary::WRITE_SUMMARY;
use crate::{bytes, numbers};

extern "C" {
    fn hb_read_summary(
        file: *const u8,
        file_len: usize,
        order: *mut u8,
        order_len: usize,
        low: *mut u8,
        low_len: usize,
        high: *mut u8,
        high_len: usize,
        linear_low: *mut u8,
        linear_low_len: usize,
        linear_high: *mut u8,
        linear_high_len: usize,
        limit: *mut u8,
        limit_len: usize,
        centre: *mut u8,
        centre_len: usize,
    ) -> i64;
}

const WRITTEN: i64 = 0;

/// Numbers in a table and in a vector of the greatest order.
const TABLE: usize = 64;
const VECTOR: usize = 8;

/// The sizes of the outputs, in bytes: order, low, high, linear_low, linear_high,
/// limit and centre.
pub const SIZES: [usize; 7] = [
    8,
    8 * TABLE,
    8 * TABLE,
    8 * VECTOR,
    8 * VECTOR,
    8,
    8 * VECTOR,
];

/// Reading a summary.
pub const READ_SUMMARY: Act = Act {
    name: "hb_read_summary",
    answers: &[0, 2, 15, 10, 11, 12, 19, 13, 14, 1, 3, 4, 5, 16],
    possible: symmetric_at_1,
    inputs: Inputs::File,
    generate,
    reference,
    library,
    confirm,
};

/// A call that reads a file, with these outputs.
pub fn of_file(file: Vec<u8>, outputs: Vec<Vec<u8>>) -> Call {
    let order = match file[..] {
        [1, 1, 0, order, ..] => order.into(),
        _ => 0,
    };
    Call::new(order, [vec![file], outputs].concat())
}

/// Outputs before a call.
pub fn unwritten() -> Vec<Vec<u8>> {
    SIZES.map(|size| vec![0x5A; size]).to_vec()
}

/// All buffers after reading the file that a call of the writer has written: the numbers
/// that were handed over, the tables mended.
pub fn written_for(call: &Call) -> Vec<Vec<u8>> {
    let [low, high, linear_low, linear_high, centre, file] = &call.buffers[..] else {
        unreachable!("writing a summary has six buffers");
    };
    let (order, limit) = (bytes(&[call.n]), bytes(&call.numbers));
    let [low, high] = &mended(low, high);
    let lists = [&order, low, high, linear_low, linear_high, &limit, centre];
    let padded = lists.iter().zip(SIZES).map(|(list, size)| {
        let mut whole = list.to_vec();
        whole.resize(size, 0);
        whole
    });
    [file.clone()].into_iter().chain(padded).collect()
}

/// The call that writes what was read, to a buffer as long as the file.
pub fn writing_again(after: &Call) -> Call {
    let [file, order, low, high, linear_low, linear_high, limit, centre] = &after.buffers[..]
    else {
        unreachable!("reading a summary has eight buffers");
    };
    let n = numbers(order)[0];
    let order = n as usize;
    let buffers = vec![
        low[..8 * order * order].to_vec(),
        high[..8 * order * order].to_vec(),
        linear_low[..8 * order].to_vec(),
        linear_high[..8 * order].to_vec(),
        centre[..8 * order].to_vec(),
        vec![0x5A; file.len()],
    ];
    Call {
        numbers: numbers(limit),
        ..Call::new(n, buffers)
    }
}

fn generate(generator: &mut Generator) -> Call {
    let call = generator.read_call();
    let outputs = vec![
        call.order,
        call.low,
        call.high,
        call.linear_low,
        call.linear_high,
        call.limit,
        call.centre,
    ];
    of_file(call.file, outputs)
}

fn reference(call: &mut Call) -> Outcome {
    let [file, order, low, high, least, most, limit, centre] = &mut call.buffers[..] else {
        unreachable!("reading a summary has eight buffers");
    };
    entries::read_summary(file, order, low, high, least, most, limit, centre).into()
}

fn library(_: &Call, lent: &[Lent]) -> i64 {
    let [file, order, low, high, linear_low, linear_high, limit, centre] = lent else {
        unreachable!("reading a summary has eight buffers");
    };
    // SAFETY: each pointer has its length in readable and writable bytes, and no
    // two overlap.
    unsafe {
        hb_read_summary(
            file.pointer,
            file.length,
            order.pointer,
            order.length,
            low.pointer,
            low.length,
            high.pointer,
            high.length,
            linear_low.pointer,
            linear_low.length,
            linear_high.pointer,
            linear_high.length,
            limit.pointer,
            limit.length,
            centre.pointer,
            centre.length,
        )
    }
}

/// What is read is written as the file of the mended problem: byte for byte the same
/// where its tables are symmetric, and otherwise one that is read as the same problem.
fn confirm(after: &Call, answer: i64) {
    if answer != WRITTEN {
        return;
    }
    let file = &after.buffers[0];
    let again = file_of(&read_problem(file).expect("the reference has read it"));
    let call = writing_again(after);
    let mut buffers = call.buffers.clone();
    buffers[5].clone_from(&again);
    WRITE_SUMMARY.expect_after(&call, WRITTEN, &buffers);
    assert_eq!(
        again != *file,
        has_lopsided(after, Inputs::File),
        "{after:?}"
    );
    if again != *file {
        let read = of_file(again.clone(), unwritten());
        let outputs = [&[again], &after.buffers[1..]].concat();
        READ_SUMMARY.expect_after(&read, WRITTEN, &outputs);
    }
}
