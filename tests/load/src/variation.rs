//! Small changes of a call.

use hankboulder_reference::generate::numbers::{
    change_list, change_table, changed, changed_float, count, mirrored, read, write,
};
use hankboulder_reference::random::Random;
use hankboulder_reference::rides::Sample;
use hankboulder_reference::summary::NUMBER_WIDTH;

use crate::bus;
use crate::call::{order_in, Act, Call, SUMS};

/// Low and high, the buffers whose mirrored entries belong together.
const TABLES: usize = 2;

/// The ends of the linear terms, of the acts that have them.
const LINEAR_LOW: usize = 2;
const LINEAR_HIGH: usize = 3;

/// The call with a change: mostly of one number of its inputs, now and then of
/// the order, of lengths, or of all bytes of an input.
pub fn varied(call: &Call, random: &mut Random) -> Call {
    if call.act == Act::ReadSummary {
        return varied_file(call, random);
    }
    let mut varied = call.clone();
    match random.index(64) {
        0 => varied.passed.n = change_order(call.passed.n, random),
        1 => varied.buffers.iter_mut().for_each(Vec::clear),
        2..=4 => change_length(&mut varied, random),
        5 => {
            let input = random.index(call.act.read());
            let length = call.buffers[input].len();
            varied.buffers[input] = random.bytes(length);
        }
        _ if call.act == Act::Pool => change_pool(&mut varied, random),
        _ if call.act.is_of_bus() => bus::change(&mut varied, random),
        _ => change_number(&mut varied, random),
    }
    if call.act.is_of_bus() {
        bus::put_order(&mut varied);
    }
    varied
}

/// The call with a change: mostly of one byte of its file, now and then of lengths,
/// or of all bytes of the file.
fn varied_file(call: &Call, random: &mut Random) -> Call {
    let mut varied = call.clone();
    let file = &mut varied.buffers[0];
    let (length, place) = (file.len(), random.index(file.len().max(1)));
    match random.index(64) {
        0 => varied.buffers.iter_mut().for_each(Vec::clear),
        1..=4 => change_length(&mut varied, random),
        5 => *file = random.bytes(length),
        _ if length == 0 => {}
        6..=20 => file[place] = random.bits() as u8,
        21..=40 => file[place] ^= 1 << random.index(8),
        _ => file[place] = file[place].wrapping_add(random.pick(&[1, 255])),
    }
    varied.passed.n = order_in(&varied.buffers[0]);
    varied
}

/// The order beside an order, or any number.
fn change_order(n: i64, random: &mut Random) -> i64 {
    let any = random.bits() as i64;
    random.pick(&[
        n.wrapping_sub(1),
        n.wrapping_add(1),
        n.wrapping_neg(),
        n ^ (1 << 32),
        any,
    ])
}

/// Gives one buffer another length.
fn change_length(call: &mut Call, random: &mut Random) {
    let place = random.index(call.buffers.len());
    let buffer = &mut call.buffers[place];
    let length = buffer.len();
    let order = random.index(9);
    let changed = random.pick(&[
        0,
        length + 1,
        length.saturating_sub(1),
        length + NUMBER_WIDTH,
        length.saturating_sub(NUMBER_WIDTH),
        length / NUMBER_WIDTH,
        NUMBER_WIDTH * order,
        NUMBER_WIDTH * order * order,
    ]);
    buffer.extend(random.bytes(changed.saturating_sub(length)));
    buffer.truncate(changed);
}

/// Changes one number that is passed by value: the limit, the running limit, the
/// allowance or one of the sample.
fn change_passed(call: &mut Call, random: &mut Random) {
    let passed = &mut call.passed;
    match call.act {
        Act::Box | Act::WriteSummary => passed.limit = changed(passed.limit, random),
        Act::ReadSums if random.one_in(2) => {
            passed.running_limit = changed(passed.running_limit, random);
        }
        Act::ReadSums => passed.allowance = changed(passed.allowance, random),
        _ => {
            let mut numbers = passed.sample.numbers();
            let place = random.index(numbers.len());
            numbers[place] = changed_float(numbers[place], random);
            passed.sample = Sample::of(numbers);
        }
    }
}

/// Changes one number of the sums or of a list, more seldom an order; now and then a problem
/// is left out.
fn change_pool(call: &mut Call, random: &mut Random) {
    let order = call.passed.n.clamp(1, 8) as usize;
    let table = order * order;
    let sizes = [1, table, table, order, order, 1];
    if random.one_in(16) {
        for (list, size) in call.buffers[SUMS..].iter_mut().zip(sizes) {
            list.truncate(list.len().saturating_sub(NUMBER_WIDTH * size));
        }
        return;
    }
    let place = match random.index(call.buffers.len()) {
        SUMS if !random.one_in(4) => SUMS + 1,
        place => place,
    };
    let tables = place < TABLES || (SUMS + 1..SUMS + 1 + TABLES).contains(&place);
    if tables {
        change_table(&mut call.buffers[place], order, random);
    } else {
        change_list(&mut call.buffers[place], random);
    }
}

/// Changes one number of an input, or one that is passed by value. In a table the
/// mirrored entry is mostly changed with it, and sometimes those of the other
/// table. Of a linear term both ends are sometimes changed.
fn change_number(call: &mut Call, random: &mut Random) {
    let inputs = call.act.read();
    let choice = random.index(inputs + usize::from(call.act.has_ends()));
    if choice == inputs {
        change_passed(call, random);
        return;
    }
    let count = count(&call.buffers[choice]);
    if count == 0 {
        return;
    }
    let place = random.index(count);
    let before = read(&call.buffers[choice], place).expect("the place is in the buffer");
    let after = changed(before, random);
    write(&mut call.buffers[choice], place, after);
    if choice >= TABLES {
        let end = call.act.has_ends() && [LINEAR_LOW, LINEAR_HIGH].contains(&choice);
        if end && random.one_in(2) {
            write(
                &mut call.buffers[LINEAR_LOW + LINEAR_HIGH - choice],
                place,
                after,
            );
        }
        return;
    }
    let other = 1 - choice;
    let also_other = random.one_in(2);
    let mut halves = vec![place];
    if !random.one_in(6) {
        halves.push(mirrored(place, count));
    }
    for place in halves {
        write(&mut call.buffers[choice], place, after);
        if also_other {
            write(&mut call.buffers[other], place, after);
        }
    }
}
