//! Small changes of a call.

use hankboulder_reference::generate::numbers::{
    change_list, change_table, changed, changed_float, count, mirrored, read, write,
};
use hankboulder_reference::random::Random;
use hankboulder_reference::rides::Sample;

use crate::act::{Call, Inputs};
use crate::bus;
use crate::pool::{HIGHS, LOWS, ORDERS};
use crate::read_summary::of_file;

/// The call with one of its inputs changed.
pub fn varied(call: &Call, inputs: Inputs, random: &mut Random) -> Call {
    match inputs {
        Inputs::Numbers(count) => varied_number(call, count, false, random),
        Inputs::Sampled(count) => varied_number(call, count, true, random),
        Inputs::Pooled => varied_pool(call, random),
        Inputs::File => varied_file(call, random),
        Inputs::Bus => bus::varied(call, random),
    }
}

/// The call with a byte of its file changed, or the last ones cut off, or some more
/// behind them; now and then an output of another size.
fn varied_file(call: &Call, random: &mut Random) -> Call {
    let (mut file, mut outputs) = (call.buffers[0].clone(), call.buffers[1..].to_vec());
    let place = random.index(file.len().max(1));
    let more = random.pick(&[1, 3, 700]);
    match random.index(20) {
        0 => file.truncate(place),
        1 => file.extend(random.bytes(more)),
        2 => {
            let size = random.pick(&[0, 8, 64, 512, 513]);
            let output = random.index(outputs.len());
            outputs[output] = random.bytes(size);
        }
        _ if file.is_empty() => {}
        3..=6 => file[place] = random.bits() as u8,
        7..=10 => file[place] ^= 1 << random.index(8),
        _ => file[place] = file[place].wrapping_add(random.pick(&[1, 255])),
    }
    of_file(file, outputs)
}

/// The call with one number changed in the sums or in a list. In a symmetric pair of places
/// of a table the other is mostly changed with it; now and then a problem is added or left
/// out.
fn varied_pool(call: &Call, random: &mut Random) -> Call {
    let mut varied = call.clone();
    let order = usize::try_from(call.n).ok().filter(|n| (1..=8).contains(n));
    let order = order.unwrap_or(1);
    if random.one_in(24) {
        let more = random.one_in(2);
        let sizes = [1, order * order, order * order, order, order, 1];
        for (list, size) in varied.buffers[ORDERS..].iter_mut().zip(sizes) {
            let length = if more {
                list.extend_from_within(list.len().saturating_sub(8 * size)..);
                list.len()
            } else {
                list.len().saturating_sub(8 * size)
            };
            list.truncate(length);
        }
        return varied;
    }
    // The list of orders is changed less often: most changes of it are refused.
    let input = match random.index(varied.buffers.len()) {
        ORDERS if !random.one_in(4) => LOWS,
        input => input,
    };
    let buffer = &mut varied.buffers[input];
    if [0, 1, LOWS, HIGHS].contains(&input) {
        change_table(buffer, order, random);
    } else {
        change_list(buffer, random);
    }
    varied
}

/// The call with one number changed in one of its inputs: the first buffers, the
/// other numbers, and the sample where it has one. In a symmetric pair of places
/// the other is mostly changed with it.
fn varied_number(call: &Call, inputs: usize, sampled: bool, random: &mut Random) -> Call {
    let mut varied = call.clone();
    let others = call.numbers.len();
    let input = random.index(inputs + others + usize::from(sampled));
    if input == inputs + others {
        let mut numbers = call.sample.numbers();
        let place = random.index(numbers.len());
        numbers[place] = changed_float(numbers[place], random);
        varied.sample = Sample::of(numbers);
        return varied;
    }
    if input >= inputs {
        let number = &mut varied.numbers[input - inputs];
        *number = changed(*number, random);
        return varied;
    }
    let buffer = &mut varied.buffers[input];
    let count = count(buffer);
    if count == 0 {
        return varied;
    }
    let place = random.index(count);
    let before = read(buffer, place).expect("the place is in the buffer");
    let after = changed(before, random);
    write(buffer, place, after);
    let mirrored = mirrored(place, count);
    if read(buffer, mirrored) == Some(before) && !random.one_in(4) {
        write(buffer, mirrored, after);
    }
    varied
}
