//! Summary files made whole.

use hankboulder_reference::problem::{
    table_size, CENTRE_RANGE, ENTRY_RANGE, LIMIT_RANGE, LINEAR_RANGE, MAX_ORDER,
};
use hankboulder_reference::summary::{
    decode, file_of_fields, problem_fields, NUMBER_WIDTH, TABLE_WIDTH, TAG_CENTRE, TAG_HIGH,
    TAG_LIMIT, TAG_LINEAR_HIGH, TAG_LINEAR_LOW, TAG_LOW, TAG_ORDER,
};

/// A whole file, with nothing that is refused, from the bytes of any other. The
/// fields that can be told keep their content, as far as it is good.
pub fn repaired(file: &[u8]) -> Vec<u8> {
    let found = told(file);
    let content = |tag: u8| {
        let field = found.iter().find(|(other, _)| *other == tag);
        field.map_or(&[][..], |(_, content)| *content)
    };
    let byte = content(TAG_ORDER).first().copied().unwrap_or(1);
    let order = 1 + (byte.wrapping_sub(1) % MAX_ORDER as u8) as usize;

    let table = |tag| numbers(content(tag), TABLE_WIDTH, table_size(order), ENTRY_RANGE);
    let list = |tag, count, range| numbers(content(tag), NUMBER_WIDTH, count, range);
    let (low, high) = ordered(&table(TAG_LOW), &table(TAG_HIGH), order);
    let (linear_low, linear_high) = sorted(
        &list(TAG_LINEAR_LOW, order, LINEAR_RANGE),
        &list(TAG_LINEAR_HIGH, order, LINEAR_RANGE),
    );
    let fields = problem_fields(
        order as u8,
        &low,
        &high,
        &linear_low,
        &linear_high,
        list(TAG_LIMIT, 1, LIMIT_RANGE)[0],
        &list(TAG_CENTRE, order, CENTRE_RANGE),
    );
    file_of_fields(&fields)
}

/// The fields of a file, each tag once and the last one cut where the file ends.
fn told(file: &[u8]) -> Vec<(u8, &[u8])> {
    let mut found: Vec<(u8, &[u8])> = vec![];
    let mut rest = file;
    while let [tag, low, high, after @ ..] = rest {
        let length = usize::from(u16::from_le_bytes([*low, *high]));
        let (content, after) = after.split_at(length.min(after.len()));
        if found.iter().all(|(other, _)| other != tag) {
            found.push((*tag, content));
        }
        rest = after;
    }
    found
}

/// So many numbers within a range, from the bytes of a field.
fn numbers(content: &[u8], width: usize, count: usize, range: i128) -> Vec<i64> {
    let mut bytes = content.to_vec();
    bytes.resize(width * count, 0);
    let range = range as i64;
    let within = |number: &i64| match number.unsigned_abs() <= range as u64 {
        true => *number,
        false => number % (range + 1),
    };
    decode(&bytes, width).iter().map(within).collect()
}

/// Both tables with no pair of places that is refused: where one is, the two smaller of its
/// four numbers are low, and the two greater high. Halves that differ stay so.
fn ordered(low: &[i64], high: &[i64], order: usize) -> (Vec<i64>, Vec<i64>) {
    let (mut low, mut high) = (low.to_vec(), high.to_vec());
    for (i, j) in (0..order).flat_map(|i| (i..order).map(move |j| (i, j))) {
        let (place, mirrored) = (i * order + j, j * order + i);
        let (lows, highs) = ([low[place], low[mirrored]], [high[place], high[mirrored]]);
        if lows.iter().max() > highs.iter().min() {
            let mut all = [lows, highs].concat();
            all.sort_unstable();
            (low[place], low[mirrored]) = (all[0], all[1]);
            (high[place], high[mirrored]) = (all[3], all[2]);
        }
    }
    (low, high)
}

/// The smaller of both numbers at each place, and the greater.
fn sorted(low: &[i64], high: &[i64]) -> (Vec<i64>, Vec<i64>) {
    let pairs = || low.iter().zip(high);
    let least = pairs().map(|(l, h)| *l.min(h));
    let greatest = pairs().map(|(l, h)| *l.max(h));
    (least.collect(), greatest.collect())
}
