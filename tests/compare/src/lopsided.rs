//! Tables whose upper and lower halves differ.

use hankboulder_reference::generate::numbers::is_lopsided;
use hankboulder_reference::problem;
use hankboulder_reference::summary::{decode, fields, TABLE_WIDTH, TAG_HIGH, TAG_LOW};

use crate::act::{Call, Inputs};
use crate::bus::TABLES;
use crate::pool::{HIGHS, LOWS};
use crate::{bytes, numbers};

/// The mended tables of two that are square, over bytes (R2.10).
pub fn mended(low: &[u8], high: &[u8]) -> [Vec<u8>; 2] {
    let square = |table: &[u8]| {
        let list = numbers(table);
        problem::square(list.len().isqrt(), &list)
    };
    let (low, high) = problem::mended(&square(low), &square(high));
    [low, high].map(|table| {
        let list: Vec<i64> = table.concat().iter().map(|entry| *entry as i64).collect();
        bytes(&list)
    })
}

/// Whether a table that a call is handed is not symmetric. One that is not square is
/// not looked at.
pub fn has_lopsided(call: &Call, inputs: Inputs) -> bool {
    let tables = match inputs {
        Inputs::File => tables_in(&call.buffers[0]),
        Inputs::Pooled => tables_of_pool(call),
        Inputs::Bus => tables_of_write(call),
        _ => call.buffers[..2].iter().map(|t| whole_numbers(t)).collect(),
    };
    tables.iter().any(|table| is_lopsided(table))
}

fn whole_numbers(bytes: &[u8]) -> Vec<i64> {
    numbers(&bytes[..bytes.len() / 8 * 8])
}

/// The tables that a write of the bus comes with; none of another operation.
fn tables_of_write(call: &Call) -> Vec<Vec<i64>> {
    let tables = TABLES.iter().filter_map(|place| call.buffers.get(*place));
    tables.map(|table| whole_numbers(table)).collect()
}

/// The tables of the sums, and of all problems of a pool.
fn tables_of_pool(call: &Call) -> Vec<Vec<i64>> {
    let size = call.n.clamp(1, 8).pow(2) as usize;
    let lists = [0, 1, LOWS, HIGHS].map(|place| whole_numbers(&call.buffers[place]));
    let tables = lists.iter().flat_map(|list| list.chunks_exact(size));
    tables.map(<[i64]>::to_vec).collect()
}

/// The tables of a file whose fields can be told.
fn tables_in(file: &[u8]) -> Vec<Vec<i64>> {
    let found = fields(file).unwrap_or_default();
    let tables = found
        .iter()
        .filter(|f| [TAG_LOW, TAG_HIGH].contains(&f.tag));
    let whole = tables.filter(|field| field.content.len().is_multiple_of(TABLE_WIDTH));
    whole
        .map(|field| decode(field.content, TABLE_WIDTH))
        .collect()
}
