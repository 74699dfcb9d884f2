//! The summary file: R16 and R17, with the order of checks of R5.11 and R5.12.

use crate::problem::{check_order, table_size, Problem};
use crate::refusal::{require, Refusal};

/// R17.1: the longest file that is read.
pub const MAX_FILE: usize = 4096;
/// R16.1: bytes of a tag and a length.
const FIELD_HEAD: usize = 3;

/// R16.2: n
pub const TAG_ORDER: u8 = 1;
/// R16.2: L
pub const TAG_LOW: u8 = 2;
/// R16.2: U
pub const TAG_HIGH: u8 = 3;
/// R16.2: a_low
pub const TAG_LINEAR_LOW: u8 = 4;
/// R16.2: α
pub const TAG_LIMIT: u8 = 5;
/// R16.2: c
pub const TAG_CENTRE: u8 = 6;
/// R16.2: a_high
pub const TAG_LINEAR_HIGH: u8 = 7;

/// R16.2: bytes of a number of L and U.
pub const TABLE_WIDTH: usize = 4;
/// R16.2: bytes of a number of a, c and α.
pub const NUMBER_WIDTH: usize = 8;

/// A field: its tag and its content, a part of the file.
#[derive(Clone, Copy, Debug, PartialEq, Eq)]
pub struct Field<'a> {
    /// The tag
    pub tag: u8,
    /// The content
    pub content: &'a [u8],
}

/// The fields of a file in the order they stand, each asked 10, 11, 12 and 19
/// (R16.4).
pub fn fields(file: &[u8]) -> Result<Vec<Field<'_>>, Refusal> {
    let mut found: Vec<Field> = vec![];
    let mut rest = file;
    while !rest.is_empty() {
        let (field, after) = split_field(rest)?;
        let known = (TAG_ORDER..=TAG_LINEAR_HIGH).contains(&field.tag);
        require(known, Refusal::Tag)?;
        let seen = found.iter().any(|earlier| earlier.tag == field.tag);
        require(!seen, Refusal::Again)?;
        let falls = found.last().is_some_and(|last| field.tag < last.tag);
        require(!falls, Refusal::Falling)?;
        found.push(field);
        rest = after;
    }
    Ok(found)
}

/// The field at the front and the bytes after it (R16.1): check 10.
fn split_field(bytes: &[u8]) -> Result<(Field<'_>, &[u8]), Refusal> {
    require(bytes.len() >= FIELD_HEAD, Refusal::Cut)?;
    let (head, rest) = bytes.split_at(FIELD_HEAD);
    let length = usize::from(head[1]) + 256 * usize::from(head[2]);
    require(length <= rest.len(), Refusal::Cut)?;
    let (content, after) = rest.split_at(length);
    let field = Field {
        tag: head[0],
        content,
    };
    Ok((field, after))
}

/// The problem of a file, its tables mended, with the checks in the order of R5.11.
pub fn read_problem(file: &[u8]) -> Result<Problem, Refusal> {
    require(file.len() <= MAX_FILE, Refusal::Long)?;
    let found = fields(file)?;
    let content = |tag: u8| {
        let field = found.iter().find(|field| field.tag == tag);
        field.map(|field| field.content).ok_or(Refusal::Absent)
    };
    let order_content = content(TAG_ORDER)?;
    let low = content(TAG_LOW)?;
    let high = content(TAG_HIGH)?;
    let linear_low = content(TAG_LINEAR_LOW)?;
    let limit = content(TAG_LIMIT)?;
    let centre = content(TAG_CENTRE)?;
    let linear_high = content(TAG_LINEAR_HIGH)?;
    // R17.3
    check_sizes(&[(order_content, 1)])?;
    let order = check_order(i64::from(order_content[0]))?;
    // R17.4
    let table = TABLE_WIDTH * table_size(order);
    let list = NUMBER_WIDTH * order;
    check_sizes(&[
        (low, table),
        (high, table),
        (linear_low, list),
        (limit, NUMBER_WIDTH),
        (centre, list),
        (linear_high, list),
    ])?;
    // R17.5
    Problem::read(
        order,
        &decode(low, TABLE_WIDTH),
        &decode(high, TABLE_WIDTH),
        &decode(linear_low, NUMBER_WIDTH),
        &decode(linear_high, NUMBER_WIDTH),
        decode(limit, NUMBER_WIDTH)[0],
        &decode(centre, NUMBER_WIDTH),
    )
}

/// Check 14: each pair is a field's content and the length it has to have.
fn check_sizes(fields: &[(&[u8], usize)]) -> Result<(), Refusal> {
    let all = fields.iter().all(|(content, size)| content.len() == *size);
    require(all, Refusal::Size)
}

/// R1.6: signed numbers of 1 to 8 bytes each.
pub fn decode(bytes: &[u8], width: usize) -> Vec<i64> {
    bytes.chunks(width).map(decode_number).collect()
}

fn decode_number(bytes: &[u8]) -> i64 {
    let places = bytes.iter().rev();
    let unsigned = places.fold(0, |sum, byte| 256 * sum + i128::from(*byte));
    let turn = 1_i128 << (8 * bytes.len());
    let signed = if unsigned >= turn / 2 {
        unsigned - turn
    } else {
        unsigned
    };
    i64::try_from(signed).expect("at most 8 bytes a number")
}

/// R1.6: the bytes of signed numbers, `width` bytes each.
pub fn encode(numbers: &[i64], width: usize) -> Vec<u8> {
    let bytes = |number: &i64| number.to_le_bytes()[..width].to_vec();
    numbers.iter().flat_map(bytes).collect()
}

/// The seven fields of a problem given as plain numbers, in rising order of tag.
pub fn problem_fields(
    n: u8,
    low: &[i64],
    high: &[i64],
    linear_low: &[i64],
    linear_high: &[i64],
    limit: i64,
    centre: &[i64],
) -> Vec<(u8, Vec<u8>)> {
    vec![
        (TAG_ORDER, vec![n]),
        (TAG_LOW, encode(low, TABLE_WIDTH)),
        (TAG_HIGH, encode(high, TABLE_WIDTH)),
        (TAG_LINEAR_LOW, encode(linear_low, NUMBER_WIDTH)),
        (TAG_LIMIT, encode(&[limit], NUMBER_WIDTH)),
        (TAG_CENTRE, encode(centre, NUMBER_WIDTH)),
        (TAG_LINEAR_HIGH, encode(linear_high, NUMBER_WIDTH)),
    ]
}

/// A file of any fields (tag, content), in the order given.
pub fn file_of_fields(fields: &[(u8, Vec<u8>)]) -> Vec<u8> {
    let mut file = vec![];
    for (tag, content) in fields {
        let length = u16::try_from(content.len()).expect("a two-byte length");
        file.push(*tag);
        file.extend(length.to_le_bytes());
        file.extend(content);
    }
    file
}
