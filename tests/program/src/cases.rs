//! The files of the folder `cases`: each has a name and stands there as
//! NAME.summary, with what the program prints for it as NAME.expected.
//! `cargo run --release --offline --bin write_cases` writes the folder anew.

use std::path::PathBuf;

use hankboulder_reference::cases::bytes;
use hankboulder_reference::generate::RawProblem;
use hankboulder_reference::summary::{
    encode, file_of_fields, MAX_FILE, TABLE_WIDTH, TAG_CENTRE, TAG_HIGH, TAG_LIMIT,
    TAG_LINEAR_HIGH, TAG_LINEAR_LOW, TAG_LOW, TAG_ORDER,
};

use crate::problem_file::{bounds, definite, ends, thin, wide, Fields};

/// A file of the folder. A name that begins with `refused-` goes on with the
/// number.
#[derive(Clone, Debug, PartialEq, Eq)]
pub struct Case {
    /// The name
    pub name: String,
    /// The bytes
    pub file: Vec<u8>,
}

impl Case {
    fn new(name: &str, file: Vec<u8>) -> Case {
        let name = name.to_string();
        Case { name, file }
    }

    fn of(name: &str, problem: &RawProblem) -> Case {
        Case::new(name, problem.file())
    }

    /// Where the file stands.
    pub fn summary_path(&self) -> PathBuf {
        folder().join(format!("{}.summary", self.name))
    }

    /// Where the expected output stands.
    pub fn expected_path(&self) -> PathBuf {
        folder().join(format!("{}.expected", self.name))
    }
}

/// The folder.
pub fn folder() -> PathBuf {
    PathBuf::from(env!("CARGO_MANIFEST_DIR")).join("cases")
}

/// Every case.
pub fn cases() -> Vec<Case> {
    [
        cut_and_tag_refusals(),
        size_refusals(),
        entry_refusals(),
        lopsided_refusals(),
        long_files(),
        verdicts(),
        boxes(),
        lopsided(),
        listed(),
    ]
    .concat()
}

/// The fields of the problem that the refused files are made of, of order 2.
fn good() -> Fields {
    definite(2).fields()
}

/// The file of the good problem with another content for a tag.
fn with(tag: u8, content: &[u8]) -> Vec<u8> {
    let mut fields = good();
    set(&mut fields, tag, content);
    file_of_fields(&fields)
}

fn set(fields: &mut Fields, tag: u8, content: &[u8]) {
    let mut found = fields.iter_mut().filter(|field| field.0 == tag);
    found.next().expect("a field of the tag").1 = content.to_vec();
}

/// The file of the good problem with bytes after it.
fn followed_by(tail: &str) -> Vec<u8> {
    [file_of_fields(&good()), bytes(tail)].concat()
}

/// The file of the good problem with bytes before it.
fn led_by(head: &str) -> Vec<u8> {
    [bytes(head), file_of_fields(&good())].concat()
}

/// 10, 11, 12, 13 and 19
fn cut_and_tag_refusals() -> Vec<Case> {
    let mut no_limit = good();
    no_limit.retain(|field| field.0 != TAG_LIMIT);
    let mut no_centre_and_long_order = good();
    no_centre_and_long_order.retain(|field| field.0 != TAG_CENTRE);
    set(&mut no_centre_and_long_order, TAG_ORDER, &[2, 0]);
    // The file of the time before tag 07
    let case_p = thin("[4]", &[-8], 0, &[2]).fields();
    let mut past_the_end = file_of_fields(&good());
    past_the_end.pop();
    vec![
        Case::new("refused-10-one-byte-left", followed_by("01")),
        Case::new("refused-10-two-bytes-left", followed_by("01 01")),
        Case::new("refused-10-length-past-the-end", past_the_end),
        Case::new("refused-10-with-tag-ff-comes-before-11", followed_by("FF")),
        Case::new("refused-10-again-comes-before-12", followed_by("06 0100")),
        Case::new("refused-11-tag-00", followed_by("00 0000")),
        Case::new("refused-11-tag-08", led_by("08 0100 02")),
        Case::new("refused-12-order-again", followed_by("01 0100 02")),
        Case::new("refused-12-then-cut", led_by("06 0000 06 0000 01 FFFF")),
        Case::new("refused-12-linear-high-again", followed_by("07 0000")),
        Case::new("refused-13-empty-file", vec![]),
        Case::new("refused-13-no-limit", file_of_fields(&no_limit)),
        Case::new(
            "refused-13-case-p-of-six-fields",
            file_of_fields(&case_p[..6]),
        ),
        Case::new(
            "refused-13-comes-before-14",
            file_of_fields(&no_centre_and_long_order),
        ),
    ]
}

/// 14 and 1
fn size_refusals() -> Vec<Case> {
    let mut order_9 = good();
    set(&mut order_9, TAG_ORDER, &[9]);
    set(&mut order_9, TAG_LOW, &[]);
    let low = encode(&definite(2).low, TABLE_WIDTH);
    let mut beyond_and_short = good();
    set(&mut beyond_and_short, TAG_LOW, &[0x7F; 16]);
    set(&mut beyond_and_short, TAG_CENTRE, &[0; 8]);
    vec![
        Case::new("refused-14-order-of-no-bytes", with(TAG_ORDER, &[])),
        Case::new(
            "refused-14-order-of-two-bytes-comes-before-1",
            with(TAG_ORDER, &[9, 0]),
        ),
        Case::new("refused-01-order-0", with(TAG_ORDER, &[0])),
        Case::new("refused-01-order-9", with(TAG_ORDER, &[9])),
        Case::new("refused-01-order-255", with(TAG_ORDER, &[255])),
        Case::new(
            "refused-01-comes-before-14-of-others",
            file_of_fields(&order_9),
        ),
        Case::new("refused-14-low-short", with(TAG_LOW, &low[..15])),
        Case::new("refused-14-high-of-order-1", with(TAG_HIGH, &low[..4])),
        Case::new("refused-14-centre-long", with(TAG_CENTRE, &[0; 17])),
        Case::new(
            "refused-14-linear-high-short",
            with(TAG_LINEAR_HIGH, &[0; 15]),
        ),
        Case::new("refused-14-linear-low-long", with(TAG_LINEAR_LOW, &[0; 24])),
        Case::new(
            "refused-14-comes-before-3",
            file_of_fields(&beyond_and_short),
        ),
    ]
}

/// The definite problem of an order with a change.
fn changed(name: &str, order: usize, change: fn(&mut RawProblem)) -> Case {
    let mut problem = definite(order);
    change(&mut problem);
    Case::of(name, &problem)
}

/// 3, 4 and 16
fn entry_refusals() -> Vec<Case> {
    let changed = |name: &str, change| changed(name, 2, change);
    vec![
        changed("refused-03-low-below", |p| p.low[3] = -(1 << 20) - 1),
        changed("refused-03-high-above", |p| p.high[0] = (1 << 20) + 1),
        changed("refused-03-linear-low-above", |p| {
            p.linear_low[1] = (1 << 36) + 1
        }),
        changed("refused-03-linear-high-below", |p| {
            p.linear_high[0] = -(1 << 36) - 1
        }),
        changed("refused-03-limit-below", |p| p.limit = -(1 << 54) - 1),
        changed("refused-03-centre-below", |p| p.centre[0] = -(1 << 12) - 1),
        changed("refused-03-comes-before-4-and-5", |p| {
            p.low[1] = p.high[1] + 1;
            p.centre[1] = 1 << 13;
        }),
        changed("refused-04-crossed", |p| {
            p.low[3] = p.high[3] + 1;
        }),
        changed("refused-16-reversed", |p| {
            p.linear_low[1] = p.linear_high[1] + 1;
        }),
        changed("refused-16-comes-before-the-box-is-flat", |p| {
            p.low.fill(0);
            p.high.fill(0);
            p.linear_low[0] = p.linear_high[0] + 1;
        }),
    ]
}

/// 5, and 3, 4 and 16 of lopsided tables. Low of one half is above high of the other, or
/// high of one below low of the other; each half by itself is not crossed.
fn lopsided_refusals() -> Vec<Case> {
    let changed = |name: &str, change| changed(name, 2, change);
    vec![
        changed("refused-03-half-below-that-is-mended-away", |p| {
            p.low[1] = -(1 << 20) - 1;
        }),
        changed("refused-04-comes-before-5", |p| p.low[2] = p.high[2] + 1),
        changed("refused-05-low-lopsided", |p| {
            p.low[1] = p.high[2] + 1;
            p.high[1] = p.low[1];
        }),
        changed("refused-05-high-lopsided", |p| {
            p.high[2] = p.low[1] - 1;
            p.low[2] = p.high[2] - 5;
        }),
        changed("refused-05-comes-before-16", |p| {
            p.low[1] = p.high[2] + 1;
            p.high[1] = p.low[1];
            p.linear_low[0] = p.linear_high[0] + 1;
        }),
        changed("refused-16-with-a-half-that-is-mended-away", |p| {
            p.low[1] -= 1;
            p.linear_low[0] = p.linear_high[0] + 1;
        }),
    ]
}

/// 15, and the greatest size that passes it
fn long_files() -> Vec<Case> {
    let grown = |size: usize| {
        let missing = size - file_of_fields(&good()).len();
        with(TAG_HIGH, &vec![0; 4 * TABLE_WIDTH + missing])
    };
    vec![
        Case::new("refused-14-in-4096-bytes", grown(MAX_FILE)),
        Case::new("refused-15-4097-bytes", grown(MAX_FILE + 1)),
        Case::new(
            "refused-15-comes-before-10-and-11",
            vec![0xFF; MAX_FILE + 1],
        ),
    ]
}

/// 'not' from each list, 'undecided' and 'definite' without a box
fn verdicts() -> Vec<Case> {
    let thin = |name: &str, matrix: &str| Case::of(name, &bounds(matrix, matrix));
    let end = 1 << 20;
    let mut widest = definite(8);
    for place in 0..64 {
        widest.low[place] = if place % 9 == 0 { end } else { 0 };
    }
    widest.high = widest.low.clone();
    let none_for_1 = "[2 181 0 0; 181 17473 4 -2; 0 4 4000 -2000; 0 -2 -2000 999]";
    vec![
        thin("not-by-tried-vector", "[1 2; 2 1]"),
        thin("not-by-the-first-of-two-tried", "[1 1 0; 1 1 1; 0 1 1]"),
        Case::of("not-by-high-alone", &bounds("[1 0; 0 1]", "[1 2; 2 1]")),
        thin("not-by-solved-1", "[1 1000; 1000 10000]"),
        thin(
            "not-by-solved-1-stopped-in-row-1",
            "[1 0 1000; 0 1 5; 1000 5 10000]",
        ),
        thin("not-by-solved-1-of-32768", "[1 28672; 28672 1048576]"),
        thin("not-by-solved-64", "[100 37; 37 13]"),
        thin("not-by-solved-64-where-1-gives-none", none_for_1),
        thin("undecided", "[1 3; 3 10]"),
        thin("definite-box-refused-8", "[2 -1; -1 2]"),
        Case::of("definite-widest-factor-of-order-8", &widest),
        Case::of(
            "not-at-the-ends-of-every-range",
            &wide(
                "[-1048576 -1048576; -1048576 -1048576]",
                "[1048576 1048576; 1048576 1048576]",
                &[1 << 36, -(1 << 36)],
                -(1 << 54),
                &[1 << 12, -(1 << 12)],
            ),
        ),
    ]
}

/// Sides of each order, 'empty', 8 and 9
fn boxes() -> Vec<Case> {
    let of_order = |order| Case::of(&format!("sides-of-order-{order}"), &definite(order));
    let four = |name: &str, a: i64, limit: i64| Case::of(name, &thin("[4]", &[a], limit, &[0]));
    let stepless = "[609851 712448 1296; 712448 834162 1529; 1296 1529 4]";
    let mut boxes: Vec<Case> = (1..=8).map(of_order).collect();
    boxes.extend([
        four("sides-of-no-length", 0, 0),
        four("sides-with-a-point-on-the-rim", 0, 9),
        four("sides-where-the-quotient-rounds-up", 1, -1),
        four("sides-of-the-greatest-gradient", 1 << 20, 0),
        four("definite-box-refused-9", (1 << 20) + 1, 0),
        four("definite-empty", 0, -1),
        Case::of("sides-widest", &thin("[2]", &[0], 1 << 54, &[0])),
        Case::of(
            "sides-with-high-off-the-diagonal",
            &wide("[4 0; 0 4]", "[4 1; 1 4]", &[0, 0], 2, &[1, -1]),
        ),
        Case::of(
            "sides-without-step-3",
            &thin(stepless, &[1, -2, 3], 100, &[0, 0, 0]),
        ),
        Case::of("sides-of-two-ends", &ends("[4]", (-4, 4), 0, 0)),
        Case::of("sides-of-two-ends-of-case-p", &ends("[4]", (-8, -4), 0, 2)),
        Case::of("sides-of-two-ends-mirrored", &ends("[4]", (4, 8), 0, -2)),
        Case::of("definite-empty-for-both-ends", &ends("[4]", (-1, 1), -3, 0)),
        Case::of(
            "definite-box-refused-9-by-the-low-end",
            &ends("[4]", (-(1 << 20) - 1, 0), 0, 0),
        ),
    ]);
    boxes
}

/// Upper and lower halves that differ, and are mended (R2.10)
fn lopsided() -> Vec<Case> {
    let of = |name: &str, low: &str, high: &str| Case::of(name, &bounds(low, high));
    vec![
        changed("sides-of-order-2-low-lopsided", 2, |p| p.low[1] -= 1),
        changed("sides-of-order-2-high-lopsided", 2, |p| p.high[2] += 1),
        changed("sides-of-order-4-each-pair-lopsided", 4, apart),
        changed("sides-of-order-8-each-pair-lopsided", 8, apart),
        changed("sides-of-order-3-half-at-the-ends-of-its-range", 3, |p| {
            p.low[5] = -(1 << 20);
            p.high[5] = 1 << 20;
        }),
        of(
            "definite-lopsided-box-refused-8",
            "[2 0; 1 2]",
            "[2 1; 2 2]",
        ),
        of(
            "definite-lopsided-one-number-left",
            "[9 1; -5 9]",
            "[9 7; 1 9]",
        ),
        of("not-lopsided", "[1 -9; 2 1]", "[1 2; 5 1]"),
        of("undecided-lopsided", "[1 3; 2 10]", "[1 1000; 3 10]"),
    ]
}

/// Moves one half of each pair outward: of L below the diagonal, of U above it.
fn apart(problem: &mut RawProblem) {
    let order = problem.order;
    for (i, j) in (0..order).flat_map(|i| (0..i).map(move |j| (i, j))) {
        problem.low[i * order + j] -= (1 + i) as i64;
        problem.high[j * order + i] += (1 + 100 * j) as i64;
    }
}

/// Case P (W21), its fields in falling order and two of them exchanged, and tags
/// that fall (W31 to W33)
fn listed() -> Vec<Case> {
    let case_p = thin("[4]", &[-8], 0, &[2]);
    let mut falling = case_p.fields();
    falling.reverse();
    let mut exchanged = case_p.fields();
    exchanged.swap(1, 2);
    let tags = |name: &str, fields: &str| Case::new(name, bytes(fields));
    vec![
        Case::of("case-p", &case_p),
        Case::new("refused-19-case-p-falling", file_of_fields(&falling)),
        Case::new(
            "refused-19-case-p-low-and-high-exchanged",
            file_of_fields(&exchanged),
        ),
        tags("refused-12-comes-before-19", "01 0000 02 0000 01 0000"),
        tags("refused-19-comes-before-13", "01 0000 03 0000 02 0000"),
        tags("refused-19-then-cut", "02 0000 01 0000 03"),
        tags("refused-10-comes-before-19", "02 0000 01 0100"),
        tags("refused-11-comes-before-19", "02 0000 00 0000"),
    ]
}
