//! The summary file: refusals 10 to 15 and 19, and 1, 3, 4, 5, 16 of a file.

use std::collections::BTreeSet;

use hankboulder_reference::cases::bytes;
use hankboulder_reference::refusal::Refusal;
use hankboulder_reference::summary::{decode, encode, fields, file_of_fields, read_problem};

const N: &str = "01 0100 01";
const L: &str = "02 0400 04000000";
const U: &str = "03 0400 04000000";
const A_LOW: &str = "04 0800 F8FFFFFFFFFFFFFF";
const ALPHA: &str = "05 0800 0000000000000000";
const C: &str = "06 0800 0200000000000000";
const A_HIGH: &str = "07 0800 F8FFFFFFFFFFFFFF";
const CASE_P: [&str; 7] = [N, L, U, A_LOW, ALPHA, C, A_HIGH];

/// The refusal number of a file, or 0.
fn refusal(file: &[u8]) -> i64 {
    read_problem(file).err().map_or(0, Refusal::number)
}

/// The refusal number of fields in hexadecimal.
fn refusal_of(parts: &[&str]) -> i64 {
    refusal(&bytes(&parts.concat()))
}

/// Case P with one field put in another's place.
fn with(place: usize, field: &str) -> Vec<&str> {
    let mut parts = CASE_P.to_vec();
    parts[place] = field;
    parts
}

#[test]
fn case_p_is_read() {
    let problem = read_problem(&bytes(&CASE_P.concat())).unwrap();
    assert_eq!(problem.bounds.order, 1);
    assert_eq!(problem.bounds.low, [[4]]);
    assert_eq!(problem.bounds.high, [[4]]);
    assert_eq!(problem.linear_low, [-8]);
    assert_eq!(problem.linear_high, [-8]);
    assert_eq!(problem.limit, 0);
    assert_eq!(problem.centre, [2]);
}

/// One of the 5,040 orders of case P's fields, by its number; 0 is that of the
/// tags. The digits of the number are to the bases 7, 6 and so on, and each
/// says which of the fields that are left comes next.
fn order_of_fields(number: usize) -> Vec<&'static str> {
    let mut rest = number;
    let mut left = CASE_P.to_vec();
    let mut parts = Vec::new();
    while !left.is_empty() {
        let digit = rest % left.len();
        rest /= left.len();
        parts.push(left.remove(digit));
    }
    parts
}

#[test]
fn refusal_19_of_every_other_order_of_the_fields() {
    let orders: BTreeSet<Vec<&str>> = (0..5040).map(order_of_fields).collect();
    assert_eq!(orders.len(), 5040);
    for parts in orders {
        let wanted = if parts == CASE_P { 0 } else { 19 };
        assert_eq!(refusal_of(&parts), wanted, "{parts:?}");
    }
}

#[test]
fn refusal_19_comes_before_13() {
    for (first, second) in (1..7).flat_map(|second| (0..second).map(move |f| (f, second))) {
        // Nothing else in the file.
        assert_eq!(refusal_of(&[CASE_P[second], CASE_P[first]]), 19);
        assert_eq!(refusal_of(&[CASE_P[first], CASE_P[second]]), 13);
    }
}

#[test]
fn refusal_19_comes_after_12_in_the_same_field() {
    assert_eq!(refusal_of(&[N, L, N]), 12);
    assert_eq!(refusal_of(&[N, U, L]), 19);
    assert_eq!(refusal_of(&[L, L]), 12);
    assert_eq!(refusal_of(&[L, N, N]), 19);
    assert_eq!(refusal_of(&[L, N, L]), 19);
    // 10 and 11 of the same field come before it.
    assert_eq!(refusal_of(&[L, "01 0200 00"]), 10);
    assert_eq!(refusal_of(&[L, "01 00"]), 10);
    assert_eq!(refusal_of(&[L, "00 0000"]), 11);
    // It comes before 10, 11 and 12 of the next field.
    assert_eq!(refusal_of(&[L, N, "03"]), 19);
    assert_eq!(refusal_of(&[L, N, "03 FFFF"]), 19);
    assert_eq!(refusal_of(&[L, N, "08 0000"]), 19);
    // And before 14, 1 and 3, whatever the contents are.
    assert_eq!(refusal_of(&["02 0000", "01 0200 0900"]), 19);
    let mut parts = with(1, "02 0400 00000080");
    parts.swap(5, 6);
    assert_eq!(refusal_of(&parts), 19);
}

#[test]
fn refusal_10_of_bytes_left_over_and_of_lengths_past_the_end() {
    assert_eq!(refusal_of(&["01"]), 10);
    assert_eq!(refusal_of(&["01 01"]), 10);
    assert_eq!(refusal_of(&["01 0100"]), 10);
    assert_eq!(refusal_of(&["02 0001", &"00".repeat(255)]), 10);
    for tail in [
        "00", "FF", "01", "01 00", "07 00", "08 00", "FF FF", "07 0100",
    ] {
        let parts = [&CASE_P[..], &[tail]].concat();
        assert_eq!(refusal_of(&parts), 10, "tail {tail}");
    }
}

#[test]
fn refusal_10_comes_before_11_and_12_of_the_same_field() {
    assert_eq!(refusal_of(&["FF 0100"]), 10);
    assert_eq!(refusal_of(&["FF FFFF 00"]), 10);
    assert_eq!(refusal_of(&["00 00"]), 10);
    assert_eq!(refusal_of(&[N, "01 0200 00"]), 10);
}

#[test]
fn every_shorter_part_of_case_p_is_10_or_13() {
    let file = bytes(&CASE_P.concat());
    let starts = [0, 4, 11, 18, 29, 40, 51];
    for length in 0..file.len() {
        let expected = if starts.contains(&length) { 13 } else { 10 };
        assert_eq!(refusal(&file[..length]), expected, "{length} bytes");
    }
}

#[test]
fn refusal_11_of_every_other_tag() {
    for tag in (0..=255_u8).filter(|tag| !(1..=7).contains(tag)) {
        assert_eq!(refusal(&[tag, 0, 0]), 11);
        assert_eq!(refusal(&[tag, 1, 0, 9]), 11);
        let tail = format!("{tag:02X} 0000");
        let parts = [&CASE_P[..], &[tail.as_str()]].concat();
        assert_eq!(refusal_of(&parts), 11);
    }
}

#[test]
fn refusal_12_of_every_tag() {
    for field in CASE_P {
        assert_eq!(refusal_of(&[field, field]), 12);
        assert_eq!(refusal_of(&[&CASE_P[..], &[field]].concat()), 12);
    }
    assert_eq!(refusal_of(&["01 0000", "01 0000"]), 12);
}

#[test]
fn an_earlier_field_comes_before_a_later_one() {
    assert_eq!(refusal_of(&[N, N, "02 FFFF"]), 12);
    assert_eq!(refusal_of(&[N, N, "FF"]), 12);
    assert_eq!(refusal_of(&[N, N, "08 0000"]), 12);
    assert_eq!(refusal_of(&["08 0000", N, N]), 11);
    assert_eq!(refusal_of(&["08 0000", "01"]), 11);
    assert_eq!(refusal_of(&[N, "09 0000", "02 FFFF"]), 11);
    assert_eq!(refusal_of(&[A_HIGH, A_HIGH, "08 0000"]), 12);
}

#[test]
fn refusal_13_of_every_absent_tag_before_any_size() {
    assert_eq!(refusal(&[]), 13);
    for place in 0..7 {
        let mut parts = CASE_P.to_vec();
        parts.remove(place);
        assert_eq!(refusal_of(&parts), 13);
    }
    assert_eq!(refusal_of(&["01 0000"]), 13);
    assert_eq!(refusal_of(&["01 0100 FF", L, U, A_LOW, ALPHA, A_HIGH]), 13);
    // A file of the time before tag 07.
    assert_eq!(refusal_of(&CASE_P[..6]), 13);
    assert_eq!(refusal_of(&["01 0100 FF", L, U, A_LOW, ALPHA, C]), 13);
}

#[test]
fn refusal_14_of_tag_01_comes_before_1() {
    assert_eq!(refusal_of(&with(0, "01 0000")), 14);
    assert_eq!(refusal_of(&with(0, "01 0200 0100")), 14);
    assert_eq!(refusal_of(&with(0, "01 0200 FFFF")), 14);
}

#[test]
fn refusal_1_of_a_file_reads_one_unsigned_byte() {
    for n in ["00", "09", "0A", "10", "7F", "80", "FF"] {
        let field = format!("01 0100 {n}");
        assert_eq!(refusal_of(&with(0, &field)), 1, "n = {n}");
    }
    // 1 comes before 14 of the other tags, and before 3.
    let wrong_size = ["01 0100 FF", "02 0000", U, A_LOW, ALPHA, C, "07 0000"];
    assert_eq!(refusal_of(&wrong_size), 1);
    let wrong_entry = ["01 0100 00", "02 0400 00000080", U, A_LOW, ALPHA, C, A_HIGH];
    assert_eq!(refusal_of(&wrong_entry), 1);
}

#[test]
fn refusal_14_of_every_other_tag() {
    for place in 1..7 {
        let tag = place + 1;
        let right = if tag <= 3 { 4 } else { 8 };
        for length in [0, 1, 3, 4, 5, 7, 8, 9, 16, 64] {
            let field = format!("{tag:02X} {length:02X}00 {}", "00".repeat(length));
            let expected = if length == right { 0 } else { 14 };
            let got = refusal_of(&with(place, &field));
            // A zero of the right length is let through, crossed (U) or reversed
            // (the low end of a).
            let expected = match (length == right, tag) {
                (true, 3) => 4,
                (true, 4) => 16,
                _ => expected,
            };
            assert_eq!(got, expected, "tag {tag}, {length} bytes");
        }
    }
    // The fields of order 1 are too short for the orders 2 to 8.
    for n in 2..=8 {
        let field = format!("01 0100 0{n}");
        assert_eq!(refusal_of(&with(0, &field)), 14);
    }
}

#[test]
fn refusal_14_comes_before_3() {
    let parts = [N, "02 0400 00000080", U, A_LOW, ALPHA, "06 0000", A_HIGH];
    assert_eq!(refusal_of(&parts), 14);
    let parts = [
        N,
        "02 0400 00000080",
        U,
        A_LOW,
        ALPHA,
        C,
        "07 0700 00000000000000",
    ];
    assert_eq!(refusal_of(&parts), 14);
}

#[test]
fn refusal_3_of_every_field() {
    let beyond = [
        (1, "02 0400 FFFFEFFF"),
        (2, "03 0400 01001000"),
        (2, "03 0400 FFFFFF7F"),
        (1, "02 0400 00000080"),
        (3, "04 0800 0100000010000000"),
        (3, "04 0800 FFFFFFFFEFFFFFFF"),
        (4, "05 0800 0100000000004000"),
        (4, "05 0800 0000000000000080"),
        (5, "06 0800 0110000000000000"),
        (5, "06 0800 FFEFFFFFFFFFFFFF"),
        (6, "07 0800 0100000010000000"),
        (6, "07 0800 FFFFFFFFEFFFFFFF"),
    ];
    for (place, field) in beyond {
        assert_eq!(refusal_of(&with(place, field)), 3, "{field}");
    }
    let ends = [
        (1, "02 0400 0000F0FF"),
        (2, "03 0400 00001000"),
        (3, "04 0800 00000000F0FFFFFF"),
        (6, "07 0800 0000000010000000"),
        (4, "05 0800 0000000000004000"),
        (5, "06 0800 00F0FFFFFFFFFFFF"),
    ];
    for (place, field) in ends {
        assert_eq!(refusal_of(&with(place, field)), 0, "{field}");
    }
}

/// A file of order 2 with these tables, and terms of zero.
fn order_2(low: [i64; 4], high: [i64; 4], centre: [i64; 2]) -> i64 {
    with_ends(low, high, centre, ([0, 0], [0, 0]))
}

/// The same with these ends of the linear terms.
fn with_ends(low: [i64; 4], high: [i64; 4], centre: [i64; 2], ends: ([i64; 2], [i64; 2])) -> i64 {
    let file = file_of_fields(&[
        (1, vec![2]),
        (2, encode(&low, 4)),
        (3, encode(&high, 4)),
        (4, encode(&ends.0, 8)),
        (5, vec![0; 8]),
        (6, encode(&centre, 8)),
        (7, encode(&ends.1, 8)),
    ]);
    refusal(&file)
}

#[test]
fn refusals_3_4_5_of_a_file_in_this_order() {
    let good = [4, 1, 1, 4];
    let crossed = [5, 1, 1, 4];
    // Thin, it has no number that is at least 1 and at most 0.
    let lopsided = [4, 1, 0, 4];
    assert_eq!(order_2(good, good, [0, 0]), 0);
    assert_eq!(order_2(crossed, good, [0, 0]), 4);
    assert_eq!(order_2(lopsided, lopsided, [0, 0]), 5);
    assert_eq!(order_2(crossed, good, [0, 4097]), 3);
    assert_eq!(order_2(lopsided, lopsided, [0, 4097]), 3);
    assert_eq!(order_2([5, 1, 0, 4], lopsided, [0, 0]), 4);
    // One half lower, or one higher, leaves the number of the other.
    assert_eq!(order_2(lopsided, good, [0, 0]), 0);
    assert_eq!(order_2(good, [4, 1, 2, 4], [0, 0]), 0);
    // A half that is mended away is in its range, and not above that of U.
    assert_eq!(order_2([4, 1, -(1 << 20) - 1, 4], good, [0, 0]), 3);
    assert_eq!(order_2([4, 1, -(1 << 20), 4], good, [0, 0]), 0);
    assert_eq!(order_2([4, 1, 2, 4], good, [0, 0]), 4);
}

#[test]
fn refusal_16_of_a_file_comes_last() {
    let good = [4, 1, 1, 4];
    let lopsided = [4, 1, 0, 4];
    let code = |low, centre, ends| with_ends(low, good, centre, ends);
    assert_eq!(code(good, [0, 0], ([1, 0], [0, 0])), 16);
    assert_eq!(code(good, [0, 0], ([0, 1], [5, 0])), 16);
    assert_eq!(code(good, [0, 0], ([-1, -1], [0, 5])), 0);
    // 3, 4 and 5 come before it; and a flat table is none of a file's checks.
    assert_eq!(code(good, [0, 4097], ([1, 0], [0, 0])), 3);
    assert_eq!(code([5, 1, 1, 4], [0, 0], ([1, 0], [0, 0])), 4);
    let parted = with_ends(lopsided, lopsided, [0, 0], ([1, 0], [0, 0]));
    assert_eq!(parted, 5);
    assert_eq!(code(lopsided, [0, 0], ([1, 0], [0, 0])), 16);
    assert_eq!(code([0, 0, 0, 0], [0, 0], ([1, 0], [0, 0])), 16);
    // Out of range and reversed: 3.
    assert_eq!(code(good, [0, 0], ([(1 << 36) + 1, 0], [0, 0])), 3);
    assert_eq!(code(good, [0, 0], ([0, 0], [-(1 << 36) - 1, 0])), 3);
}

#[test]
fn refusal_15_comes_first_and_4096_bytes_pass_it() {
    assert_eq!(refusal(&[0; 4097]), 15);
    assert_eq!(refusal(&[0; 4096]), 11);
    assert_eq!(refusal(&vec![0xFF; 70000]), 15);
    // Case P with U lengthened to 4096 bytes in all, then one more.
    let head = bytes(&[N, L].concat());
    let tail = bytes(&[A_LOW, ALPHA, C, A_HIGH].concat());
    for (size, expected) in [(4096, 14), (4097, 15)] {
        let length = size - head.len() - tail.len() - 3;
        let field = file_of_fields(&[(3, vec![0; length])]);
        let file = [head.clone(), field, tail.clone()].concat();
        assert_eq!(file.len(), size);
        assert_eq!(refusal(&file), expected);
    }
}

#[test]
fn the_field_walk_asks_10_11_12_19_alone_and_hands_out_parts_of_the_file() {
    let file = bytes("01 0000 03 0300 AABBCC 06 0100 07");
    let found = fields(&file).unwrap();
    let parts: Vec<(u8, &[u8])> = found.iter().map(|f| (f.tag, f.content)).collect();
    let expected: [(u8, &[u8]); 3] = [(1, &[]), (3, &[0xAA, 0xBB, 0xCC]), (6, &[7])];
    assert_eq!(parts, expected);
    assert!(std::ptr::eq(found[1].content, &file[6..9]));
    // More than 4096 bytes: 15 is not asked.
    let long = file_of_fields(&[(2, vec![1; 5000])]);
    assert_eq!(fields(&long).unwrap()[0].content.len(), 5000);
    assert_eq!(fields(&[]), Ok(vec![]));
}

#[test]
fn numbers_are_decoded_by_hand_worked_values() {
    assert_eq!(decode(&[0xFF, 0xFF, 0xFF, 0xFF], 4), [-1]);
    assert_eq!(decode(&[0, 0, 0, 0x80, 1, 2, 0, 0], 4), [-(1 << 31), 513]);
    assert_eq!(decode(&[0, 0, 0, 0, 0, 0, 0, 0x80], 8), [i64::MIN]);
    assert_eq!(encode(&[-2, 513], 4), [0xFE, 0xFF, 0xFF, 0xFF, 1, 2, 0, 0]);
}
