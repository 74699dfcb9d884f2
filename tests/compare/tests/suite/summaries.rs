//! Writing and reading a summary: files worked by hand, both round trips, every
//! size, numbers that have no room in their fields, the order of the checks, and
//! one buffer lent as both tables and both ends.

use std::fs;
use std::path::Path;

use hankboulder_compare::read_summary::{
    of_file, unwritten, writing_again, written_for, READ_SUMMARY, SIZES,
};
use hankboulder_compare::write_summary::WRITE_SUMMARY;
use hankboulder_compare::{has_lopsided, numbers, Call, Inputs, Lent};
use hankboulder_reference::cases::bytes as hexadecimal;
use hankboulder_reference::generate::{Generator, ProblemKind, RawProblem, KINDS};

use crate::support::{write_call, ENTRY_RANGE, FILE, LINEAR_HIGH, LINEAR_LOW};

const WRITTEN: i64 = 0;
const REFUSED_ORDER: i64 = 1;
const REFUSED_LENGTH: i64 = 2;
const REFUSED_RANGE: i64 = 3;
const REFUSED_CROSSED: i64 = 4;
const REFUSED_LOPSIDED: i64 = 5;
const REFUSED_REVERSED: i64 = 16;

const LINEAR_RANGE: i64 = 1 << 36;
const LIMIT_RANGE: i64 = 1 << 54;
const CENTRE_RANGE: i64 = 1 << 12;

/// The places of the bounds in a call of the writer
const LOW: usize = 0;
const HIGH: usize = 1;

const CASE_P: &str = "01 0100 01, 02 0400 04000000, 03 0400 04000000, \
    04 0800 F8FFFFFFFFFFFFFF, 05 0800 0000000000000000, \
    06 0800 0200000000000000, 07 0800 F8FFFFFFFFFFFFFF";

const ORDER_2: &str = "01 0100 02, \
    02 1000 90010000 76000000 76000000 FA000000, \
    03 1000 92010000 79000000 79000000 FB000000, \
    04 1000 5CF9FFFFFFFFFFFF 5A00000000000000, \
    05 0800 767A000000000000, \
    06 1000 0500000000000000 FDFFFFFFFFFFFFFF, \
    07 1000 D4F9FFFFFFFFFFFF D200000000000000";

fn case_p() -> RawProblem {
    RawProblem {
        order: 1,
        low: vec![4],
        high: vec![4],
        linear_low: vec![-8],
        linear_high: vec![-8],
        limit: 0,
        centre: vec![2],
    }
}

fn order_2() -> RawProblem {
    RawProblem {
        order: 2,
        low: vec![400, 118, 118, 250],
        high: vec![402, 121, 121, 251],
        linear_low: vec![-1700, 90],
        linear_high: vec![-1580, 210],
        limit: 31350,
        centre: vec![5, -3],
    }
}

/// A problem with numbers that all differ, but for mirror images.
fn good(order: usize) -> RawProblem {
    let entry = |place: usize| {
        let (i, j) = (place / order, place % order);
        (10 * i.min(j) + i.max(j)) as i64
    };
    let low: Vec<i64> = (0..order * order).map(entry).collect();
    let indices = 0..order as i64;
    RawProblem {
        order,
        high: low.iter().map(|entry| entry + 100).collect(),
        low,
        linear_low: indices.clone().map(|k| 1000 + k).collect(),
        linear_high: indices.clone().map(|k| 2000 + k).collect(),
        limit: -3000,
        centre: indices.map(|k| 4000 + k).collect(),
    }
}

/// Fails where the library or the reference does not write this file, or does not
/// read it back.
fn expect_file(problem: &RawProblem, file: &[u8]) {
    let call = write_call(problem);
    let mut after = call.clone();
    after.buffers[FILE] = file.to_vec();
    WRITE_SUMMARY.expect_after(&call, WRITTEN, &after.buffers);
    assert_eq!(WRITE_SUMMARY.agree(&call, 3).answer, WRITTEN);
    let read = of_file(file.to_vec(), unwritten());
    READ_SUMMARY.expect_after(&read, WRITTEN, &written_for(&after));
    assert_eq!(READ_SUMMARY.agree(&read, 5).answer, WRITTEN);
}

/// W34, the ellipse of the examples, and the ends of every range
#[test]
fn files_worked_by_hand() {
    expect_file(&case_p(), &hexadecimal(CASE_P));
    expect_file(&order_2(), &hexadecimal(ORDER_2));
    let ends = RawProblem {
        order: 1,
        low: vec![-ENTRY_RANGE],
        high: vec![ENTRY_RANGE],
        linear_low: vec![-LINEAR_RANGE],
        linear_high: vec![LINEAR_RANGE],
        limit: -LIMIT_RANGE,
        centre: vec![-CENTRE_RANGE],
    };
    let file = "01 0100 01, 02 0400 0000F0FF, 03 0400 00001000, \
        04 0800 00000000F0FFFFFF, 05 0800 000000000000C0FF, \
        06 0800 00F0FFFFFFFFFFFF, 07 0800 0000000010000000";
    expect_file(&ends, &hexadecimal(file));
}

/// What the library writes for a problem.
fn written(problem: &RawProblem) -> Vec<u8> {
    let (answer, mut buffers) = WRITE_SUMMARY.given(&write_call(problem));
    assert_eq!(answer, WRITTEN);
    buffers.swap_remove(FILE)
}

/// A table of order 8 has 256 bytes in a file: its length has a high byte.
#[test]
fn lengths_of_every_order() {
    for order in 1..=8 {
        let file = written(&good(order));
        let (table, list) = (4 * order * order, 8 * order);
        let sizes = [1, table, table, list, 8, list, list];
        let mut at = 0;
        for (tag, size) in (1..).zip(sizes) {
            let head = [tag, (size % 256) as u8, (size / 256) as u8];
            assert_eq!(file[at..at + 3], head, "order {order}");
            at += 3 + size;
        }
        assert_eq!(at, file.len());
        assert_eq!(at, 30 + 8 * order * order + 24 * order);
    }
}

#[test]
fn write_read_write_of_every_kind_and_order() {
    let mut generator = Generator::new(111);
    for (order, kind) in (1..=8).flat_map(|order| KINDS.map(|kind| (order, kind))) {
        for round in 0..100 {
            let problem = generator.problem(kind, order, round % 2 == 1);
            let call = write_call(&problem);
            assert_eq!(WRITE_SUMMARY.agree(&call, round % 8).answer, WRITTEN);
            let file = written(&problem);
            let (answer, buffers) = READ_SUMMARY.given(&of_file(file.clone(), unwritten()));
            assert_eq!(answer, WRITTEN);
            let again = writing_again(&of_file(file.clone(), buffers[1..].to_vec()));
            assert_eq!(again.buffers[..FILE], call.buffers[..FILE]);
            assert_eq!((again.n, &again.numbers), (call.n, &call.numbers));
            let (answer, buffers) = WRITE_SUMMARY.given(&again);
            assert_eq!((answer, &buffers[FILE]), (WRITTEN, &file));
        }
    }
}

/// The files that the program is tested with: name, bytes, and the number by which
/// one is refused, or 0.
fn committed() -> Vec<(String, Vec<u8>, i64)> {
    let folder = Path::new(env!("CARGO_MANIFEST_DIR")).join("../program/cases");
    let mut found = vec![];
    for entry in fs::read_dir(folder).expect("the folder of cases") {
        let path = entry.expect("a case").path();
        if path.extension().is_some_and(|end| end == "summary") {
            let text = fs::read_to_string(path.with_extension("expected")).expect("its output");
            let refusal = text.strip_prefix("refused ").map(str::trim_end);
            let number = refusal.map_or(0, |number| number.parse().expect("a number"));
            let name = path.display().to_string();
            found.push((name, fs::read(&path).expect("its bytes"), number));
        }
    }
    found
}

/// The program's number, and read, then written they are the same bytes, but where a
/// table is lopsided.
#[test]
fn the_program_s_committed_files() {
    let files = committed();
    assert!(files.len() > 80, "{}", files.len());
    for (name, file, number) in files {
        let call = of_file(file.clone(), unwritten());
        assert_eq!(READ_SUMMARY.agree(&call, 1).answer, number, "{name}");
        if number == WRITTEN {
            let after = READ_SUMMARY.given(&call).1;
            let again = writing_again(&of_file(file.clone(), after[1..].to_vec()));
            let same = WRITE_SUMMARY.given(&again).1[FILE] == file;
            assert_eq!(same, !has_lopsided(&call, Inputs::File), "{name}");
        } else {
            READ_SUMMARY.expect(&call, number);
        }
    }
}

#[test]
fn refusal_2_for_every_other_size_of_every_buffer_of_the_writer() {
    for order in 1..=8 {
        let good = write_call(&good(order));
        for (place, buffer) in good.buffers.iter().enumerate() {
            // One whose low 16 bits are the right size is among them
            let sizes = (0..=1000).chain([4096, 4097, 65_536, buffer.len() + 65_536]);
            for other in sizes.filter(|other| *other != buffer.len()) {
                let mut call = good.clone();
                call.buffers[place] = vec![0xC3; other];
                WRITE_SUMMARY.expect(&call, REFUSED_LENGTH);
            }
        }
    }
}

/// Orders whose low byte, or whose low 32 bits, are an order, and others.
const NO_ORDERS: [i64; 18] = [
    0,
    -1,
    9,
    255,
    256,
    257,
    264,
    -255,
    -248,
    65_537,
    1 << 32,
    (1 << 32) + 1,
    (1 << 32) + 8,
    -(1 << 32) + 1,
    (1 << 56) + 1,
    i64::MIN,
    i64::MIN + 1,
    i64::MAX,
];

#[test]
fn refusal_1_of_orders_that_have_no_room_in_their_field() {
    for (n, order) in NO_ORDERS
        .into_iter()
        .flat_map(|n| (1..=8).map(move |o| (n, o)))
    {
        let mut call = write_call(&good(order));
        call.n = n;
        WRITE_SUMMARY.expect(&call, REFUSED_ORDER);
        assert_eq!(WRITE_SUMMARY.agree(&call, 1).answer, REFUSED_ORDER);
        call.buffers[FILE].clear();
        call.numbers[0] = i64::MIN;
        WRITE_SUMMARY.expect(&call, REFUSED_ORDER);
    }
}

/// Numbers beyond a range: next to it, such that 4 bytes or 1 would hold a good one,
/// and at the ends of 64 bits.
fn beyond(range: i64) -> Vec<i64> {
    let near = [range + 1, -range - 1];
    let cut = [
        1 << 31,
        -(1 << 31) - 1,
        1 << 32,
        (1 << 32) + 7,
        -(1 << 32) + 7,
        (1 << 56) + 7,
    ];
    let ends = [i64::MIN, i64::MIN + 7, i64::MAX, i64::MAX - 7];
    let all = [&near[..], &cut, &ends].concat();
    let out = |number: &i64| number.checked_abs().is_none_or(|size| size > range);
    all.into_iter().filter(out).collect()
}

fn set(call: &mut Call, list: usize, place: usize, number: i64) {
    call.buffers[list][8 * place..8 * place + 8].copy_from_slice(&number.to_le_bytes());
}

#[test]
fn refusal_3_of_every_number_that_has_no_room_in_its_field() {
    let ranges = [
        ENTRY_RANGE,
        ENTRY_RANGE,
        LINEAR_RANGE,
        LINEAR_RANGE,
        CENTRE_RANGE,
    ];
    for order in 1..=8 {
        let good = write_call(&good(order));
        for (list, range) in ranges.into_iter().enumerate() {
            for place in 0..good.buffers[list].len() / 8 {
                for number in beyond(range) {
                    let mut call = good.clone();
                    set(&mut call, list, place, number);
                    WRITE_SUMMARY.expect(&call, REFUSED_RANGE);
                }
            }
        }
        for limit in beyond(LIMIT_RANGE) {
            let mut call = good.clone();
            call.numbers[0] = limit;
            WRITE_SUMMARY.expect(&call, REFUSED_RANGE);
        }
    }
}

/// Both tables of an entry that 4 bytes would hold: symmetric, and not crossed.
#[test]
fn refusal_3_of_tables_that_would_be_good_in_4_bytes() {
    for order in 1..=8 {
        for turn in [1 << 32, -(1 << 32), 3 << 40] {
            let mut problem = good(order);
            for table in [&mut problem.low, &mut problem.high] {
                table.iter_mut().for_each(|entry| *entry += turn);
            }
            let call = write_call(&problem);
            WRITE_SUMMARY.expect(&call, REFUSED_RANGE);
            WRITE_SUMMARY.agree(&call, 0);
        }
    }
}

fn put_fault(call: &mut Call, fault: i64) {
    match fault {
        REFUSED_ORDER => call.n = 258,
        REFUSED_LENGTH => call.buffers[FILE].push(0),
        REFUSED_RANGE => call.numbers[0] = i64::MIN,
        REFUSED_CROSSED => set(call, LOW, 3, 1000),
        REFUSED_LOPSIDED => {
            set(call, LOW, 2, 500);
            set(call, HIGH, 2, 500);
        }
        REFUSED_REVERSED => set(call, LINEAR_LOW, 1, 3000),
        _ => unreachable!("the writer does not ask {fault}"),
    }
}

#[test]
fn of_several_faults_the_first_in_the_order_of_checks_is_given() {
    let checks = [1, 2, 3, 4, 5, 16];
    assert_eq!(WRITE_SUMMARY.answers[1..], checks);
    for chosen in 1..1 << checks.len() {
        let faults: Vec<i64> = (0..checks.len())
            .filter(|place| chosen >> place & 1 == 1)
            .map(|place| checks[place])
            .collect();
        let mut call = write_call(&good(2));
        faults.iter().for_each(|fault| put_fault(&mut call, *fault));
        WRITE_SUMMARY.expect(&call, faults[0]);
        WRITE_SUMMARY.agree(&call, 2);
    }
}

fn lend(buffer: &mut Vec<u8>) -> Lent {
    Lent {
        pointer: buffer.as_mut_ptr(),
        length: buffer.len(),
    }
}

/// What the library writes where one buffer is lent as both tables and one as both
/// ends is what it writes where they are two.
#[test]
fn one_buffer_may_be_both_tables_and_both_ends() {
    let mut generator = Generator::new(112);
    for round in 0..400 {
        // A lopsided table lent as both leaves no number.
        let mut problem = generator.any_problem().mended();
        problem.high.clone_from(&problem.low);
        problem.linear_high.clone_from(&problem.linear_low);
        let call = write_call(&problem);
        let (answer, after) = WRITE_SUMMARY.given(&call);
        assert_eq!(answer, WRITTEN);
        let mut buffers = call.buffers.clone();
        let mut lent: Vec<Lent> = buffers.iter_mut().map(lend).collect();
        if round % 3 > 0 {
            lent[HIGH] = lent[LOW];
        }
        if round % 3 < 2 {
            lent[LINEAR_HIGH] = lent[LINEAR_LOW];
        }
        assert_eq!((WRITE_SUMMARY.library)(&call, &lent), WRITTEN);
        assert_eq!(buffers, after);
        assert_eq!(
            buffers[..FILE],
            call.buffers[..FILE],
            "an input was written"
        );
    }
}

/// 2 comes before every check of the file, and no output is written.
#[test]
fn refusal_2_for_every_other_size_of_an_output() {
    let good = hexadecimal(CASE_P);
    let files = [good, vec![], vec![0xFF; 4097], vec![1, 2, 3]];
    for (place, size) in SIZES.into_iter().enumerate() {
        let sizes = (0..=600).chain([4096, 65_536, size + 65_536]);
        for other in sizes.filter(|other| *other != size) {
            for file in &files {
                let mut outputs = unwritten();
                outputs[place] = vec![0xC3; other];
                let call = of_file(file.clone(), outputs);
                READ_SUMMARY.expect(&call, REFUSED_LENGTH);
            }
        }
    }
    // Which outputs are empty, at least one, and null in half of the calls
    for empty in 1..1 << SIZES.len() {
        let mut outputs = unwritten();
        for place in (0..SIZES.len()).filter(|place| empty >> place & 1 == 1) {
            outputs[place].clear();
        }
        let call = of_file(files[0].clone(), outputs);
        READ_SUMMARY.expect(&call, REFUSED_LENGTH);
    }
    for (file, number) in files.into_iter().zip([0, 13, 15, 10]) {
        assert_eq!(
            READ_SUMMARY.agree(&of_file(file, unwritten()), 0).answer,
            number
        );
    }
}

/// W31 to W33, and the ends of what a file may be
#[test]
fn refusals_of_listed_files() {
    let expect = |file: Vec<u8>, number: i64| {
        let call = of_file(file, unwritten());
        READ_SUMMARY.expect(&call, number);
        assert_eq!(READ_SUMMARY.agree(&call, 4).answer, number);
    };
    expect(hexadecimal("01 0000, 02 0000, 01 0000"), 12);
    expect(hexadecimal("01 0000, 03 0000, 02 0000"), 19);
    expect(hexadecimal("02 0000, 01 0000, 03"), 19);
    expect(vec![], 13);
    expect(vec![0; 4096], 11);
    expect(vec![0; 4097], 15);
    let case_p = hexadecimal(CASE_P);
    for length in 1..case_p.len() {
        let at_a_field = [4, 11, 18, 29, 40, 51].contains(&length);
        expect(case_p[..length].to_vec(), if at_a_field { 13 } else { 10 });
    }
    for more in 1..=3 {
        expect([&case_p[..], &vec![7; more]].concat(), 10);
    }
    expect([&case_p[..], &[7, 0, 0]].concat(), 12);
    // A length whose low 16 bits are those of a good file
    expect([&case_p[..], &vec![7; 65_536]].concat(), 15);
    expect([&case_p[..], &vec![0; 65_536]].concat(), 15);
}

/// Every byte of a file changed to every other value: the same answer and outputs as
/// the reference, and what is read is written again.
#[test]
fn every_byte_changed_to_every_other() {
    for problem in [case_p(), order_2()] {
        let file = written(&problem);
        let mut read = 0;
        for (place, byte) in (0..file.len()).flat_map(|place| (0..=255).map(move |b| (place, b))) {
            let mut changed = file.clone();
            changed[place] = byte;
            let call = of_file(changed, unwritten());
            read += usize::from(READ_SUMMARY.agree(&call, place % 8).answer == WRITTEN);
        }
        assert!(read > 1000, "{read}");
    }
}

/// A problem that is not definite, or flat, has a file too.
#[test]
fn what_the_judge_and_the_box_refuse_has_a_file() {
    let mut generator = Generator::new(113);
    for order in 1..=8 {
        let mut problem = generator.problem(ProblemKind::Small, order, true);
        problem.low.fill(-1);
        problem.high.fill(0);
        let file = written(&problem);
        let (answer, buffers) = READ_SUMMARY.given(&of_file(file, unwritten()));
        assert_eq!(answer, WRITTEN);
        assert_eq!(numbers(&buffers[1]), [order as i64]);
    }
}
