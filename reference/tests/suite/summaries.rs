//! The writer of summary files, and reading one into lent buffers: both round
//! trips, every check and its place in the order, and what a refusal keeps.

use hankboulder_reference::cases::bytes as hexadecimal;
use hankboulder_reference::entries;
use hankboulder_reference::generate::{Generator, RawProblem, ReadCall, WriteCall};
use hankboulder_reference::problem::Problem;
use hankboulder_reference::refusal::Refusal;
use hankboulder_reference::summary::{
    decode, fields, file_of_fields, problem_fields, read_problem, TABLE_WIDTH,
};
use hankboulder_reference::writer::{file_of, file_size};

use crate::support::{
    bytes, judge, numbers, read_call, run_read, run_write, write_call, UNWRITTEN,
};

const WRITTEN: i64 = 0;

const CASE_P: &str = "01 0100 01, 02 0400 04000000, 03 0400 04000000, \
    04 0800 F8FFFFFFFFFFFFFF, 05 0800 0000000000000000, \
    06 0800 0200000000000000, 07 0800 F8FFFFFFFFFFFFFF";

/// A file of order 2, with bounds and ends that differ, worked by hand.
const ORDER_2: &str = "01 0100 02, \
    02 1000 90010000 76000000 76000000 FA000000, \
    03 1000 92010000 79000000 79000000 FB000000, \
    04 1000 5CF9FFFFFFFFFFFF 5A00000000000000, \
    05 0800 767A000000000000, \
    06 1000 0500000000000000 FDFFFFFFFFFFFFFF, \
    07 1000 D4F9FFFFFFFFFFFF D200000000000000";

fn case_p() -> RawProblem {
    RawProblem {
        order: 1,
        low: vec![4],
        high: vec![4],
        linear_low: vec![-8],
        linear_high: vec![-8],
        limit: 0,
        centre: vec![2],
    }
}

fn order_2() -> RawProblem {
    RawProblem {
        order: 2,
        low: vec![400, 118, 118, 250],
        high: vec![402, 121, 121, 251],
        linear_low: vec![-1700, 90],
        linear_high: vec![-1580, 210],
        limit: 31350,
        centre: vec![5, -3],
    }
}

/// A problem of an order that every check lets through, no two numbers alike.
fn good(order: usize) -> RawProblem {
    let entry = |place: usize| {
        let (i, j) = (place / order, place % order);
        (10 * i.min(j) + i.max(j)) as i64
    };
    let low: Vec<i64> = (0..order * order).map(entry).collect();
    let indices = 0..order as i64;
    RawProblem {
        order,
        high: low.iter().map(|entry| entry + 100).collect(),
        low,
        linear_low: indices.clone().map(|k| 1000 + k).collect(),
        linear_high: indices.clone().map(|k| 2000 + k).collect(),
        limit: -3000,
        centre: indices.map(|k| 4000 + k).collect(),
    }
}

/// The writer's answer; fails where a refusal changes a byte of the file.
fn written(call: &WriteCall) -> Result<Vec<u8>, i64> {
    let mut lent = call.clone();
    match run_write(&mut lent) {
        WRITTEN => Ok(lent.file),
        refusal => {
            assert_eq!(&lent, call, "refusal {refusal} wrote");
            Err(refusal)
        }
    }
}

/// The same of reading; a problem that is given is the first n numbers of each
/// output, and what is behind it.
fn read(call: &ReadCall) -> Result<(RawProblem, Vec<i64>), i64> {
    let mut lent = call.clone();
    match run_read(&mut lent) {
        WRITTEN => Ok(taken_apart(&lent)),
        refusal => {
            assert_eq!(&lent, call, "refusal {refusal} wrote");
            Err(refusal)
        }
    }
}

fn taken_apart(call: &ReadCall) -> (RawProblem, Vec<i64>) {
    let order = numbers(&call.order)[0] as usize;
    let mut behind = vec![];
    let mut front = |buffer: &[u8], count: usize| {
        let list = numbers(buffer);
        behind.extend(&list[count..]);
        list[..count].to_vec()
    };
    let problem = RawProblem {
        order,
        low: front(&call.low, order * order),
        high: front(&call.high, order * order),
        linear_low: front(&call.linear_low, order),
        linear_high: front(&call.linear_high, order),
        limit: front(&call.limit, 1)[0],
        centre: front(&call.centre, order),
    };
    (problem, behind)
}

#[test]
fn files_worked_by_hand() {
    for (problem, file) in [(case_p(), CASE_P), (order_2(), ORDER_2)] {
        let file = hexadecimal(file);
        assert_eq!(file.len(), file_size(problem.order));
        assert_eq!(written(&write_call(&problem)), Ok(file.clone()));
        let (found, behind) = read(&read_call(&file)).unwrap();
        assert_eq!(found, problem);
        assert!(behind.iter().all(|number| *number == 0));
    }
    let sizes: Vec<usize> = (1..=8).map(file_size).collect();
    assert_eq!(sizes, [62, 110, 174, 254, 350, 462, 590, 734]);
}

#[test]
fn written_and_read_again_it_is_the_mended_problem() {
    let mut generator = Generator::new(71);
    let mut symmetric = 0;
    for _ in 0..4000 {
        let problem = generator.any_problem();
        let file = written(&write_call(&problem)).expect("a good problem");
        assert_eq!(file.len(), file_size(problem.order));
        let (found, behind) = read(&read_call(&file)).expect("its file");
        assert_eq!(found, problem.mended());
        assert_eq!(found == problem, problem.is_symmetric());
        symmetric += usize::from(found == problem);
        assert!(behind.iter().all(|number| *number == 0));
        // 64 numbers in each table and 8 in each vector, but the problem's.
        let n = problem.order;
        assert_eq!(behind.len(), 2 * (64 - n * n) + 3 * (8 - n));
    }
    assert!((2000..3500).contains(&symmetric), "{symmetric}");
}

/// The numbers of L and U as they stand in a file that is accepted.
fn tables_in(file: &[u8]) -> [Vec<i64>; 2] {
    let found = fields(file).expect("an accepted file");
    [1, 2].map(|place| decode(found[place].content, TABLE_WIDTH))
}

/// Byte for byte where its tables are symmetric; any other comes back as another file
/// of the same length, which comes back as itself.
#[test]
fn read_and_written_again_it_is_the_file_of_the_mended_problem() {
    let mut generator = Generator::new(72);
    let (mut same, mut mended, mut refused) = (0, 0, 0);
    for _ in 0..8000 {
        let file = generator.summary_file();
        match read(&read_call(&file)) {
            Ok((problem, _)) => {
                let again = written(&write_call(&problem)).expect("what was read");
                let in_file = tables_in(&file);
                assert_eq!(
                    again == file,
                    in_file == [problem.low.clone(), problem.high.clone()]
                );
                assert_eq!(again.len(), file.len());
                assert_eq!(read(&read_call(&again)).unwrap().0, problem);
                same += usize::from(again == file);
                mended += usize::from(again != file);
            }
            Err(number) => {
                assert_eq!(read_problem(&file).map_err(Refusal::number), Err(number));
                refused += 1;
            }
        }
    }
    assert!(same > 2500 && mended > 1000, "{same} {mended}");
    assert!(refused > 2000, "{refused}");
}

/// The file of numbers as they are, where they fit their fields.
fn raw_file(call: &WriteCall) -> Option<Vec<u8>> {
    let (low, high) = (numbers(&call.low), numbers(&call.high));
    let fits = |entry: &i64| i32::try_from(*entry).is_ok();
    let n = u8::try_from(call.n).ok()?;
    let all = low.iter().chain(&high).all(fits);
    let fields = problem_fields(
        n,
        &low,
        &high,
        &numbers(&call.linear_low),
        &numbers(&call.linear_high),
        call.limit,
        &numbers(&call.centre),
    );
    all.then(|| file_of_fields(&fields))
}

/// Where buffers have their sizes and all numbers fit their fields, the writer
/// answers what the file of these numbers would get; a number that does not fit is
/// refused by 1 or 3.
#[test]
fn a_problem_is_refused_by_the_number_of_its_file() {
    let mut generator = Generator::new(73);
    let (mut compared, mut wide) = (0, 0);
    for _ in 0..20_000 {
        let mut call = generator.write_call();
        let answer = written(&call);
        let whole = inputs(&mut call).iter().all(|list| list.len() % 8 == 0);
        if answer == Err(2) || !whole {
            continue;
        }
        let Some(file) = raw_file(&call) else {
            assert!(matches!(answer, Err(1 | 3)), "{answer:?}");
            wide += 1;
            continue;
        };
        let refusal = read_problem(&file).err().map(Refusal::number);
        assert_eq!(answer.err(), refusal, "{call:?}");
        compared += 1;
    }
    assert!(compared > 12_000 && wide > 1000, "{compared} {wide}");
}

#[test]
fn the_file_of_a_problem_is_what_the_writer_writes() {
    for order in 1..=8 {
        let raw = good(order);
        let problem = Problem::read(
            order,
            &raw.low,
            &raw.high,
            &raw.linear_low,
            &raw.linear_high,
            raw.limit,
            &raw.centre,
        );
        let problem = problem.expect("a good problem");
        let file = file_of(&problem);
        assert_eq!(written(&write_call(&raw)), Ok(file.clone()));
        assert_eq!(read_problem(&file), Ok(problem));
    }
}

/// Orders beyond a byte, beyond 32 bits, and at the ends of 64 bits: their low
/// byte is 1 where it can be.
const NO_ORDERS: [i64; 13] = [
    0,
    -1,
    9,
    255,
    256,
    257,
    -255,
    1 << 32,
    (1 << 32) + 1,
    (1 << 56) + 1,
    i64::MIN,
    i64::MIN + 1,
    i64::MAX,
];

#[test]
fn refusal_1_whatever_else_is_wrong() {
    for n in NO_ORDERS {
        for order in 1..=8 {
            let mut call = write_call(&good(order));
            call.n = n;
            assert_eq!(written(&call), Err(1));
            call.file.clear();
            call.low = bytes(&[i64::MAX]);
            assert_eq!(written(&call), Err(1));
        }
    }
}

#[test]
fn refusal_2_of_every_other_size_of_the_file() {
    for order in 1..=8 {
        for size in (0..=1500).chain([4095, 4096, 4097, 65536]) {
            let mut call = write_call(&good(order));
            call.file = vec![0xA5; size];
            let right = size == file_size(order);
            assert_eq!(written(&call).is_ok(), right, "{size} bytes");
            if !right {
                // 2 comes before 3.
                call.limit = i64::MAX;
                assert_eq!(written(&call), Err(2));
            }
        }
    }
}

/// The buffers of the writer that are only read.
fn inputs(call: &mut WriteCall) -> [&mut Vec<u8>; 5] {
    [
        &mut call.low,
        &mut call.high,
        &mut call.linear_low,
        &mut call.linear_high,
        &mut call.centre,
    ]
}

#[test]
fn refusal_2_of_every_other_size_of_an_input() {
    for (order, place) in (1..=8).flat_map(|order| (0..5).map(move |place| (order, place))) {
        let size = inputs(&mut write_call(&good(order)))[place].len();
        let of_orders = (1..=9).flat_map(|other| [8 * other, 8 * other * other]);
        for other in of_orders.chain([0, 1, size - 1, size + 1]) {
            let mut call = write_call(&good(order));
            inputs(&mut call)[place].resize(other, 0);
            assert_eq!(written(&call) == Err(2), other != size);
        }
    }
}

const RANGES: [i64; 5] = [1 << 20, 1 << 20, 1 << 36, 1 << 36, 1 << 12];

fn set(buffer: &mut [u8], place: usize, number: i64) {
    buffer[8 * place..8 * place + 8].copy_from_slice(&number.to_le_bytes());
}

/// Numbers beyond a range, also where the bytes that a file has for one would have
/// a good number of it.
fn beyond(range: i64) -> Vec<i64> {
    let near = [range + 1, -range - 1];
    let cut = [1_i64 << 31, 1 << 32, (1 << 32) + 4, -(1 << 32) + 4];
    let ends = [i64::MIN, i64::MIN + 4, i64::MAX, i64::MAX - 3];
    let all = [&near[..], &cut, &ends].concat();
    all.into_iter()
        .filter(|number| number.checked_abs().is_none_or(|size| size > range))
        .collect()
}

#[test]
fn refusal_3_of_every_number() {
    for (order, place) in (1..=8).flat_map(|order| (0..5).map(move |place| (order, place))) {
        let count = inputs(&mut write_call(&good(order)))[place].len() / 8;
        for (k, number) in
            (0..count).flat_map(|k| beyond(RANGES[place]).into_iter().map(move |n| (k, n)))
        {
            let mut call = write_call(&good(order));
            set(inputs(&mut call)[place], k, number);
            assert_eq!(written(&call), Err(3), "list {place}, {number} at {k}");
        }
    }
    for limit in beyond(1 << 54) {
        let mut call = write_call(&good(3));
        call.limit = limit;
        assert_eq!(written(&call), Err(3));
    }
}

#[test]
fn the_ends_of_every_range_are_written() {
    let ends = RawProblem {
        order: 2,
        low: vec![-(1 << 20); 4],
        high: vec![1 << 20; 4],
        linear_low: vec![-(1 << 36); 2],
        linear_high: vec![1 << 36; 2],
        limit: -(1 << 54),
        centre: vec![1 << 12, -(1 << 12)],
    };
    let file = written(&write_call(&ends)).expect("the ends belong to the ranges");
    assert_eq!(file[4..15], hexadecimal("02 1000 0000F0FF 0000F0FF"));
    assert_eq!(read(&read_call(&file)).unwrap().0, ends);
}

/// Puts the fault of a refusal number into a call of order 2.
fn put_fault(call: &mut WriteCall, number: i64) {
    match number {
        1 => call.n = 258,
        2 => call.file.push(0),
        3 => call.limit = i64::MIN,
        4 => set(&mut call.low, 3, 1000),
        5 => {
            set(&mut call.low, 2, 500);
            set(&mut call.high, 2, 500);
        }
        16 => set(&mut call.linear_low, 1, 3000),
        _ => unreachable!("the writer does not ask {number}"),
    }
}

#[test]
fn of_several_faults_the_first_in_the_order_of_checks_is_given() {
    let checks = [1, 2, 3, 4, 5, 16];
    for chosen in 1..1 << checks.len() {
        let mut call = write_call(&good(2));
        let faults: Vec<i64> = (0..checks.len())
            .filter(|place| chosen >> place & 1 == 1)
            .map(|place| checks[place])
            .collect();
        faults.iter().for_each(|fault| put_fault(&mut call, *fault));
        assert_eq!(written(&call), Err(faults[0]), "{faults:?}");
    }
}

/// The outputs of reading, in the order of the call.
fn outputs(call: &mut ReadCall) -> [&mut Vec<u8>; 7] {
    [
        &mut call.order,
        &mut call.low,
        &mut call.high,
        &mut call.linear_low,
        &mut call.linear_high,
        &mut call.limit,
        &mut call.centre,
    ]
}

/// Whatever the file is: 2 comes before 15, and before every other check.
#[test]
fn refusal_2_of_every_other_size_of_an_output() {
    let sizes = [8, 512, 512, 64, 64, 8, 64];
    let files = [hexadecimal(CASE_P), vec![], vec![0; 4097], vec![1, 2, 3]];
    for (place, size) in sizes.into_iter().enumerate() {
        for file in &files {
            for other in (0..600).chain([4096]).filter(|other| *other != size) {
                let mut call = read_call(file);
                *outputs(&mut call)[place] = vec![0xA5; other];
                assert_eq!(read(&call), Err(2));
            }
        }
    }
    assert_eq!(read(&read_call(&files[1])), Err(13));
    assert_eq!(read(&read_call(&files[2])), Err(15));
    assert_eq!(read(&read_call(&files[3])), Err(10));
}

/// The front of an output of reading is what the other acts take.
#[test]
fn what_is_read_goes_on_to_judge_and_box() {
    let mut call = read_call(&hexadecimal(CASE_P));
    assert_eq!(run_read(&mut call), WRITTEN);
    assert_eq!(numbers(&call.order), [1]);
    let [low, high] = [&call.low, &call.high].map(|table| numbers(&table[..8]));
    let judged = judge(1, &low, &high);
    assert_eq!((judged.code, judged.factor), (0, vec![129_007]));
    assert_eq!(judged.over, 537_063_135);
    let (low, high) = (&call.low[..8], &call.high[..8]);
    let mut sides = bytes(&[UNWRITTEN; 2]);
    let (least, most) = (&call.linear_low[..8], &call.linear_high[..8]);
    let limit = numbers(&call.limit)[0];
    let centre = &call.centre[..8];
    let answer = entries::enclose(1, low, high, least, most, limit, centre, &mut sides);
    assert_eq!((answer, numbers(&sides)), (0, vec![-1, 5]));
}
