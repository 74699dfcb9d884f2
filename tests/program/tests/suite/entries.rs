//! Refusals 1, 3, 4, 5, 11, 14 and 16 at every number of a file: each entry, each
//! order, each tag and each length; and lopsided tables that are mended.

use hankboulder_program::problem_file::definite;
use hankboulder_program::{on_threads, Program};
use hankboulder_reference::generate::RawProblem;
use hankboulder_reference::program::output;
use hankboulder_reference::summary::{file_of_fields, TAG_ORDER};

use crate::support::expect_all_refused;

const ENTRY: i64 = 1 << 20;
const LINEAR: i64 = 1 << 36;
const LIMIT: i64 = 1 << 54;
const CENTRE: i64 = 1 << 12;

/// All numbers of a problem but n, each with its range.
fn numbers(problem: &mut RawProblem) -> Vec<(&mut i64, i64)> {
    fn each(list: &mut [i64], range: i64) -> impl Iterator<Item = (&mut i64, i64)> {
        list.iter_mut().map(move |number| (number, range))
    }
    each(&mut problem.low, ENTRY)
        .chain(each(&mut problem.high, ENTRY))
        .chain(each(&mut problem.linear_low, LINEAR))
        .chain(each(&mut problem.linear_high, LINEAR))
        .chain([(&mut problem.limit, LIMIT)])
        .chain(each(&mut problem.centre, CENTRE))
        .collect()
}

/// A file for each order and each number of its problem, which is changed.
fn files_with(change: impl Fn(&mut i64, i64)) -> Vec<Vec<u8>> {
    let mut files = vec![];
    for order in 1..=8 {
        for place in 0..numbers(&mut definite(order)).len() {
            let mut problem = definite(order);
            let (number, range) = numbers(&mut problem).swap_remove(place);
            change(number, range);
            files.push(problem.file());
        }
    }
    files
}

#[test]
fn refusal_3_at_every_number() {
    expect_all_refused(files_with(|number, range| *number = range + 1), 3);
    expect_all_refused(files_with(|number, range| *number = -range - 1), 3);
}

#[test]
fn the_ends_of_every_range_pass_3() {
    let program = Program::under_test();
    for sign in [1, -1] {
        let files = files_with(|number, range| *number = sign * range);
        let texts = on_threads(&files, |file| program.agree(file));
        assert!(!texts.contains(&"refused 3\n".to_string()));
    }
}

/// All places (i, j) at every order.
fn places() -> impl Iterator<Item = (usize, usize, usize)> {
    let rows = (1..=8).flat_map(|order| (0..order).map(move |i| (order, i)));
    rows.flat_map(|(order, i)| (0..order).map(move |j| (order, i, j)))
}

#[test]
fn refusal_4_at_every_entry() {
    let crossed = |(order, i, j)| {
        let mut problem = definite(order);
        let place = i * order + j;
        problem.low[place] = problem.high[place] + 1;
        problem.file()
    };
    expect_all_refused(places().map(crossed), 4);
}

/// The bounds of one place, low and high, from those of the other of its pair.
type Change = fn(i64, i64) -> (i64, i64);

/// Files of the problems that are `definite` but for the bounds at one place, at every
/// order and every place off the diagonal.
fn at_every_place(change: Change) -> Vec<Vec<u8>> {
    let changed = |(order, i, j)| {
        let mut problem = definite(order);
        let (place, other) = (i * order + j, j * order + i);
        let bounds = change(problem.low[other], problem.high[other]);
        (problem.low[place], problem.high[place]) = bounds;
        problem.file()
    };
    let off_diagonal = places().filter(|(_, i, j)| i != j);
    off_diagonal.map(changed).collect()
}

/// Above the high bound of the other half, or below its low one.
#[test]
fn refusal_5_at_every_entry_off_the_diagonal() {
    let changes: [Change; 4] = [
        |_, high| (high + 1, high + 1),
        |_, high| (high + 1, ENTRY),
        |low, _| (low - 1, low - 1),
        |low, _| (-ENTRY, low - 1),
    ];
    for change in changes {
        expect_all_refused(at_every_place(change), 5);
    }
}

#[test]
fn refusals_3_and_4_of_a_half_at_every_entry_off_the_diagonal() {
    expect_all_refused(at_every_place(|_, high| (-ENTRY - 1, high)), 3);
    expect_all_refused(at_every_place(|low, _| (low, ENTRY + 1)), 3);
    expect_all_refused(at_every_place(|low, high| (high + 1, low)), 4);
}

/// One half wider than the other, on either side or both: the text is that of the mended
/// file, whatever the place.
#[test]
fn a_half_that_is_mended_away_at_every_entry_off_the_diagonal() {
    let changes: [Change; 4] = [
        |low, high| (low - 1, high),
        |low, high| (low, high + 1),
        |low, high| (low - 7, high + 9),
        |_, _| (-ENTRY, ENTRY),
    ];
    let program = Program::under_test();
    let mended = at_every_place(|low, high| (low, high));
    for files in changes.map(at_every_place) {
        let pairs: Vec<_> = files.into_iter().zip(&mended).collect();
        on_threads(&pairs, |(lopsided, mended)| {
            assert_ne!(lopsided, *mended);
            program.expect(lopsided, &output(mended));
        });
    }
}

/// Each half has one bound that counts, and one number is left.
#[test]
fn a_pair_that_leaves_one_number_at_every_entry_off_the_diagonal() {
    let program = Program::under_test();
    let lopsided = at_every_place(|_, high| (high, ENTRY));
    let mut thin = vec![];
    for (order, i, j) in places().filter(|(_, i, j)| i != j) {
        let mut problem = definite(order);
        for place in [i * order + j, j * order + i] {
            problem.low[place] = problem.high[place];
        }
        thin.push(problem.file());
    }
    let pairs: Vec<_> = lopsided.iter().zip(&thin).collect();
    on_threads(&pairs, |(lopsided, thin)| {
        program.expect(lopsided, &output(thin))
    });
}

#[test]
fn refusal_16_at_every_term() {
    let mut files = vec![];
    for (order, k) in (1..=8).flat_map(|order| (0..order).map(move |k| (order, k))) {
        for (least, most) in [(1, 0), (-4, -5), (LINEAR, -LINEAR)] {
            let mut problem = definite(order);
            problem.linear_low[k] = least;
            problem.linear_high[k] = most;
            files.push(problem.file());
        }
    }
    expect_all_refused(files, 16);
}

/// The file of a problem of an order with another content for a tag.
fn with(order: usize, tag: u8, content: Vec<u8>) -> Vec<u8> {
    let mut fields = definite(order).fields();
    fields[usize::from(tag - TAG_ORDER)].1 = content;
    file_of_fields(&fields)
}

#[test]
fn refusal_1_of_every_other_n() {
    let others = (0..=255).filter(|n| !(1..=8).contains(n));
    expect_all_refused(others.map(|n| with(2, TAG_ORDER, vec![n])), 1);
}

#[test]
fn refusal_11_of_every_other_tag() {
    let mut files = vec![];
    for tag in (0..=255).filter(|tag| !(1..=7).contains(tag)) {
        for place in [0, 7] {
            let mut fields = definite(2).fields();
            fields.insert(place, (tag, vec![]));
            files.push(file_of_fields(&fields));
        }
    }
    expect_all_refused(files, 11);
}

#[test]
fn refusal_14_of_every_other_length() {
    let mut files = vec![];
    let of_orders = |tag: usize| (1..=8).map(move |order| definite(order).fields()[tag].1.len());
    for order in 1..=8 {
        for (place, (tag, content)) in definite(order).fields().into_iter().enumerate() {
            let size = content.len();
            let near = [0, 1, size - 1, size + 1, size + 4, size + 8, size + 256];
            for length in near.into_iter().chain(of_orders(place)) {
                if length != size {
                    let mut content = content.clone();
                    content.resize(length, 0);
                    files.push(with(order, tag, content));
                }
            }
        }
    }
    expect_all_refused(files, 14);
}
