//! What the judge answers, what it writes and what it keeps. Expected verdicts
//! are literals worked from the rules; matrices are written as in docs/RULES.md.

use hankboulder_compare::judge::JUDGE;
use hankboulder_compare::{bytes, Detail};
use hankboulder_reference::cases::numbers;
use hankboulder_reference::judge::List;
use hankboulder_reference::vectors::tried_vectors;

use crate::support::{judge_call, square, ENTRY_RANGE, JUDGED_OVER};
use Verdict::{Definite, Not, Undecided};

/// A verdict with what is written: the factor row by row and what its rows have over, or
/// the vector.
enum Verdict<'a> {
    Definite(&'a [i64], i64),
    Not(&'a [i64]),
    Undecided,
}

/// The places of the outputs among the judge's buffers
const FACTOR: usize = 2;
const VECTOR: usize = 3;

/// Fails where the library or the reference gives another verdict. The list
/// that the vector is from.
fn expect_tables(low: &[i64], high: &[i64], verdict: Verdict) -> Option<List> {
    let call = judge_call(low, high);
    let mut after = call.buffers.clone();
    let answer = match verdict {
        Definite(rows, over) => {
            after[FACTOR] = bytes(rows);
            after[JUDGED_OVER] = bytes(&[over]);
            0
        }
        Not(vector) => {
            after[VECTOR] = bytes(vector);
            -1
        }
        Undecided => -2,
    };
    JUDGE.expect_after(&call, answer, &after);
    match JUDGE.agree(&call, 1).detail {
        Some(Detail::From(list)) => Some(list),
        _ => None,
    }
}

fn expect_wide(low: &str, high: &str, verdict: Verdict) -> Option<List> {
    expect_tables(&numbers(low), &numbers(high), verdict)
}

/// The same of L = U.
fn expect(matrix: &str, verdict: Verdict) -> Option<List> {
    expect_wide(matrix, matrix, verdict)
}

fn expect_refused(matrix: &str, refusal: i64) {
    let table = numbers(matrix);
    JUDGE.expect(&judge_call(&table, &table), refusal);
}

#[test]
fn the_starred_matrices() {
    expect("[1]", Definite(&[61303], 536909487));
    expect_wide("[1]", "[2]", Definite(&[61303], 536909487));
    expect("[0]", Not(&[1]));
    expect_wide("[0]", "[5]", Not(&[1]));
    let factor = [89738, 47861, 0, 75910];
    expect("[2 1; 1 2]", Definite(&factor, 536914293));
    let factor = [61303, 140122, 0, 36108];
    expect("[1 2; 2 5]", Definite(&factor, 536838306));
    expect("[1 2; 2 1]", Not(&[1, -1]));
    expect("[1 1; 1 1]", Not(&[1, -1]));
    expect("[1 1000; 1000 10000]", Not(&[-1143, 1]));
    expect("[1 3; 3 10]", Undecided);
}

#[test]
fn the_least_value_of_the_solved_vector_is_the_starred_one() {
    // (-1143, 1) has the least value -969551: with 969551 more in the last entry
    // it is 0, which shows it, and with 969552 more it is 1.
    expect("[1 1000; 1000 979551]", Not(&[-1143, 1]));
    expect("[1 1000; 1000 979552]", Undecided);
}

#[test]
fn the_other_listed_lines() {
    expect("[1048576]", Definite(&[67108859], 671088615));
    expect_refused("[1048577]", 3);
    expect_refused("[-1048577]", 3);
    expect("[-1048576]", Not(&[1]));
    for n in [0, 9] {
        let mut call = judge_call(&[4], &[4]);
        call.n = n;
        JUDGE.expect(&call, 1);
        call.buffers.fill(vec![]);
        JUDGE.expect(&call, 1);
    }
    // Case P's matrix
    expect("[4]", Definite(&[129007], 537063135));
}

#[test]
fn mistakes_easily_made() {
    // Quotients toward zero
    let factor = [89738, -47862, 0, 75909];
    expect("[2 -1; -1 2]", Definite(&factor, 536914407));
    // L looked at alone
    expect_wide("[1 0; 0 1]", "[1 2; 2 1]", Not(&[1, -1]));
    expect_wide("[1 -2; -2 1]", "[1 0; 0 1]", Not(&[1, 1]));
    // Looking only when a column is full: factoring stops in column 3 with m = 1,
    // by r(1,3) here, and by the rest alone below. A full column has m = 2, and the
    // solved vectors (-3, -1, 1) and (-24, -19, 64), which show it too.
    expect("[1 0 1000; 0 1 5; 1000 5 10000]", Not(&[-1143, 0, 1]));
    expect("[1 0 3; 0 4 3; 3 3 8]", Not(&[-3, 0, 1]));
    expect("[100 0 37; 0 100 30; 37 30 13]", Not(&[-24, 0, 64]));
    // Taking a stopped factoring for 'not definite'
    expect("[1 3; 3 10]", Undecided);
}

#[test]
fn undecided_at_every_order_but_1() {
    // [1 3; 3 10] in the last two rows and columns, 2^20 on the diagonal before
    for order in 2..=8 {
        let mut table = square(order, ENTRY_RANGE, 0);
        let last = order * order - 1;
        table[last - order - 1] = 1;
        table[last - order] = 3;
        table[last - 1] = 3;
        table[last] = 10;
        expect_tables(&table, &table, Undecided);
    }
}

#[test]
fn a_rest_of_exactly_0_stops_and_of_exactly_1_does_not() {
    expect(
        "[180 0 0 114; 0 294 0 30; 0 0 328 928; 114 30 928 2702]",
        Undecided,
    );
    expect(
        "[50 0 0 0 205; 0 60 0 0 178; 0 0 70 0 331; 0 0 0 80 205; 205 178 331 205 3466]",
        Definite(
            &[
                462829, 0, 0, 0, 1902361, 0, 507110, 0, 0, 1507570, 0, 0, 547823, 0, 2595061, 0, 0,
                0, 585713, 1503241, 0, 0, 0, 0, 1,
            ],
            535485893,
        ),
    );
}

#[test]
fn a_solved_entry_of_exactly_two_to_the_15_stays() {
    expect("[1 28672; 28672 1048576]", Not(&[-32768, 1]));
    expect("[1 -28672; -28672 1048576]", Not(&[32768, 1]));
    // One more passes 2^15, and no vector is left.
    expect("[1 28673; 28673 1048576]", Undecided);
    expect("[1 -28673; -28673 1048576]", Undecided);
}

#[test]
fn a_half_in_a_solved_vector_is_rounded_down_before_the_sign_is_put() {
    // r(1,1) = 539926 = 2·269963, and r(1,2) = 1637·539926 + 269963
    expect("[68 111145; 111145 300000]", Not(&[-1638, 1]));
    // r(1,1) = 418994 = 2·209497, and r(1,2) = -987·418994 + 209497
    expect("[41 -40323; -40323 100000]", Not(&[986, 1]));
}

#[test]
fn each_list_gives_a_vector() {
    let list = expect("[1 2; 2 1]", Not(&[1, -1]));
    assert_eq!(list, Some(List::Tried));
    let list = expect("[1 1000; 1000 10000]", Not(&[-1143, 1]));
    assert_eq!(list, Some(List::Solved(1)));
    // s = 1 gives (0, 1), which does not show it.
    let list = expect("[100 37; 37 13]", Not(&[-24, 64]));
    assert_eq!(list, Some(List::Solved(64)));
    // s = 1 gives none.
    let list = expect(
        "[2 181 0 0; 181 17473 4 -2; 0 4 4000 -2000; 0 -2 -2000 999]",
        Not(&[0, 0, 32, 64]),
    );
    assert_eq!(list, Some(List::Solved(64)));
}

#[test]
fn of_several_tried_vectors_the_first_is_written() {
    // (0, 1, -1) and (1, -1, 0) both show it.
    expect("[1 1 0; 1 1 1; 0 1 1]", Not(&[0, 1, -1]));
    for order in 1..=8 {
        // Every vector shows it; the first has its 1 at the end.
        let mut first = vec![0; order];
        first[order - 1] = 1;
        let table = square(order, 0, 0);
        expect_tables(&table, &table, Not(&first));
        // And with -2^20 to 2^20 everywhere.
        let (low, high) = (-ENTRY_RANGE, ENTRY_RANGE);
        let (low, high) = (square(order, low, low), square(order, high, high));
        expect_tables(&low, &high, Not(&first));
    }
}

/// k E - xx' for the identity E and an x with k nonzero entries, all 1 or -1. Its
/// value at y is k y'y - (x'y)², which is 0 for x and -x and above 0 for every
/// other tried vector.
fn shown_by_alone(x: &[i64]) -> Vec<i64> {
    let order = x.len();
    let count = x.iter().filter(|entry| **entry != 0).count();
    let mut table = square(order, count as i64, 0);
    for (place, entry) in table.iter_mut().enumerate() {
        *entry -= x[place / order] * x[place % order];
    }
    table
}

#[test]
fn every_tried_vector_is_written_where_it_and_its_opposite_alone_show_it() {
    for order in 1..=8 {
        for x in tried_vectors(order) {
            let x: Vec<i64> = x.iter().map(|entry| *entry as i64).collect();
            // Of the two, the one with 1 in front comes first.
            if x.iter().find(|entry| **entry != 0) == Some(&1) {
                let table = shown_by_alone(&x);
                expect_tables(&table, &table, Not(&x));
            }
        }
    }
}

#[test]
fn the_widest_factor_is_written() {
    for order in 1..=8 {
        let table = square(order, ENTRY_RANGE, 0);
        let factor = square(order, 67108859, 0);
        expect_tables(&table, &table, Definite(&factor, 671088615));
    }
}
