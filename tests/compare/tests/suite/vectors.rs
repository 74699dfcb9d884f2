//! Which vectors show 'not definite', and refusal 7. Expected answers are
//! literals worked from the rules.

use hankboulder_compare::bytes;
use hankboulder_compare::test_vector::TEST_VECTOR;

use crate::support::{call_on, square, ENTRY_RANGE};

const YES: i64 = 0;
const NO: i64 = -1;
const REFUSED_RANGE: i64 = 3;
const REFUSED_VECTOR: i64 = 7;

const VECTOR_RANGE: i64 = 1 << 15;

fn expect(low: &[i64], high: &[i64], vector: &[i64], answer: i64) {
    TEST_VECTOR.expect(&call_on(low, high, &[bytes(vector)]), answer);
}

/// The vector with one number everywhere.
fn constant(order: usize, number: i64) -> Vec<i64> {
    vec![number; order]
}

#[test]
fn the_listed_vectors_show_it() {
    expect(&[0], &[5], &[1], YES);
    expect(&[1], &[1], &[1], NO);
    expect(&[1, 2, 2, 1], &[1, 2, 2, 1], &[1, -1], YES);
    expect(&[1, 1, 1, 1], &[1, 1, 1, 1], &[1, -1], YES);
    let table = [1, 1000, 1000, 10000];
    expect(&table, &table, &[-1143, 1], YES);
    expect(&table, &table, &[-6, 1], YES);
    expect(&table, &table, &[-5, 1], NO);
}

#[test]
fn the_bound_that_counts_is_low_where_the_product_is_positive() {
    // 2 + 2 + 2 m, for an m that is -2 where the product is positive
    expect(&[2, -2, -2, 2], &[2, 1, 1, 2], &[1, 1], YES);
    expect(&[2, -1, -1, 2], &[2, 1, 1, 2], &[1, 1], NO);
    // 2 + 2 - 2 m, for an m that is 2 where it is negative
    expect(&[2, 1, 1, 2], &[2, 2, 2, 2], &[1, -1], YES);
    expect(&[2, 1, 1, 2], &[2, 1, 1, 2], &[1, -1], NO);
    // On the diagonal it is low.
    expect(&[0, 0, 0, 1], &[9, 0, 0, 9], &[1, 0], YES);
    expect(&[1, 0, 0, 1], &[9, 0, 0, 9], &[1, 0], NO);
}

#[test]
fn a_least_value_of_0_shows_it_and_of_1_does_not() {
    for order in 2..=8 {
        let table = square(order, order as i64 - 1, -1);
        expect(&table, &table, &constant(order, 1), YES);
        expect(&table, &table, &constant(order, -VECTOR_RANGE), YES);
        let mut more = table.clone();
        more[order * order - 1] += 1;
        expect(&more, &more, &constant(order, 1), NO);
        expect(&more, &more, &constant(order, VECTOR_RANGE), NO);
    }
}

#[test]
fn the_greatest_magnitudes_are_answered() {
    for order in 1..=8 {
        for entry in [VECTOR_RANGE, -VECTOR_RANGE] {
            let vector = constant(order, entry);
            let (low, high) = (-ENTRY_RANGE, ENTRY_RANGE);
            expect(
                &square(order, low, low),
                &square(order, high, high),
                &vector,
                YES,
            );
            expect(
                &square(order, high, high),
                &square(order, high, high),
                &vector,
                NO,
            );
        }
    }
}

#[test]
fn refusal_7_for_the_zero_vector_and_for_an_entry_beyond_its_range() {
    for order in 1..=8 {
        let table = square(order, 1, 0);
        expect(&table, &table, &constant(order, 0), REFUSED_VECTOR);
        for k in 0..order {
            for beyond in [VECTOR_RANGE + 1, -VECTOR_RANGE - 1, i64::MIN, i64::MAX] {
                let mut vector = constant(order, 1);
                vector[k] = beyond;
                expect(&table, &table, &vector, REFUSED_VECTOR);
                vector[k] = 0;
                expect(
                    &table,
                    &table,
                    &vector,
                    if order == 1 { REFUSED_VECTOR } else { NO },
                );
            }
        }
        // Check 3 comes before 7.
        let wide = square(order, ENTRY_RANGE + 1, 0);
        expect(&table, &wide, &constant(order, 0), REFUSED_RANGE);
    }
}
