//! Which factors are accepted, and what their rows have over: literals worked from the
//! rules.

use hankboulder_compare::test_factor::TEST_FACTOR;
use hankboulder_reference::factoring::{factor, Factoring};
use hankboulder_reference::generate::{Generator, KINDS};
use hankboulder_reference::problem::Bounds;
use hankboulder_reference::random::Random;

use crate::support::{places, FactorTest, ENTRY_RANGE, FACTOR_RANGE, SCALE, UNIT};

const ACCEPTED: i64 = 0;
const NOT_ACCEPTED: i64 = -1;

/// A test that each row passes with nothing to spare: the product has 4 on the
/// diagonal and 0 elsewhere, the bounds n + 3 on it and 1 elsewhere.
fn balanced(order: usize) -> FactorTest {
    FactorTest::even(order, order as i64 + 3, 1, 2 * SCALE)
}

/// Factors a generated problem by the reference. Where that ends, the library
/// accepts the factor.
fn factor_is_accepted(generator: &mut Generator, order: usize, place: usize) -> bool {
    let kind = KINDS[place % KINDS.len()];
    let problem = generator.problem(kind, order, place % 2 == 1);
    let bounds = Bounds::read(order, &problem.low, &problem.high);
    let bounds = bounds.expect("a generated problem is let through");
    let Factoring::Ends(table) = factor(&bounds) else {
        return false;
    };
    let test = FactorTest {
        order,
        low: problem.low,
        high: problem.high,
        factor: table.concat().iter().map(|entry| *entry as i64).collect(),
    };
    assert_eq!(TEST_FACTOR.agree(&test.call(), place).answer, ACCEPTED);
    true
}

#[test]
fn the_factor_of_every_factoring_that_ends_is_accepted() {
    let mut generator = Generator::new(2);
    for order in 1..=8 {
        let ended = (0..4000).filter(|place| factor_is_accepted(&mut generator, order, *place));
        let ended = ended.count();
        assert!(ended > 1000, "order {order}: {ended}");
    }
}

#[test]
fn the_listed_factors_are_accepted() {
    // What the rows have over, and what they have with 2^17 + 1 for the first entry
    let listed: [(&[i64], &[i64], i64, i64); 5] = [
        (&[1], &[61303], 536909487, -12885164033),
        (&[4], &[129007], 537063135, -262145),
        (
            &[2, 1, 1, 2],
            &[89738, 47861, 0, 75910],
            536914293,
            -10568514294,
        ),
        (
            &[2, -1, -1, 2],
            &[89738, -47862, 0, 75910],
            536762588,
            -10568645367,
        ),
        (
            &[1, 2, 2, 5],
            &[61303, 140122, 0, 36108],
            536838306,
            -22661440347,
        ),
    ];
    for (table, factor, over, short) in listed {
        let mut test = FactorTest {
            order: if table.len() == 1 { 1 } else { 2 },
            low: table.to_vec(),
            high: table.to_vec(),
            factor: factor.to_vec(),
        };
        test.expect(ACCEPTED, over);
        test.factor[0] = 2 * SCALE + 1;
        test.expect(NOT_ACCEPTED, short);
    }
}

#[test]
fn a_row_may_be_equal_and_no_less_in_every_row() {
    for order in 1..=8 {
        balanced(order).expect(ACCEPTED, 0);
        for i in 0..order {
            let mut test = balanced(order);
            let place = test.at(i, i);
            test.low[place] -= 1;
            test.expect(NOT_ACCEPTED, -UNIT);
            // The high bound does not count on the diagonal.
            test.low[place] += 1;
            test.high[place] = ENTRY_RANGE;
            test.expect(ACCEPTED, 0);
            // 2^34 - (2^17 + 1)²
            test.factor[place] += 1;
            test.expect(NOT_ACCEPTED, -262145);
        }
    }
}

#[test]
fn the_greater_remainder_counts_at_every_place_off_the_diagonal() {
    for (order, i, j) in places().filter(|(_, i, j)| i != j) {
        // low and high at (i,j), where both were 1
        let bounds = [(0, 1), (-1, 1), (-1, -1), (-2, 1), (0, 2), (-2, -2)];
        let expected = [0, 0, 0, -1, -1, -1];
        for ((low, high), over) in bounds.into_iter().zip(expected) {
            let mut test = balanced(order);
            for place in [test.at(i, j), test.at(j, i)] {
                test.low[place] = low;
                test.high[place] = high;
            }
            // −1 is 'not accepted', too.
            test.expect(over, over * UNIT);
        }
    }
}

#[test]
fn the_greatest_entry_and_the_greatest_factor_balance() {
    for order in 1..=8 {
        let mut test = FactorTest::even(order, ENTRY_RANGE, 0, FACTOR_RANGE);
        test.expect(ACCEPTED, 0);
        *test.low.last_mut().unwrap() -= 1;
        test.expect(NOT_ACCEPTED, -UNIT);
    }
}

#[test]
fn sums_of_the_greatest_magnitudes_agree_with_the_reference() {
    let mut random = Random::new(3);
    for (order, _, _) in places() {
        for turn in 0..100 {
            let mut test = FactorTest::even(order, ENTRY_RANGE, 0, FACTOR_RANGE);
            for (i, j) in (0..order).flat_map(|i| (0..i).map(move |j| (j, i))) {
                let (place, mirrored) = (test.at(i, j), test.at(j, i));
                let end = random.pick(&[-ENTRY_RANGE, ENTRY_RANGE]);
                for (table, entry) in [(&mut test.low, -ENTRY_RANGE), (&mut test.high, end)] {
                    table[place] = entry;
                    table[mirrored] = entry;
                }
                test.factor[place] = random.pick(&[-FACTOR_RANGE, FACTOR_RANGE]);
            }
            let answer = TEST_FACTOR.agree(&test.call(), turn).answer;
            let expected = if order == 1 { ACCEPTED } else { NOT_ACCEPTED };
            assert_eq!(answer, expected);
        }
    }
}
