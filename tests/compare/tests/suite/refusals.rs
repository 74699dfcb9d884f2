//! Refusals 1 to 5 of every act, and 6: each place, the ends of each range,
//! empty and null buffers, and the order of all checks, 16 among them. Expected refusals are
//! literals; what is let through agrees with the reference. Lopsided tables that are let
//! through are in `mended`.

use hankboulder_compare::{bytes, Call};

use crate::support::{
    beyond, places, Caller, FactorTest, ACTS, ENTRY_RANGE, FACTOR_RANGE, LINEAR_HIGH, LINEAR_LOW,
    SCALE, UNIT,
};

/// Every act refuses the bounds of a test, and writes nothing.
fn expect_refused(test: &FactorTest, answer: i64) {
    for (act, call) in ACTS {
        act.expect(&call(test), answer);
    }
}

#[test]
fn refusal_1_for_orders_out_of_range_whatever_the_buffers() {
    let wrong = [0, 9, -1, -8, 257, 264, (1 << 32) + 1, (1 << 32) + 8];
    let ends = [1 << 62, -(1 << 32) + 2, i64::MIN, i64::MIN + 1, i64::MAX];
    for n in wrong.into_iter().chain(ends) {
        for (act, call) in ACTS {
            for order in 1..=8 {
                let mut call = call(&FactorTest::accepted(order));
                call.n = n;
                act.expect(&call, 1);
            }
            let mut call = call(&FactorTest::accepted(1));
            call.n = n;
            call.buffers.fill(vec![]);
            act.expect(&call, 1);
        }
    }
}

/// The sizes of tables and vectors of every order, and sizes beside one.
fn sizes_near(size: usize) -> impl Iterator<Item = usize> {
    let of_orders = (1..=9).flat_map(|order: usize| [8 * order, 8 * order * order]);
    let beside = [0, 1, size / 8, size - 8, size - 1, size + 1, size + 8, 4096];
    of_orders.chain(beside)
}

#[test]
fn refusal_2_for_every_other_length_of_every_buffer() {
    for (order, (act, call)) in (1..=8).flat_map(|order| ACTS.map(|act| (order, act))) {
        let good = call(&FactorTest::accepted(order));
        for (place, buffer) in good.buffers.iter().enumerate() {
            let size = buffer.len();
            for length in sizes_near(size).filter(|length| *length != size) {
                let mut call = good.clone();
                call.buffers[place].resize(length, 0x5A);
                act.expect(&call, 2);
            }
        }
    }
}

#[test]
fn refusal_2_for_empty_and_null_buffers() {
    for (order, (act, call)) in (1..=8).flat_map(|order| ACTS.map(|act| (order, act))) {
        let good = call(&FactorTest::accepted(order));
        // Which of the buffers are empty, at least one.
        for empty in 1..1 << good.buffers.len() {
            let mut call = good.clone();
            for (place, buffer) in call.buffers.iter_mut().enumerate() {
                if empty >> place & 1 == 1 {
                    buffer.clear();
                }
            }
            act.expect(&call, 2);
        }
    }
}

#[test]
fn refusal_2_where_all_buffers_fit_another_order() {
    for (order, other) in (1..=8).flat_map(|order| (1..=8).map(move |other| (order, other))) {
        for (act, call) in ACTS {
            let mut call = call(&FactorTest::accepted(order));
            call.n = other;
            let refused = act.agree(&call, 0).answer == 2;
            assert_eq!(refused, other != order as i64);
        }
        FactorTest::accepted(order).expect(0, 2 * UNIT);
    }
}

#[test]
fn refusal_3_at_every_entry_of_the_tables() {
    for (order, i, j) in places() {
        for entry in beyond(ENTRY_RANGE) {
            let mut test = FactorTest::accepted(order);
            let place = test.at(i, j);
            test.low[place] = entry;
            expect_refused(&test, 3);
            let mut test = FactorTest::accepted(order);
            test.high[place] = entry;
            expect_refused(&test, 3);
        }
    }
}

#[test]
fn the_ends_of_the_entry_range_pass_3() {
    for (order, i, j) in places() {
        let mut test = FactorTest::accepted(order);
        for place in [test.at(i, j), test.at(j, i)] {
            test.low[place] = -ENTRY_RANGE;
            test.high[place] = ENTRY_RANGE;
        }
        let greatest = ENTRY_RANGE * UNIT;
        let over = if i == j { -UNIT } else { 2 * UNIT } - greatest;
        test.expect(-1, over);
        for (act, call) in ACTS {
            let answer = act.agree(&call(&test), 0).answer;
            assert!(!(1..=5).contains(&answer), "{}: {answer}", act.name);
        }
    }
}

#[test]
fn refusal_4_at_every_entry() {
    for (order, i, j) in places() {
        for (low, high) in [(4, 3), (0, -1), (ENTRY_RANGE, -ENTRY_RANGE)] {
            let mut test = FactorTest::accepted(order);
            let place = test.at(i, j);
            test.low[place] = low;
            test.high[place] = high;
            expect_refused(&test, 4);
        }
    }
}

/// The bounds of the other place are 0.
#[test]
fn refusal_5_at_every_pair_of_entries_that_leaves_no_number() {
    let end = ENTRY_RANGE;
    for (order, i, j) in places().filter(|(_, i, j)| i != j) {
        for (low, high) in [
            (1, 1),
            (1, end),
            (end, end),
            (-1, -1),
            (-end, -1),
            (-end, -end),
        ] {
            let mut test = FactorTest::accepted(order);
            let place = test.at(i, j);
            test.low[place] = low;
            test.high[place] = high;
            expect_refused(&test, 5);
        }
    }
}

#[test]
fn refusal_6_at_every_entry_of_the_factor() {
    for (order, i, j) in places() {
        let near: &[i64] = match i.cmp(&j) {
            std::cmp::Ordering::Greater => &[-1, 1, FACTOR_RANGE],
            std::cmp::Ordering::Equal => &[0, -1, -FACTOR_RANGE],
            std::cmp::Ordering::Less => &[],
        };
        for entry in near.iter().copied().chain(beyond(FACTOR_RANGE)) {
            let mut test = FactorTest::accepted(order);
            let place = test.at(i, j);
            test.factor[place] = entry;
            test.expect_refused(6);
        }
    }
}

#[test]
fn the_ends_of_the_factor_range_pass_6() {
    for (order, i, j) in places().filter(|(_, i, j)| i <= j) {
        let ends = if i == j {
            [1, FACTOR_RANGE]
        } else {
            [-FACTOR_RANGE, FACTOR_RANGE]
        };
        for entry in ends {
            let mut test = FactorTest::accepted(order);
            let place = test.at(i, j);
            test.factor[place] = entry;
            let (answer, over) = match entry {
                1 if order == 1 => (0, 3 * UNIT - 1),
                1 => (0, 2 * UNIT),
                _ if i == j => (-1, 3 * UNIT - entry * entry),
                // Row j, which has the entry's square and its product with 2^16
                _ => (-1, 2 * UNIT - entry * entry - SCALE * entry.abs()),
            };
            test.expect(answer, over);
        }
    }
}

/// Puts a fault of the tables or of the factor into a test.
fn put_fault(test: &mut FactorTest, fault: i64) {
    let last = test.at(test.order - 1, test.order - 1);
    let corner = test.at(test.order - 1, 0);
    match fault {
        3 => test.high[last] = i64::MAX,
        4 => test.low[0] = 4,
        5 => {
            test.low[corner] = -1;
            test.high[corner] = -1;
        }
        6 => test.factor[last] = i64::MIN,
        8 => {
            test.low[0] = 1;
            test.high[0] = 1;
        }
        _ => {}
    }
}

/// Puts any other fault into a call.
fn put_other_fault(call: &mut Call, fault: i64) {
    match fault {
        1 => call.n = -call.n,
        2 => {
            call.buffers.last_mut().expect("an act has buffers").pop();
        }
        // The vector
        7 => call.buffers[2].fill(0),
        // The first linear term is far, and the last one reversed.
        9 => {
            for end in [LINEAR_LOW, LINEAR_HIGH] {
                call.buffers[end][..8].copy_from_slice(&bytes(&[ENTRY_RANGE + 1]));
            }
        }
        16 => {
            let last = call.buffers[LINEAR_LOW].len() - 8;
            call.buffers[LINEAR_LOW][last..].copy_from_slice(&bytes(&[1]));
        }
        _ => {}
    }
}

/// A call of an act with the faults given. They leave each other standing where
/// those of earlier checks are put last.
fn faulty(call: Caller, order: usize, faults: &[i64]) -> Call {
    let mut test = FactorTest::accepted(order);
    for fault in faults.iter().rev() {
        put_fault(&mut test, *fault);
    }
    let mut call = call(&test);
    for fault in faults.iter().rev() {
        put_other_fault(&mut call, *fault);
    }
    call
}

#[test]
fn of_several_faults_the_first_in_the_order_of_checks_is_given() {
    for (order, (act, call)) in (2..=8).flat_map(|order| ACTS.map(|act| (order, act))) {
        let refusals = act.answers.iter().copied().filter(|answer| *answer > 0);
        let refusals: Vec<i64> = refusals.collect();
        for chosen in 1..1 << refusals.len() {
            let faults: Vec<i64> = (0..refusals.len())
                .filter(|place| chosen >> place & 1 == 1)
                .map(|place| refusals[place])
                .collect();
            act.expect(&faulty(call, order, &faults), faults[0]);
        }
    }
}
