//! Pooling: the worked cases, every check at every place and their order, sums that are halved
//! at every place, chains of samples and pools, one buffer lent as two lists, lopsided
//! problems, and the points that all problems allow.

use hankboulder_compare::enclosure::BOX;
use hankboulder_compare::gather::GATHER;
use hankboulder_compare::pool::{
    self, HIGHS, LIMITS, LINEAR_HIGHS, LINEAR_LOWS, LOWS, ORDERS, POOL,
};
use hankboulder_compare::{bytes, numbers, read_sums, Call, Lent};
use hankboulder_reference::generate::{Generator, ProblemKind, RawPool, RawProblem, KINDS};
use hankboulder_reference::random::Random;

use crate::support::{beyond, problem_call, square, ENTRY_RANGE, SIDES};

const TAKEN: i64 = 0;
const BOX_GIVEN: i64 = 0;
const EMPTY: i64 = -1;
const REFUSED_ORDER: i64 = 1;
const REFUSED_LENGTH: i64 = 2;
const REFUSED_RANGE: i64 = 3;
const REFUSED_CROSSED: i64 = 4;
const REFUSED_LOPSIDED: i64 = 5;
const REFUSED_REVERSED: i64 = 16;
const REFUSED_FULL: i64 = 18;

const LINEAR_RANGE: i64 = 1 << 36;
const LIMIT_RANGE: i64 = 1 << 54;
const HALF: i64 = ENTRY_RANGE / 2;

/// Numbers that are no order, 1 and 4 in their low bytes among them
const NO_ORDERS: [i64; 9] = [
    0,
    9,
    -1,
    257,
    260,
    (1 << 32) + 1,
    -(1 << 32) + 4,
    i64::MIN,
    i64::MAX,
];

/// A pool of so many problems of zeros, into zeros.
fn zeros(order: usize, count: usize) -> RawPool {
    RawPool {
        sums: RawProblem::zeros(order),
        problems: vec![RawProblem::zeros(order); count],
    }
}

fn call_of(raw: &RawPool) -> Call {
    pool::of(raw.call())
}

/// Fails where the library or the reference answers otherwise, or writes.
fn expect(call: &Call, answer: i64) {
    POOL.expect(call, answer);
    assert_eq!(POOL.agree(call, 5).answer, answer);
}

fn expect_refused(raw: &RawPool, answer: i64) {
    expect(&call_of(raw), answer);
}

/// Fails where the library does not leave these sums, or writes a list, or differs from the
/// reference.
fn expect_left(raw: &RawPool, sums: &RawProblem) {
    let call = call_of(raw);
    let mut after = call.buffers.clone();
    let left = RawPool {
        sums: sums.clone(),
        problems: vec![],
    };
    after[..ORDERS].clone_from_slice(&call_of(&left).buffers[..ORDERS]);
    POOL.expect_after(&call, TAKEN, &after);
    assert_eq!(POOL.agree(&call, 6).answer, TAKEN);
}

/// Sums or a problem of order 1.
fn of_order_1((low, high): (i64, i64), (least, most): (i64, i64), limit: i64) -> RawProblem {
    RawProblem {
        order: 1,
        low: vec![low],
        high: vec![high],
        linear_low: vec![least],
        linear_high: vec![most],
        limit,
        centre: vec![0],
    }
}

fn thin(m: i64, a: i64, limit: i64) -> RawProblem {
    of_order_1((m, m), (a, a), limit)
}

/// W63 to W68.
#[test]
fn worked_pools() {
    let taken = |sums: RawProblem, problems: &[RawProblem], left: RawProblem| {
        let problems = problems.to_vec();
        expect_left(&RawPool { sums, problems }, &left);
    };
    let refused = |sums: RawProblem, problems: &[RawProblem]| {
        let problems = problems.to_vec();
        expect_refused(&RawPool { sums, problems }, REFUSED_FULL);
    };
    let twice = [thin(4, -8, 1), thin(4, -8, 1)];
    taken(thin(0, 0, 0), &twice, thin(8, -16, 2));
    let full = thin(ENTRY_RANGE, 0, 0);
    let wide = of_order_1((ENTRY_RANGE, ENTRY_RANGE), (-1, 1), 3);
    let left = of_order_1((524_289, 524_289), (-1, 1), 3);
    taken(wide, &[thin(1, 0, 1)], left);
    refused(full.clone(), std::slice::from_ref(&full));
    refused(full.clone(), &[thin(1, 0, 0), full.clone()]);
    let half = thin(HALF, 0, 0);
    taken(full.clone(), std::slice::from_ref(&half), full.clone());
    taken(full, &[half, thin(1, 0, 0)], thin(524_289, 0, 0));
    let order_2 = |low: [i64; 4], high: [i64; 4]| RawProblem {
        low: low.to_vec(),
        high: high.to_vec(),
        ..RawProblem::zeros(2)
    };
    let sums = order_2([0, 0, -1, 0], [0, 2, 1, 0]);
    let problem = order_2([2, 1, 0, 2], [3, 2, 3, 3]);
    taken(sums, &[problem], order_2([2, 1, 1, 2], [3, 3, 3, 3]));
}

/// W61 and W62, by a problem that is 0 but for what has the sums halved: odd numbers of either
/// sign, in each of the sums.
#[test]
fn halves_of_odd_and_negative_sums() {
    let full = LIMIT_RANGE;
    for (sum, down, up) in [
        (-3, -2, -1),
        (3, 1, 2),
        (-1, -1, 0),
        (1, 0, 1),
        (-5, -3, -2),
        (7, 3, 4),
        (-7, -4, -3),
        (8, 4, 4),
    ] {
        // The running limit is at its end, and the problem's limit halves all.
        let raw = RawPool {
            sums: of_order_1((sum, sum), (sum, sum), full),
            problems: vec![thin(0, 0, 1)],
        };
        expect_left(&raw, &of_order_1((down, up), (down, up), full / 2 + 1));
        // A term is at its end, and the running limit is halved.
        let raw = RawPool {
            sums: of_order_1((sum, sum), (-LINEAR_RANGE, 7), sum),
            problems: vec![thin(0, -1, 0)],
        };
        let left = of_order_1((down, up), (-LINEAR_RANGE / 2 - 1, 3), up);
        expect_left(&raw, &left);
    }
    for (end, down, up) in [(LIMIT_RANGE - 1, 0, 0), (1 - LIMIT_RANGE, 0, 0)] {
        let raw = RawPool {
            sums: of_order_1((ENTRY_RANGE, ENTRY_RANGE), (0, 0), end),
            problems: vec![thin(1, 0, 0)],
        };
        let limit = if end > 0 {
            LIMIT_RANGE / 2
        } else {
            1 - LIMIT_RANGE / 2
        };
        expect_left(&raw, &of_order_1((HALF + 1, HALF + 1), (down, up), limit));
    }
}

#[test]
fn refusal_1_of_n_whatever_else_there_is() {
    for (order, count) in
        (1..=8).flat_map(|order| [(order, 1), (order, 64), (order, 65), (order, 0)])
    {
        let good = call_of(&zeros(order, count));
        for n in NO_ORDERS {
            let mut call = good.clone();
            call.n = n;
            expect(&call, REFUSED_ORDER);
            call.buffers[HIGHS].push(0);
            expect(&call, REFUSED_ORDER);
            call.buffers[ORDERS].push(0);
            expect(&call, REFUSED_ORDER);
        }
    }
    for n in NO_ORDERS {
        let mut call = call_of(&zeros(1, 1));
        call.n = n;
        call.buffers.fill(vec![]);
        expect(&call, REFUSED_ORDER);
    }
}

/// The call with a number in a list of orders that is otherwise good.
fn with_order(order: usize, count: usize, place: usize, number: i64) -> Call {
    let mut call = call_of(&zeros(order, count));
    let mut orders = vec![order as i64; count];
    orders[place] = number;
    call.buffers[ORDERS] = bytes(&orders);
    call
}

#[test]
fn refusals_1_and_2_of_every_order_in_the_list() {
    for order in 1..=8 {
        for place in 0..64 {
            expect(&with_order(order, 64, place, 9), REFUSED_ORDER);
            let other = 1 + order as i64 % 8;
            expect(&with_order(order, 64, place, other), REFUSED_LENGTH);
        }
        for (count, place) in [(1, 0), (2, 0), (2, 1), (3, 1)] {
            for none in NO_ORDERS {
                expect(&with_order(order, count, place, none), REFUSED_ORDER);
            }
            for other in (1..=8).filter(|other| *other != order as i64) {
                let mut call = with_order(order, count, place, other);
                expect(&call, REFUSED_LENGTH);
                // One that is none comes before it, wherever it stands.
                let mut orders = numbers(&call.buffers[ORDERS]);
                orders.push(0);
                call.buffers[ORDERS] = bytes(&orders);
                expect(&call, REFUSED_ORDER);
            }
        }
    }
}

/// W70 and the like: no, 65 and more problems are refused by 2, whatever stands in the list,
/// and 1 to 64 are taken.
#[test]
fn counts_of_problems_at_every_order() {
    for order in 1..=8 {
        for count in [1, 2, 3, 31, 63, 64] {
            let mut raw = zeros(order, count);
            let one = raw.problems.last_mut().expect("a problem");
            (one.low[0], one.high[0], one.limit) = (3, 4, 5);
            let left = one.clone();
            expect_left(&raw, &left);
        }
        for count in [0, 65, 66, 127, 128, 256, 320] {
            let good = call_of(&zeros(order, count));
            for number in [order as i64, 9, 0, i64::MIN] {
                let mut call = good.clone();
                call.buffers[ORDERS] = bytes(&vec![number; count]);
                expect(&call, REFUSED_LENGTH);
            }
        }
    }
}

/// Every length of the list up to two numbers, and lengths about 64 and 65 numbers.
#[test]
fn lengths_of_the_list_of_orders() {
    for (count, lengths) in [(1, 0..=24), (64, 496..=528)] {
        for (length, number) in lengths.flat_map(|length| [(length, 3), (length, 2), (length, 9)]) {
            let mut call = call_of(&zeros(3, count));
            call.buffers[ORDERS] = bytes(&[number; 66]);
            call.buffers[ORDERS].truncate(length);
            let whole = length % 8 == 0 && (8..=512).contains(&length);
            match (whole, number) {
                (true, 9) => expect(&call, REFUSED_ORDER),
                (true, 3) if length == 8 * count => {
                    assert_eq!(POOL.agree(&call, 1).answer, TAKEN);
                }
                _ => expect(&call, REFUSED_LENGTH),
            }
        }
    }
}

#[test]
fn refusal_2_for_every_other_size_of_every_buffer() {
    for (order, count) in (1..=8).flat_map(|order| [(order, 1), (order, 2), (order, 64)]) {
        let good = call_of(&zeros(order, count));
        let others = (0..good.buffers.len()).filter(|place| *place != ORDERS);
        for place in others {
            let size = good.buffers[place].len();
            let near = [
                0,
                1,
                size - 8,
                size - 1,
                size + 1,
                size + 8,
                2 * size,
                8 * size,
            ];
            for length in near.into_iter().filter(|length| *length != size) {
                let mut call = good.clone();
                call.buffers[place].resize(length, 0x5A);
                expect(&call, REFUSED_LENGTH);
                // 1 of the list comes before, and 3 behind.
                call.buffers[ORDERS][8 * count - 8] = 9;
                expect(&call, REFUSED_ORDER);
                call.buffers[ORDERS].clone_from(&good.buffers[ORDERS]);
                let other = if place == LIMITS { LOWS } else { LIMITS };
                call.buffers[other][..8].copy_from_slice(&i64::MAX.to_le_bytes());
                expect(&call, REFUSED_LENGTH);
            }
        }
    }
}

#[test]
fn refusal_2_for_empty_and_null_buffers() {
    for order in [1, 4, 8] {
        let good = call_of(&zeros(order, 2));
        // Which of the buffers are empty, at least one
        for empty in 1..1 << good.buffers.len() {
            let mut call = good.clone();
            for (place, buffer) in call.buffers.iter_mut().enumerate() {
                if empty >> place & 1 == 1 {
                    buffer.clear();
                }
            }
            POOL.expect(&call, REFUSED_LENGTH);
        }
    }
}

/// The sums, or a problem.
fn part(raw: &mut RawPool, place: Option<usize>) -> &mut RawProblem {
    match place {
        None => &mut raw.sums,
        Some(k) => &mut raw.problems[k],
    }
}

/// The sums, the first, a middle and the last of three problems.
const PARTS: [Option<usize>; 4] = [None, Some(0), Some(1), Some(2)];

/// Fails where a pool with this fault, in each of its parts, is not refused so.
fn expect_in_every_part(order: usize, answer: i64, put: impl Fn(&mut RawProblem)) {
    for place in PARTS {
        let mut raw = zeros(order, 3);
        put(part(&mut raw, place));
        POOL.expect(&call_of(&raw), answer);
    }
}

#[test]
fn refusal_3_of_every_number() {
    for order in 1..=8 {
        for (number, k) in beyond(ENTRY_RANGE)
            .into_iter()
            .flat_map(|number| (0..order * order).map(move |k| (number, k)))
        {
            expect_in_every_part(order, REFUSED_RANGE, |one| one.low[k] = number);
            expect_in_every_part(order, REFUSED_RANGE, |one| one.high[k] = number);
        }
        for (number, k) in beyond(LINEAR_RANGE)
            .into_iter()
            .flat_map(|number| (0..order).map(move |k| (number, k)))
        {
            expect_in_every_part(order, REFUSED_RANGE, |one| one.linear_low[k] = number);
            expect_in_every_part(order, REFUSED_RANGE, |one| one.linear_high[k] = number);
        }
        for number in beyond(LIMIT_RANGE) {
            expect_in_every_part(order, REFUSED_RANGE, |one| one.limit = number);
        }
    }
}

/// Every problem of 64, in turn.
#[test]
fn refusal_3_of_every_problem() {
    for (order, k) in [1, 3, 8]
        .into_iter()
        .flat_map(|order| (0..64).map(move |k| (order, k)))
    {
        type Put = fn(&mut RawProblem);
        let faults: [Put; 5] = [
            |one| *one.low.last_mut().expect("an entry") = -ENTRY_RANGE - 1,
            |one| one.high[0] = ENTRY_RANGE + 1,
            |one| one.linear_low[0] = -LINEAR_RANGE - 1,
            |one| *one.linear_high.last_mut().expect("a term") = LINEAR_RANGE + 1,
            |one| one.limit = LIMIT_RANGE + 1,
        ];
        for put in faults {
            let mut raw = zeros(order, 64);
            put(&mut raw.problems[k]);
            POOL.expect(&call_of(&raw), REFUSED_RANGE);
        }
    }
}

#[test]
fn refusals_4_5_and_16_at_every_place() {
    for order in 1..=8 {
        for k in 0..order * order {
            for (low, high) in [(1, 0), (0, -1), (ENTRY_RANGE, -ENTRY_RANGE)] {
                let crossed = |one: &mut RawProblem| (one.low[k], one.high[k]) = (low, high);
                expect_in_every_part(order, REFUSED_CROSSED, crossed);
            }
            if k / order == k % order {
                continue;
            }
            // The bounds of the mirrored place are 0.
            for (low, high) in [(1, 1), (1, ENTRY_RANGE), (-1, -1), (-ENTRY_RANGE, -1)] {
                let lopsided = |one: &mut RawProblem| (one.low[k], one.high[k]) = (low, high);
                expect_in_every_part(order, REFUSED_LOPSIDED, lopsided);
            }
        }
        for k in 0..order {
            for ends in [(1, 0), (0, -1), (LINEAR_RANGE, -LINEAR_RANGE)] {
                let reversed = |one: &mut RawProblem| {
                    (one.linear_low[k], one.linear_high[k]) = ends;
                };
                expect_in_every_part(order, REFUSED_REVERSED, reversed);
            }
        }
    }
}

/// The ends of all ranges are let through, of the sums and of the problems.
#[test]
fn the_ends_of_the_ranges_pass_3() {
    for order in 1..=8 {
        let ends = |sign: i64| RawProblem {
            low: vec![-ENTRY_RANGE; order * order],
            high: vec![ENTRY_RANGE; order * order],
            linear_low: vec![-LINEAR_RANGE; order],
            linear_high: vec![LINEAR_RANGE; order],
            limit: sign * LIMIT_RANGE,
            ..RawProblem::zeros(order)
        };
        for sign in [-1, 1] {
            let mut raw = zeros(order, 2);
            raw.problems[1] = ends(sign);
            expect_left(&raw, &ends(sign));
            raw.sums = ends(-sign);
            // Half of the range and the whole of it are more than it.
            expect_refused(&raw, REFUSED_FULL);
            raw.problems[1] = RawProblem::zeros(order);
            expect_left(&raw, &ends(-sign));
        }
    }
}

/// Puts a fault, each at a place of its own.
fn put_fault(one: &mut RawProblem, fault: i64) {
    let last = one.order - 1;
    match fault {
        REFUSED_RANGE => one.limit = LIMIT_RANGE + 1,
        REFUSED_CROSSED => one.low[last * one.order + last] = 7,
        REFUSED_LOPSIDED => (one.low[1], one.high[1]) = (3, 3),
        REFUSED_REVERSED => one.linear_low[last] = 1,
        _ => unreachable!("no fault of a problem gives {fault}"),
    }
}

/// Faults in two parts of a pool that 18 would refuse: the first in the order of checks is
/// given, whichever part has it.
#[test]
fn checks_go_number_by_number_over_sums_and_problems() {
    let checks = [
        REFUSED_RANGE,
        REFUSED_CROSSED,
        REFUSED_LOPSIDED,
        REFUSED_REVERSED,
    ];
    for order in 2..=8 {
        let mut full = zeros(order, 3);
        full.sums.limit = -LIMIT_RANGE;
        full.problems[0].limit = -LIMIT_RANGE;
        full.problems[0].low[0] = -1;
        expect_refused(&full, REFUSED_FULL);
        let faults = || {
            PARTS
                .into_iter()
                .flat_map(|p| checks.map(|check| (p, check)))
        };
        for (one, other) in faults().flat_map(|one| faults().map(move |other| (one, other))) {
            let mut raw = full.clone();
            put_fault(part(&mut raw, one.0), one.1);
            put_fault(part(&mut raw, other.0), other.1);
            let first = checks.iter().find(|check| [one.1, other.1].contains(check));
            expect_refused(&raw, *first.expect("one of both"));
        }
    }
}

/// A call with these faults: those of problems in one after the other, and 1 and 2 in one of
/// four ways.
fn faulty(order: usize, faults: &[i64], way: usize) -> Call {
    let mut raw = zeros(order, 3);
    let of_problems = faults.iter().filter(|fault| (3..18).contains(*fault));
    for (fault, place) in of_problems.zip([2, 0, 1, 2]) {
        put_fault(&mut raw.problems[place], *fault);
    }
    if faults.contains(&REFUSED_FULL) {
        (raw.sums.low[0], raw.sums.high[0]) = (ENTRY_RANGE, ENTRY_RANGE);
        (raw.problems[1].low[0], raw.problems[1].high[0]) = (HALF + 1, HALF + 1);
    }
    let mut call = call_of(&raw);
    if faults.contains(&REFUSED_LENGTH) {
        match way {
            0 => call.buffers[LINEAR_HIGHS].push(0),
            1 => call.buffers[0].truncate(8),
            _ => call.buffers[ORDERS][0] = 1 + order as u8 % 8,
        }
    }
    if faults.contains(&REFUSED_ORDER) {
        match way % 2 {
            0 => call.n += 8,
            _ => call.buffers[ORDERS][16] = 0,
        }
    }
    call
}

#[test]
fn of_several_faults_the_first_in_the_order_of_checks_is_given() {
    let checks = [1, 2, 3, 4, 5, 16, 18];
    assert_eq!(POOL.answers[1..], checks);
    for (order, chosen) in [2, 5, 8]
        .into_iter()
        .flat_map(|n| (1..1 << 7).map(move |c| (n, c)))
    {
        let faults: Vec<i64> = (0..checks.len())
            .filter(|place| chosen >> place & 1 == 1)
            .map(|place| checks[place])
            .collect();
        for way in 0..4 {
            expect(&faulty(order, &faults, way), faults[0]);
        }
    }
}

/// What takes a number to a sum of its kind: into a problem, or the sums.
type Put = fn(&mut RawProblem, usize, i64);

/// Each kind of sum with the end that it leaves its range at. An entry stands in both places
/// of its pair.
const SLOTS: [(Put, i64); 6] = [
    (
        |one, k, number| both(&mut one.high, one.order, k, number),
        ENTRY_RANGE,
    ),
    (
        |one, k, number| both(&mut one.low, one.order, k, number),
        -ENTRY_RANGE,
    ),
    (
        |one, k, number| one.linear_high[k % one.order] = number,
        LINEAR_RANGE,
    ),
    (
        |one, k, number| one.linear_low[k % one.order] = number,
        -LINEAR_RANGE,
    ),
    (|one, _, number| one.limit = number, LIMIT_RANGE),
    (|one, _, number| one.limit = number, -LIMIT_RANGE),
];

fn both(table: &mut [i64], order: usize, k: usize, number: i64) {
    table[k] = number;
    table[k % order * order + k / order] = number;
}

/// A sum at its end, and a problem, the first, a middle or the last one, that brings it out of
/// its range: by as much as half of it has room for, and by 1 more.
#[test]
fn halved_or_refused_by_18_for_every_sum() {
    for (order, (put, end)) in (1..=8).flat_map(|n| SLOTS.map(|slot| (n, slot))) {
        for (k, place) in (0..order * order).flat_map(|k| (0..3).map(move |p| (k, p))) {
            let mut raw = zeros(order, 3);
            put(&mut raw.sums, k, end);
            put(&mut raw.problems[place], k, end / 2);
            // Half of the sum and the problem are the whole of its range again.
            expect_left(&raw, &raw.sums.clone());
            put(&mut raw.problems[place], k, end / 2 + end.signum());
            POOL.expect(&call_of(&raw), REFUSED_FULL);
            // Where it has room for 1 it is not halved.
            put(&mut raw.sums, k, end - end.signum());
            put(&mut raw.problems[place], k, end.signum());
            let mut left = raw.sums.clone();
            put(&mut left, k, end);
            expect_left(&raw, &left);
        }
    }
}

/// Halves by shifts of bits, which round down.
fn halves(sums: &RawProblem) -> RawProblem {
    let down = |list: &[i64]| -> Vec<i64> { list.iter().map(|sum| sum >> 1).collect() };
    let up = |list: &[i64]| -> Vec<i64> { list.iter().map(|sum| -(-sum >> 1)).collect() };
    RawProblem {
        low: down(&sums.low),
        high: up(&sums.high),
        linear_low: down(&sums.linear_low),
        linear_high: up(&sums.linear_high),
        limit: up(&[sums.limit])[0],
        ..sums.clone()
    }
}

/// The sums with a problem in them, where each is in its range.
fn with(sums: &RawProblem, problem: &RawProblem) -> Option<RawProblem> {
    let totals = |one: &[i64], other: &[i64], range: i64| -> Option<Vec<i64>> {
        let pairs = one.iter().zip(other);
        pairs
            .map(|(sum, more)| Some(sum + more).filter(|sum| sum.abs() <= range))
            .collect()
    };
    Some(RawProblem {
        low: totals(&sums.low, &problem.low, ENTRY_RANGE)?,
        high: totals(&sums.high, &problem.high, ENTRY_RANGE)?,
        linear_low: totals(&sums.linear_low, &problem.linear_low, LINEAR_RANGE)?,
        linear_high: totals(&sums.linear_high, &problem.linear_high, LINEAR_RANGE)?,
        limit: totals(&[sums.limit], &[problem.limit], LIMIT_RANGE)?[0],
        ..sums.clone()
    })
}

/// What pooling leaves, worked by shifts; none where 18 refuses.
fn left(raw: &RawPool) -> Option<RawProblem> {
    let mut sums = raw.sums.mended();
    for problem in raw.problems.iter().map(RawProblem::mended) {
        let whole = with(&sums, &problem);
        sums = match whole {
            Some(next) => next,
            None => with(&halves(&sums), &problem)?,
        };
    }
    Some(sums)
}

/// Pools of every count, at every order, that were made to halve the sums and to be refused.
#[test]
fn pools_are_what_shifts_of_bits_give() {
    let mut generator = Generator::new(141);
    let (mut taken, mut full) = (0, 0);
    for (order, count) in (1..=8).flat_map(|n| [1, 2, 3, 5, 63, 64].map(|count| (n, count))) {
        for _ in 0..40 {
            let sums = generator.pooling_sums(order);
            let raw = generator.pool_into(sums, count);
            match left(&raw) {
                Some(sums) => {
                    expect_left(&raw, &sums);
                    taken += 1;
                }
                None => {
                    expect_refused(&raw, REFUSED_FULL);
                    full += 1;
                }
            }
        }
    }
    assert!(taken > 1000 && full > 150, "{taken} {full}");
}

/// 64 halvings in one call, and 18 at the last problem of 64 behind 63 of them.
#[test]
fn halvings_in_a_row_and_18_behind_them() {
    for order in 1..=8 {
        let table = |entry: i64| RawProblem {
            low: square(order, entry, 0),
            high: square(order, entry, 0),
            ..RawProblem::zeros(order)
        };
        let mut raw = zeros(order, 64);
        raw.sums = table(ENTRY_RANGE);
        raw.problems.fill(table(HALF));
        expect_left(&raw, &table(ENTRY_RANGE));
        raw.problems[63] = table(HALF + 1);
        expect_refused(&raw, REFUSED_FULL);
        raw.problems[63] = table(HALF - 1);
        expect_left(&raw, &table(ENTRY_RANGE - 1));
        // One halving for two of them, of which each would have halved by itself
        let mut raw = zeros(order, 2);
        raw.sums = table(ENTRY_RANGE);
        raw.problems = vec![table(2), table(2)];
        expect_left(&raw, &table(HALF + 4));
        // The problems are added in their order.
        raw.problems = vec![table(-2), table(2)];
        expect_left(&raw, &table(ENTRY_RANGE));
        raw.problems = vec![table(2), table(-2)];
        expect_left(&raw, &table(HALF));
    }
}

/// Chains of samples and pools, in any order, from sums of 0: every step is the reference's,
/// and the library's own sums are handed on.
#[test]
fn chains_of_samples_and_pools() {
    let (mut generator, mut random) = (Generator::new(142), Random::new(143));
    let mut counts = [0; 3];
    for _ in 0..60 {
        let mut sums = call_of(&zeros(4, 1)).buffers[..ORDERS].to_vec();
        for step in 0..60 {
            let (act, call) = if random.one_in(2) {
                let sample = generator.good_sample();
                let call = Call::new(4, sums.clone());
                (&GATHER, Call { sample, ..call })
            } else {
                let lists: [Vec<i64>; 5] = std::array::from_fn(|place| numbers(&sums[place]));
                let [low, high, linear_low, linear_high, limit] = lists;
                let handed = RawProblem {
                    low,
                    high,
                    linear_low,
                    linear_high,
                    limit: limit[0],
                    ..RawProblem::zeros(4)
                };
                let count = random.pick(&[1, 1, 2, 5, 64]);
                (&POOL, call_of(&generator.pool_into(handed, count)))
            };
            let answer = act.agree(&call, step % 8).answer;
            let after = act.given(&call).1;
            match answer {
                TAKEN => counts[usize::from(act.name == POOL.name)] += 1,
                REFUSED_FULL if act.name == POOL.name => {
                    assert_eq!(after, call.buffers);
                    counts[2] += 1;
                }
                _ => panic!("{answer} of {}: {call:?}", act.name),
            }
            sums = after[..ORDERS].to_vec();
        }
    }
    assert!(counts.iter().all(|count| *count > 80), "{counts:?}");
}

/// Pools one by one leave what all of them leave in one call.
#[test]
fn a_pool_is_its_problems_one_by_one() {
    let mut generator = Generator::new(144);
    let mut taken = 0;
    for _ in 0..800 {
        let raw = generator.pool();
        let (answer, after) = POOL.given(&call_of(&raw));
        let mut sums = call_of(&raw).buffers[..ORDERS].to_vec();
        let mut last = TAKEN;
        for problem in &raw.problems {
            let one = RawPool {
                sums: RawProblem::zeros(raw.sums.order),
                problems: vec![problem.clone()],
            };
            let mut call = call_of(&one);
            call.buffers[..ORDERS].clone_from_slice(&sums);
            let (single, left) = POOL.given(&call);
            (last, sums) = (single, left[..ORDERS].to_vec());
            if single != TAKEN {
                break;
            }
        }
        assert_eq!(answer, last, "{raw:?}");
        let expected = match answer {
            TAKEN => sums,
            _ => call_of(&raw).buffers[..ORDERS].to_vec(),
        };
        assert_eq!(after[..ORDERS], expected);
        taken += usize::from(answer == TAKEN);
    }
    assert!(taken > 300, "{taken}");
}

/// What the library answers and leaves where one buffer is lent as both lists of tables and
/// one as both lists of ends.
#[test]
fn one_buffer_may_be_both_lists() {
    let mut generator = Generator::new(145);
    let mut taken = 0;
    for _ in 0..400 {
        let mut raw = generator.pool();
        // A lopsided table lent as both leaves no number.
        for problem in &mut raw.problems {
            let thin = problem.mended();
            problem.low.clone_from(&thin.low);
            problem.high = thin.low;
            problem.linear_high.clone_from(&problem.linear_low);
        }
        let call = call_of(&raw);
        let (answer, after) = POOL.given(&call);
        let mut buffers = call.buffers.clone();
        let lend = |buffer: &mut Vec<u8>| Lent {
            pointer: buffer.as_mut_ptr(),
            length: buffer.len(),
        };
        let mut lent: Vec<Lent> = buffers.iter_mut().map(lend).collect();
        (lent[HIGHS], lent[LINEAR_HIGHS]) = (lent[LOWS], lent[LINEAR_LOWS]);
        assert_eq!((POOL.library)(&call, &lent), answer);
        assert_eq!(buffers, after);
        assert_eq!(POOL.agree(&call, 2).answer, answer);
        taken += usize::from(answer == TAKEN);
    }
    assert!(taken > 100, "{taken}");
}

/// Problems whose halves are rounded apart, the first, a middle or the last one, leave what
/// the mended ones leave, and stay as they are.
#[test]
fn lopsided_problems_are_mended() {
    let mut generator = Generator::new(146);
    let mut lopsided = 0;
    for (order, kind) in (1..=8).flat_map(|order| KINDS.map(|kind| (order, kind))) {
        for place in 0..3 {
            for round in 0..8 {
                let mut mended = zeros(order, 3);
                mended.problems[place] = generator.problem(kind, order, round % 2 == 1);
                let mut raw = mended.clone();
                raw.problems[place] = generator.rounded_apart(&mended.problems[place]);
                lopsided += usize::from(!raw.problems[place].is_symmetric());
                expect_left(&raw, &mended.problems[place]);
            }
        }
    }
    assert!(lopsided > 500, "{lopsided}");
}

/// A half that is mended away brings no sum out of its range.
#[test]
fn a_half_that_is_mended_away_halves_nothing() {
    for order in 2..=8 {
        let mut raw = zeros(order, 1);
        (raw.sums.low[0], raw.sums.high[0]) = (7, 7);
        (raw.sums.low[1], raw.sums.high[1]) = (-ENTRY_RANGE, ENTRY_RANGE);
        (raw.problems[0].low[order], raw.problems[0].high[order]) = (-ENTRY_RANGE, ENTRY_RANGE);
        let mut left = raw.sums.clone();
        (left.low[1], left.high[1]) = (0, 0);
        expect_left(&raw, &left);
        // Both halves of the sums count, and halving makes no room for the problem's.
        (raw.sums.low[order], raw.sums.high[order]) = (-ENTRY_RANGE, ENTRY_RANGE);
        expect_left(&raw, &raw.sums.clone());
        (raw.problems[0].low[1], raw.problems[0].high[1]) = (-ENTRY_RANGE, ENTRY_RANGE);
        expect_refused(&raw, REFUSED_FULL);
    }
}

/// A point of fractions, near 0.
fn point(order: usize, random: &mut Random) -> (Vec<i128>, i128) {
    let p = random.pick(&[1, 2, 5]);
    let entry = |_| i128::from(random.within(6 * p));
    ((0..order).map(entry).collect(), i128::from(p))
}

/// The least whole limit with which a problem allows a point (R3.6): each pair and each term
/// counts with the end that makes it least.
fn least_limit(problem: &RawProblem, (x, p): (&[i128], i128)) -> i64 {
    let mended = problem.mended();
    let order = problem.order;
    let least = |product: i128, low: i64, high: i64| {
        (product * i128::from(low)).min(product * i128::from(high))
    };
    let entries = (0..order * order).map(|k| {
        let product = x[k / order] * x[k % order];
        least(product, mended.low[k], mended.high[k])
    });
    let terms =
        (0..order).map(|k| least(2 * p * x[k], problem.linear_low[k], problem.linear_high[k]));
    let value: i128 = entries.chain(terms).sum();
    i64::try_from(-(-value).div_euclid(p * p)).expect("a point near 0 needs no great limit")
}

/// A problem of up to this size that allows a point, and with no smaller limit would not. Its
/// slope at the point is small, so that a box around it is not far.
fn allowing(generator: &mut Generator, size: i64, (x, p): (&[i128], i128)) -> RawProblem {
    let order = x.len();
    let mut problem = generator.problem(ProblemKind::Definite, order, size % 2 == 1);
    let greatest = problem.high.iter().map(|entry| entry.abs()).max();
    let scale = (size / greatest.unwrap_or(1).max(1)).max(1);
    for entry in problem.low.iter_mut().chain(&mut problem.high) {
        *entry = (*entry * scale).clamp(-ENTRY_RANGE, ENTRY_RANGE);
    }
    let slope = |row: &[i64]| -> i64 {
        let terms = row.iter().zip(x).map(|(entry, x)| i128::from(*entry) * x);
        (terms.sum::<i128>() / p) as i64
    };
    problem.linear_low = problem.low.chunks(order).map(|row| -slope(row)).collect();
    problem.linear_high = problem
        .linear_low
        .iter()
        .map(|term| term + size % 3)
        .collect();
    problem.limit = least_limit(&problem, (x, p));
    problem
}

/// The problem that the library reads from sums that it has left.
fn read(after: &[Vec<u8>], order: usize, allowance: i64, centre: Vec<i64>) -> RawProblem {
    let bytes: [Vec<u8>; 4] = std::array::from_fn(|place| after[place].clone());
    let [low, high, linear_low, linear_high] = std::array::from_fn(|place| numbers(&after[place]));
    let limit = read_sums::given(order as i64, bytes, numbers(&after[4])[0], allowance);
    RawProblem {
        order,
        low,
        high,
        linear_low,
        linear_high,
        limit: limit.expect("the sums are read"),
        centre,
    }
}

/// D3.10, by the box: a point that all problems allow, and the sums with K, is in each box
/// that the pool is given with K, and the pool is not empty.
#[test]
fn the_points_that_all_problems_allow_are_in_the_box() {
    let (mut generator, mut random) = (Generator::new(147), Random::new(148));
    let (mut boxes, mut of_halves) = (0, 0);
    for round in 0..3000 {
        let order = 1 + round % 8;
        let (x, p) = point(order, &mut random);
        let allowance = random.pick(&[0, 0, 9, 1 << 20]);
        let mut draw = || {
            let size = random.pick(&[10, 1001, HALF - 9, HALF]);
            allowing(&mut generator, size, (&x, p))
        };
        let mut raw = RawPool {
            sums: draw(),
            problems: (0..1 + round % 7).map(|_| draw()).collect(),
        };
        raw.sums.limit -= allowance;
        let call = call_of(&raw);
        let answer = POOL.agree(&call, round % 8).answer;
        if answer == REFUSED_FULL {
            continue;
        }
        assert_eq!(answer, TAKEN, "{raw:?}");
        let centre = x.iter().map(|entry| (entry / p) as i64).collect();
        let problem = read(&POOL.given(&call).1, order, allowance, centre);
        let (answer, sides) = BOX.given(&problem_call(&problem));
        assert_ne!(answer, EMPTY, "{raw:?}");
        if answer != BOX_GIVEN {
            continue;
        }
        for (entry, side) in x.iter().zip(numbers(&sides[SIDES]).chunks(2)) {
            let [low, high] = [side[0], side[1]].map(|end| p * i128::from(end));
            assert!((low..=high).contains(entry), "{raw:?} {x:?} over {p}");
        }
        boxes += 1;
        let mut problems = raw.problems.iter().map(RawProblem::mended);
        let plain = problems.try_fold(raw.sums.mended(), |sums, one| with(&sums, &one));
        of_halves += usize::from(plain.is_none());
    }
    println!("{boxes} boxes hold their points, {of_halves} of halved sums");
    assert!(boxes > 1000 && of_halves > 300, "{boxes} {of_halves}");
}
