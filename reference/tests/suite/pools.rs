//! Halving and pooling (R23.5, R23.6, R27): by another route, at every place where a check
//! can fail, and what both mean for points (D3.10).

use hankboulder_reference::generate::{Generator, PoolCall, RawPool, RawProblem};
use hankboulder_reference::pool::{add_all, pool, Lists};
use hankboulder_reference::random::Random;
use hankboulder_reference::sums::{LentSums, Sums};

use crate::support::{bytes, numbers, run_pool};

const ENTRY: i64 = 1 << 20;
const LINEAR: i64 = 1 << 36;
const LIMIT: i64 = 1 << 54;

/// The sums that a call of pooling leaves, as numbers.
fn sums_of(call: &PoolCall) -> RawProblem {
    RawProblem {
        order: call.n as usize,
        low: numbers(&call.low),
        high: numbers(&call.high),
        linear_low: numbers(&call.linear_low),
        linear_high: numbers(&call.linear_high),
        limit: numbers(&call.running_limit)[0],
        centre: vec![0; call.n as usize],
    }
}

/// The answer of pooling over bytes, and the sums after it. A refusal keeps them.
fn pooled(raw: &RawPool) -> (i64, RawProblem) {
    let before = raw.call();
    let mut after = before.clone();
    let answer = run_pool(&mut after);
    assert!(answer == 0 || after == before, "refusal {answer} wrote");
    let mut sums = sums_of(&after);
    sums.centre.clone_from(&raw.sums.centre);
    (answer, sums)
}

/// A pool of so many problems of zeros, into zeros.
fn zeros(order: usize, count: usize) -> RawPool {
    RawPool {
        sums: RawProblem::zeros(order),
        problems: vec![RawProblem::zeros(order); count],
    }
}

/// Worked by hand, with halves apart in the sums and in both problems.
#[test]
fn a_pool_worked_by_hand() {
    let mut raw = zeros(2, 2);
    raw.sums.low = vec![ENTRY - 3, -7, -9, 1];
    raw.sums.high = vec![ENTRY, 8, 5, 3];
    raw.sums.linear_low = vec![-5, 2];
    raw.sums.linear_high = vec![-1, 7];
    raw.sums.limit = -9;
    let [one, other] = &mut raw.problems[..] else {
        unreachable!("two problems");
    };
    // Fits: L(1,1) = ENTRY − 3, U(1,1) = ENTRY
    one.low = vec![0, -1, -2, 4];
    one.high = vec![0, 2, 0, 4];
    one.linear_low = vec![-1, 1];
    one.linear_high = vec![-1, 2];
    one.limit = 4;
    // L = [ENTRY−3 −8; −8 5], U = [ENTRY 5; 5 7], a from (−6, 3) to (−2, 9), running limit −5
    other.low = vec![1, 0, 0, 0];
    other.high = vec![1, 0, 0, 0];
    other.limit = 100;
    let (answer, after) = pooled(&raw);
    assert_eq!(answer, 0);
    assert_eq!(after.low, [ENTRY / 2 - 2 + 1, -4, -4, 2]);
    assert_eq!(after.high, [ENTRY / 2 + 1, 3, 3, 4]);
    assert_eq!(after.linear_low, [-3, 1]);
    assert_eq!(after.linear_high, [-1, 5]);
    assert_eq!(after.limit, -2 + 100);
}

/// Halves by a shift of bits, which rounds down.
fn half_down(sum: &i64) -> i64 {
    sum >> 1
}

fn half_up(sum: &i64) -> i64 {
    -(-sum >> 1)
}

fn halves(sums: &RawProblem) -> RawProblem {
    RawProblem {
        low: sums.low.iter().map(half_down).collect(),
        high: sums.high.iter().map(half_up).collect(),
        linear_low: sums.linear_low.iter().map(half_down).collect(),
        linear_high: sums.linear_high.iter().map(half_up).collect(),
        limit: half_up(&sums.limit),
        ..sums.clone()
    }
}

/// The sums with a problem in them, where all are in their ranges.
fn with(sums: &RawProblem, problem: &RawProblem) -> Option<RawProblem> {
    let totals = |one: &[i64], other: &[i64], range: i64| -> Option<Vec<i64>> {
        let sums = one.iter().zip(other).map(|(sum, more)| sum + more);
        sums.map(|sum| (sum.abs() <= range).then_some(sum))
            .collect()
    };
    Some(RawProblem {
        low: totals(&sums.low, &problem.low, ENTRY)?,
        high: totals(&sums.high, &problem.high, ENTRY)?,
        linear_low: totals(&sums.linear_low, &problem.linear_low, LINEAR)?,
        linear_high: totals(&sums.linear_high, &problem.linear_high, LINEAR)?,
        limit: totals(&[sums.limit], &[problem.limit], LIMIT)?[0],
        ..sums.clone()
    })
}

/// Pooling by another route: the sums, and how often they were halved.
fn pooled_plainly(raw: &RawPool) -> Option<(RawProblem, usize)> {
    let mut sums = raw.sums.mended();
    let mut halved = 0;
    for problem in raw.problems.iter().map(RawProblem::mended) {
        sums = match with(&sums, &problem) {
            Some(next) => next,
            None => {
                halved += 1;
                with(&halves(&sums), &problem)?
            }
        };
    }
    Some((sums, halved))
}

#[test]
fn pools_agree_with_another_route() {
    let mut generator = Generator::new(91);
    let mut counts = [0; 4];
    for _ in 0..6000 {
        let raw = generator.pool();
        let (answer, after) = pooled(&raw);
        match pooled_plainly(&raw) {
            Some((sums, halved)) => {
                assert_eq!((answer, after), (0, sums), "{raw:?}");
                counts[halved.min(2)] += 1;
            }
            None => {
                assert_eq!((answer, after), (18, raw.sums.clone()), "{raw:?}");
                counts[3] += 1;
            }
        }
    }
    assert!(counts.iter().all(|count| *count > 400), "{counts:?}");
}

/// A pool leaves what its problems leave that are pooled one by one, and is refused by 18
/// where one of them is; then it leaves the sums as they were.
#[test]
fn a_pool_is_its_problems_one_by_one() {
    let mut generator = Generator::new(92);
    let (mut taken, mut full) = (0, 0);
    for _ in 0..3000 {
        let raw = generator.pool();
        let (answer, after) = pooled(&raw);
        let mut sums = raw.sums.clone();
        let mut single = 0;
        for problem in &raw.problems {
            let one = RawPool {
                sums,
                problems: vec![problem.clone()],
            };
            (single, sums) = pooled(&one);
            if single != 0 {
                break;
            }
        }
        assert_eq!(answer, single, "{raw:?}");
        assert_eq!(after, if answer == 0 { sums } else { raw.sums });
        taken += usize::from(answer == 0);
        full += usize::from(answer == 18);
    }
    assert!(taken > 1000 && full > 200, "{taken} {full}");
}

/// The buffers of a call as numbers, where all have whole ones.
fn whole_numbers(call: &PoolCall) -> Option<[Vec<i64>; 11]> {
    let buffers = [
        &call.low,
        &call.high,
        &call.linear_low,
        &call.linear_high,
        &call.running_limit,
        &call.orders,
        &call.lows,
        &call.highs,
        &call.linear_lows,
        &call.linear_highs,
        &call.limits,
    ];
    let whole = buffers.iter().all(|buffer| buffer.len().is_multiple_of(8));
    whole.then(|| buffers.map(|buffer| numbers(buffer)))
}

/// Over numbers the act is the one over bytes.
#[test]
fn pooling_numbers_is_pooling_bytes() {
    let mut generator = Generator::new(93);
    let mut compared = 0;
    for _ in 0..2000 {
        let mut call = generator.pool_call();
        let Some(lists) = whole_numbers(&call) else {
            continue;
        };
        let [mut low, mut high, mut least, mut most, mut running, rest @ ..] = lists;
        let [orders, lows, highs, leasts, mosts, limits] = &rest;
        let sums = LentSums {
            low: &mut low,
            high: &mut high,
            linear_low: &mut least,
            linear_high: &mut most,
            running_limit: &mut running,
        };
        let lists = Lists {
            orders,
            lows,
            highs,
            linear_lows: leasts,
            linear_highs: mosts,
            limits,
        };
        let answer = pool(call.n, sums, &lists).map_or_else(|r| r.number(), |()| 0);
        assert_eq!(answer, run_pool(&mut call), "{call:?}");
        let left = whole_numbers(&call).expect("sizes stay");
        assert_eq!([low, high, least, most, running][..], left[..5]);
        compared += 1;
    }
    assert!(compared > 1500, "{compared}");
}

/// Each way to halve sums at either end of a range, odd numbers and negative ones.
#[test]
fn halves_at_the_ends_of_the_ranges() {
    for (sum, down, up) in [
        (0, 0, 0),
        (1, 0, 1),
        (-1, -1, 0),
        (2, 1, 1),
        (-2, -1, -1),
        (7, 3, 4),
        (-7, -4, -3),
        (ENTRY, 524_288, 524_288),
        (-ENTRY, -524_288, -524_288),
        (ENTRY - 1, 524_287, 524_288),
        (1 - ENTRY, -524_288, -524_287),
    ] {
        let [sum, down, up] = [sum, down, up].map(i128::from);
        let sums = Sums {
            low: vec![sum],
            high: vec![sum],
            linear_low: vec![sum],
            linear_high: vec![sum],
            running_limit: sum,
        };
        let expected = Sums {
            low: vec![down],
            high: vec![up],
            linear_low: vec![down],
            linear_high: vec![up],
            running_limit: up,
        };
        assert_eq!(sums.halved(), expected, "{sum}");
    }
}

/// p² times the least x'Mx + 2a'x that a member and linear terms between the ends have at
/// x = X/p: each pair and each term counts with the end that makes it least.
fn least(sums: &Sums, x: &[i128], p: i128) -> i128 {
    let n = x.len();
    let mut total = 0;
    for place in 0..n * n {
        let product = x[place / n] * x[place % n];
        total += (product * sums.low[place]).min(product * sums.high[place]);
    }
    for (k, number) in x.iter().enumerate() {
        let (low, high) = (sums.linear_low[k], sums.linear_high[k]);
        total += 2 * p * (number * low).min(number * high);
    }
    total
}

/// The least whole limit with which x is a point (R3.6).
fn least_limit(sums: &Sums, x: &[i128], p: i128) -> i128 {
    -(-least(sums, x, p)).div_euclid(p * p)
}

/// A point of fractions.
fn point(order: usize, random: &mut Random) -> (Vec<i128>, i128) {
    let p = random.pick(&[1, 1, 2, 3, 7]);
    let size = random.pick(&[1, 1, 3, 40]);
    let entry = |_| i128::from(random.within(size * p));
    ((0..order).map(entry).collect(), i128::from(p))
}

/// What the sums explain at a point, u over p² with u from 0 up (R23.3), the halves explain
/// there: of points on the rim, beside it and far from it.
#[test]
fn halving_keeps_every_point_explained() {
    let mut generator = Generator::new(94);
    let mut random = Random::new(95);
    let mut tight = 0;
    for _ in 0..40_000 {
        let order = random.between(1, 8) as usize;
        let mut sums = generator.pooling_sums(order).as_sums();
        let (x, p) = point(order, &mut random);
        if !random.one_in(4) {
            let rim = least_limit(&sums, &x, p) + i128::from(random.within(1));
            sums.running_limit = rim;
        }
        let half = sums.halved();
        // The least u that is explained, and 0 or more
        let explained = (least(&sums, &x, p) - p * p * sums.running_limit).max(0);
        let room = explained + p * p * half.running_limit - least(&half, &x, p);
        assert!(room >= 0, "{sums:?} at {x:?} over {p}");
        tight += usize::from(room < p * p);
    }
    assert!(tight > 3000, "{tight}");
}

/// A limit, as near as its range allows.
fn clamped(limit: i128) -> i64 {
    let range = i128::from(LIMIT);
    limit.clamp(-range, range) as i64
}

/// D3.10: a point of every problem, and of what the sums give with K, is one of what they
/// give with K after the pool. The problems' limits are the least that allow the point, or
/// a little more.
#[test]
fn a_pool_holds_each_point_that_its_problems_and_the_sums_allow() {
    let mut generator = Generator::new(96);
    let mut random = Random::new(97);
    let (mut by_halves, mut tight) = (0, 0);
    for _ in 0..12_000 {
        let mut raw = generator.pool();
        let (x, p) = point(raw.sums.order, &mut random);
        let more = i128::from(random.one_in(6));
        for problem in &mut raw.problems {
            problem.limit = clamped(least_limit(&problem.as_sums(), &x, p) + more);
        }
        let allowance = random.pick(&[0, 0, 1, 1_i128 << 40]);
        if random.one_in(2) {
            // The sums allow the point, too, and no less.
            raw.sums.limit = clamped(least_limit(&raw.sums.as_sums(), &x, p) - allowance);
        }
        let before = raw.sums.as_sums();
        let problems: Vec<Sums> = raw.problems.iter().map(RawProblem::as_sums).collect();
        let room = |sums: &Sums| p * p * sums.running_limit - least(sums, &x, p);
        let (answer, after) = pooled(&raw);
        if answer != 0 || problems.iter().any(|problem| room(problem) < 0) {
            continue;
        }
        let after = room(&after.as_sums());
        // What is explained before it, of at least 0, is explained after it.
        let explained = (-room(&before)).max(0);
        assert!(explained + after >= 0, "{raw:?} at {x:?} over {p}");
        tight += usize::from(explained + after < p * p);
        let allowed = p * p * allowance;
        let kept = room(&before) + allowed < 0 || after + allowed >= 0;
        assert!(kept, "{raw:?} at {x:?} over {p}");
        by_halves += usize::from(add_all(before, &problems).halved.contains(&true));
    }
    assert!(by_halves > 2000 && tight > 1000, "{by_halves} {tight}");
}

#[test]
fn counts_of_problems_at_every_order() {
    for order in 1..=8 {
        for count in [1, 2, 3, 32, 63, 64] {
            assert_eq!(pooled(&zeros(order, count)).0, 0, "{count} of {order}");
        }
        for count in [0, 65, 66, 128, 256 + 1] {
            let call = zeros(order, count).call();
            for number in [order as i64, 0, 9, i64::MIN] {
                let mut other = call.clone();
                other.orders = bytes(&vec![number; count]);
                let before = other.clone();
                assert_eq!(run_pool(&mut other), 2, "{count} of {order}, {number}");
                other.n = 9;
                assert_eq!(run_pool(&mut other), 1);
                other.n = before.n;
                assert_eq!(other, before);
            }
        }
    }
}

/// Lists of orders that are no whole numbers: 2, whatever stands in them.
#[test]
fn lengths_of_the_list_of_orders() {
    for (count, length, answer) in [
        (1, 0, 2),
        (1, 7, 2),
        (1, 8, 0),
        (1, 9, 2),
        (1, 15, 2),
        (64, 504, 2),
        (64, 511, 2),
        (64, 512, 0),
        (64, 513, 2),
        (64, 519, 2),
        (64, 520, 2),
    ] {
        for number in [3, 9] {
            let mut call = zeros(3, count).call();
            call.orders = bytes(&[number; 66]);
            call.orders.truncate(length);
            // In whole numbers from 1 to 64 of them, an order that is none comes before.
            let whole = [8, 504, 512].contains(&length);
            let expected = if number == 9 && whole { 1 } else { answer };
            assert_eq!(run_pool(&mut call), expected, "{count}, {length}, {number}");
        }
    }
}

#[test]
fn orders_in_the_list_that_are_others_or_none() {
    for (n, count) in (1..=8).flat_map(|n| [(n, 1), (n, 2), (n, 64)]) {
        for place in [0, count / 2, count - 1] {
            let with = |number: i64| {
                let mut call = zeros(n, count).call();
                let mut orders = vec![n as i64; count];
                orders[place] = number;
                call.orders = bytes(&orders);
                run_pool(&mut call)
            };
            for other in 1..=8 {
                assert_eq!(with(other), if other == n as i64 { 0 } else { 2 });
            }
            for none in [
                0,
                -1,
                9,
                256 + n as i64,
                (1 << 32) + n as i64,
                i64::MIN,
                i64::MAX,
            ] {
                assert_eq!(with(none), 1, "{none}");
            }
        }
    }
}

/// The buffers of a call, the list of orders aside.
fn buffers(call: &mut PoolCall) -> [&mut Vec<u8>; 10] {
    [
        &mut call.low,
        &mut call.high,
        &mut call.linear_low,
        &mut call.linear_high,
        &mut call.running_limit,
        &mut call.lows,
        &mut call.highs,
        &mut call.linear_lows,
        &mut call.linear_highs,
        &mut call.limits,
    ]
}

#[test]
fn refusal_2_for_every_other_size_of_every_buffer() {
    for (order, count) in (1..=8).flat_map(|n| [(n, 1), (n, 2), (n, 64)]) {
        let good = zeros(order, count).call();
        for place in 0..10 {
            let size = buffers(&mut good.clone())[place].len();
            for length in [0, size - 8, size - 1, size + 1, size + 8, 2 * size + 8] {
                let mut call = good.clone();
                buffers(&mut call)[place].resize(length, 0);
                let before = call.clone();
                assert_eq!(run_pool(&mut call), if length == size { 0 } else { 2 });
                assert_eq!(call, before);
                // An order that is none comes before it, of n and in the list.
                call.orders[8 * (count - 1)] = 9;
                assert_eq!(run_pool(&mut call), 1);
                call.orders.clone_from(&before.orders);
                call.n = 0;
                assert_eq!(run_pool(&mut call), 1);
            }
        }
    }
}

/// The sums, or problem k.
fn part(raw: &mut RawPool, place: Option<usize>) -> &mut RawProblem {
    match place {
        None => &mut raw.sums,
        Some(k) => &mut raw.problems[k],
    }
}

/// Puts a fault that check 3, 4, 5 or 16 refuses, at places of their own.
fn put_fault(problem: &mut RawProblem, fault: i64) {
    match fault {
        3 => problem.limit = -LIMIT - 1,
        4 => (problem.low[4], problem.high[4]) = (1, 0),
        5 => (problem.low[1], problem.high[1]) = (3, 3),
        16 => (problem.linear_low[2], problem.linear_high[2]) = (0, -1),
        _ => unreachable!(),
    }
}

/// Two faults, each in the sums, the first, a middle or the last problem: the check that
/// comes first is answered, whichever problem fails it.
#[test]
fn checks_go_number_by_number_over_sums_and_problems() {
    let places = [None, Some(0), Some(1), Some(2)];
    let checks = [3, 4, 5, 16];
    let pairs = || {
        places
            .into_iter()
            .flat_map(|p| checks.map(|check| (p, check)))
    };
    for (one, other) in pairs().flat_map(|one| pairs().map(move |other| (one, other))) {
        let mut raw = zeros(3, 3);
        // 18 would refuse, besides.
        raw.sums.low[0] = ENTRY;
        raw.sums.high[0] = ENTRY;
        (raw.problems[0].low[0], raw.problems[0].high[0]) = (ENTRY, ENTRY);
        assert_eq!(pooled(&raw).0, 18);
        put_fault(part(&mut raw, one.0), one.1);
        put_fault(part(&mut raw, other.0), other.1);
        let first = checks.iter().find(|c| [one.1, other.1].contains(c));
        assert_eq!(pooled(&raw).0, *first.unwrap(), "{one:?} {other:?}");
    }
}

/// 3 of every number at every place, 4 and 5 of every pair, 16 of every term, of the sums and
/// of the first, a middle and the last problem.
#[test]
fn refusals_at_every_place() {
    for n in [1, 2, 3, 8] {
        for place in [None, Some(0), Some(1), Some(2)] {
            let expect = |answer: i64, put: &dyn Fn(&mut RawProblem)| {
                let mut raw = zeros(n, 3);
                put(part(&mut raw, place));
                assert_eq!(pooled(&raw).0, answer, "order {n}, {place:?}");
            };
            for (beyond, k) in [-1, 1]
                .into_iter()
                .flat_map(|s| (0..n * n).map(move |k| (s, k)))
            {
                expect(3, &|one| one.low[k] = beyond * (ENTRY + 1));
                expect(3, &|one| one.high[k] = beyond * (ENTRY + 1));
                expect(4, &|one| (one.low[k], one.high[k]) = (beyond, beyond - 1));
                if k / n != k % n {
                    expect(5, &|one| (one.low[k], one.high[k]) = (beyond, beyond));
                }
            }
            for (beyond, k) in [-1, 1]
                .into_iter()
                .flat_map(|s| (0..n).map(move |k| (s, k)))
            {
                expect(3, &|one| one.linear_low[k] = beyond * (LINEAR + 1));
                expect(3, &|one| one.linear_high[k] = beyond * (LINEAR + 1));
                expect(16, &|one| {
                    (one.linear_low[k], one.linear_high[k]) = (beyond, beyond - 1)
                });
            }
            for limit in [-LIMIT - 1, LIMIT + 1, i64::MIN, i64::MAX] {
                expect(3, &|one| one.limit = limit);
            }
        }
    }
}

/// What a pool of order 1 of thin [m] leaves of thin sums.
fn left(sum: i64, problems: &[i64]) -> Result<i64, i64> {
    let mut raw = zeros(1, problems.len());
    (raw.sums.low[0], raw.sums.high[0]) = (sum, sum);
    for (problem, m) in raw.problems.iter_mut().zip(problems) {
        (problem.low[0], problem.high[0]) = (*m, *m);
    }
    let (answer, after) = pooled(&raw);
    if answer == 0 {
        assert_eq!(after.low, after.high, "even numbers alone are halved");
        Ok(after.low[0])
    } else {
        Err(answer)
    }
}

#[test]
fn halvings_in_a_row_and_18_behind_them() {
    // Each halves: 2^20 to 2^19 + 2^19 and again.
    assert_eq!(left(ENTRY, &[ENTRY / 2; 64]), Ok(ENTRY));
    assert_eq!(left(-ENTRY, &[-ENTRY / 2; 64]), Ok(-ENTRY));
    // The sums have room in between.
    assert_eq!(left(ENTRY, &[2, ENTRY / 2 - 2, 2]), Ok(ENTRY / 2 + 2));
    // One more than half has room for
    assert_eq!(left(ENTRY, &[ENTRY / 2 + 1]), Err(18));
    assert_eq!(left(ENTRY, &[ENTRY / 2, ENTRY / 2, ENTRY / 2 + 1]), Err(18));
    assert_eq!(left(-ENTRY, &[0, -ENTRY / 2 - 1, 0]), Err(18));
    // A problem at the other end brings them back, and nothing is halved.
    assert_eq!(left(ENTRY, &[-ENTRY, ENTRY]), Ok(ENTRY));
    // The order of the problems counts.
    assert_eq!(left(ENTRY, &[2, -2]), Ok(ENTRY / 2));
    assert_eq!(left(ENTRY, &[-2, 2]), Ok(ENTRY));
}

/// 18 of every kind of sum alone, at either end, where the half has room and where it has
/// room for one less.
#[test]
fn refusal_18_of_every_sum() {
    type Put = fn(&mut RawProblem, i64);
    let slots: [(Put, i64); 6] = [
        (
            |one, number| (one.low[0], one.high[0]) = (number, number),
            ENTRY,
        ),
        (|one, number| one.high[0] = number.max(0), ENTRY),
        (|one, number| one.low[0] = number.min(0), -ENTRY),
        (|one, number| one.linear_high[0] = number.max(0), LINEAR),
        (|one, number| one.linear_low[0] = number.min(0), -LINEAR),
        (|one, number| one.limit = number, -LIMIT),
    ];
    for ((put, end), place) in slots
        .into_iter()
        .flat_map(|slot| (0..3).map(move |k| (slot, k)))
    {
        for (more, answer) in [(end / 2, 0), (end / 2 + end.signum(), 18)] {
            let mut raw = zeros(1, 3);
            put(&mut raw.sums, end);
            put(&mut raw.problems[place], more);
            assert_eq!(pooled(&raw).0, answer, "{end}, {place}");
        }
    }
}
