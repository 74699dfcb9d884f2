//! Linear terms with two ends: wide, equal and reversed ones at every order, one
//! buffer lent as both, and the points of every a between the ends.

use hankboulder_compare::enclosure::BOX;
use hankboulder_compare::{bytes, numbers, Call, Lent};
use hankboulder_reference::generate::{Generator, Point, ProblemKind, RawProblem, KINDS};
use hankboulder_reference::random::Random;

use crate::support::{problem_call, square, LINEAR_HIGH, LINEAR_LOW, SIDES};

const BOX_GIVEN: i64 = 0;
const EMPTY: i64 = -1;
const REFUSED_RANGE: i64 = 3;
const REFUSED_LOPSIDED: i64 = 5;
const REFUSED_FLAT: i64 = 8;
const REFUSED_FAR: i64 = 9;
const REFUSED_REVERSED: i64 = 16;

const LINEAR_RANGE: i64 = 1 << 36;
const LIMIT_RANGE: i128 = 1 << 54;
const GRADIENT_RANGE: i64 = 1 << 20;

/// The problem of 4 on the diagonal, with ends 0, limit 0 and centre 0.
fn even(order: usize) -> RawProblem {
    let (table, zeros) = (square(order, 4, 0), vec![0; order]);
    RawProblem {
        order,
        low: table.clone(),
        high: table,
        linear_low: zeros.clone(),
        linear_high: zeros.clone(),
        limit: 0,
        centre: zeros,
    }
}

/// [4] with these ends.
fn of_order_1(least: i64, most: i64, limit: i64, centre: i64) -> RawProblem {
    RawProblem {
        linear_low: vec![least],
        linear_high: vec![most],
        limit,
        centre: vec![centre],
        ..even(1)
    }
}

/// Fails where the library or the reference answers otherwise, or writes.
fn expect(problem: &RawProblem, answer: i64) {
    let call = problem_call(problem);
    BOX.expect(&call, answer);
    BOX.agree(&call, 3);
}

/// Fails where the library or the reference does not write these sides.
fn expect_sides(problem: &RawProblem, sides: &[i64]) {
    let call = problem_call(problem);
    let mut after = call.buffers.clone();
    after[SIDES] = bytes(sides);
    BOX.expect_after(&call, BOX_GIVEN, &after);
    BOX.agree(&call, 3);
}

fn places() -> impl Iterator<Item = (usize, usize)> {
    (1..=8).flat_map(|order| (0..order).map(move |k| (order, k)))
}

/// W24 to W30, of which the last is the mirror image of W25
#[test]
fn the_listed_ends() {
    expect_sides(&of_order_1(-4, 4, 0, 0), &[-4, 4]);
    expect_sides(&of_order_1(-8, -4, 0, 2), &[-3, 7]);
    expect_sides(&of_order_1(4, 8, 0, -2), &[-7, 3]);
    expect(&of_order_1(-1, 1, -3, 0), EMPTY);
    expect(&of_order_1(1, 0, 0, 0), REFUSED_REVERSED);
    let flat = RawProblem {
        low: vec![1],
        high: vec![1],
        ..of_order_1(1, 0, 0, 0)
    };
    expect(&flat, REFUSED_REVERSED);
    let lopsided = RawProblem {
        low: vec![1, 2, 3, 4],
        high: vec![1, 2, 3, 4],
        linear_low: vec![1, 0],
        ..even(2)
    };
    expect(&lopsided, REFUSED_LOPSIDED);
}

#[test]
fn refusal_16_at_every_place() {
    for (order, k) in places() {
        for (least, most) in [(1, 0), (0, -1), (LINEAR_RANGE, -LINEAR_RANGE)] {
            let mut problem = even(order);
            problem.linear_low[k] = least;
            problem.linear_high[k] = most;
            expect(&problem, REFUSED_REVERSED);
            // It comes before 8,
            problem.low[0] = 1;
            problem.high[0] = 1;
            expect(&problem, REFUSED_REVERSED);
            // and 3 before it.
            problem.limit = i64::MIN;
            expect(&problem, REFUSED_RANGE);
        }
    }
}

#[test]
fn the_ends_of_their_range_pass_3_and_16() {
    for (order, k) in places() {
        for (least, most, answer) in [
            (-LINEAR_RANGE, LINEAR_RANGE, REFUSED_FAR),
            (LINEAR_RANGE, LINEAR_RANGE, REFUSED_FAR),
            (-LINEAR_RANGE, -LINEAR_RANGE, REFUSED_FAR),
            (-LINEAR_RANGE - 1, LINEAR_RANGE, REFUSED_RANGE),
            (-LINEAR_RANGE, LINEAR_RANGE + 1, REFUSED_RANGE),
            (LINEAR_RANGE + 1, -LINEAR_RANGE, REFUSED_RANGE),
            (i64::MIN, i64::MAX, REFUSED_RANGE),
        ] {
            let mut problem = even(order);
            problem.linear_low[k] = least;
            problem.linear_high[k] = most;
            expect(&problem, answer);
        }
    }
}

/// g(k) takes the end that is farther from 0, whichever it is.
#[test]
fn refusal_9_by_either_end() {
    for (order, k) in places() {
        for (least, most, answer) in [
            (-GRADIENT_RANGE, GRADIENT_RANGE, BOX_GIVEN),
            (-GRADIENT_RANGE - 1, GRADIENT_RANGE, REFUSED_FAR),
            (-GRADIENT_RANGE, GRADIENT_RANGE + 1, REFUSED_FAR),
            (0, GRADIENT_RANGE, BOX_GIVEN),
            (-GRADIENT_RANGE - 1, 0, REFUSED_FAR),
        ] {
            let mut problem = even(order);
            problem.linear_low[k] = least;
            problem.linear_high[k] = most;
            assert_eq!(BOX.agree(&problem_call(&problem), k).answer, answer);
        }
    }
}

/// What the library answers and writes where one buffer is lent as both ends.
fn of_one_buffer(call: &Call) -> (i64, Vec<u8>) {
    let mut buffers = call.buffers.clone();
    let mut lent: Vec<Lent> = buffers
        .iter_mut()
        .map(|buffer| Lent {
            pointer: buffer.as_mut_ptr(),
            length: buffer.len(),
        })
        .collect();
    lent[LINEAR_HIGH] = lent[LINEAR_LOW];
    let answer = (BOX.library)(call, &lent);
    let before = &call.buffers;
    assert_eq!(buffers[..SIDES], before[..SIDES], "an input was written");
    (answer, buffers.swap_remove(SIDES))
}

#[test]
fn one_buffer_may_be_both_ends() {
    let mut generator = Generator::new(91);
    let mut met = [0; 4];
    for (order, kind) in (1..=8).flat_map(|order| KINDS.map(|kind| (order, kind))) {
        for round in 0..60 {
            let mut problem = generator.problem(kind, order, round % 2 == 1);
            problem.linear_high = problem.linear_low.clone();
            let call = problem_call(&problem);
            let outcome = BOX.agree(&call, round % 8);
            let (given, buffers) = BOX.given(&call);
            assert_eq!(given, outcome.answer);
            assert_eq!(of_one_buffer(&call), (given, buffers[SIDES].clone()));
            let answers = [BOX_GIVEN, EMPTY, REFUSED_FLAT, REFUSED_FAR];
            met[answers.iter().position(|answer| *answer == given).unwrap()] += 1;
        }
    }
    assert!(met.iter().all(|count| *count > 50), "{met:?}");
}

/// A definite problem with ends up to some width apart, also none.
fn definite(generator: &mut Generator, random: &mut Random, order: usize) -> RawProblem {
    let mut problem = generator.problem(ProblemKind::Definite, order, random.one_in(2));
    let width = random.pick(&[0, 1, 30, 4000]);
    for k in 0..order {
        let term = problem.linear_low[k];
        problem.linear_high[k] = (term + random.between(0, width)).min(LINEAR_RANGE);
    }
    problem
}

/// The library's answer and its sides.
fn given(problem: &RawProblem) -> (i64, Vec<i64>) {
    let (answer, buffers) = BOX.given(&problem_call(problem));
    (answer, numbers(&buffers[SIDES]))
}

/// Points at the edge of the ellipsoid of random members and random linear terms
/// between the ends. The limit is the one that just allows for a point, or that
/// of the problem.
#[test]
fn points_of_every_ellipsoid_between_the_ends_lie_inside() {
    let (mut generator, mut random) = (Generator::new(92), Random::new(93));
    for order in 1..=8 {
        let mut held = 0;
        for round in 0..1200 {
            let mut problem = definite(&mut generator, &mut random, order);
            let mut point = generator.point_near(&problem);
            if round % 3 > 0 {
                point.lower();
            }
            let least = point.least_limit();
            if round % 2 == 0 && least.abs() <= LIMIT_RANGE {
                problem.limit = least as i64;
            }
            let limit = i128::from(problem.limit);
            let (answer, sides) = given(&problem);
            if least > limit || answer > 0 {
                continue;
            }
            assert_eq!(answer, BOX_GIVEN, "{problem:?} {point:?}");
            point.go_outward(limit, &mut random);
            assert!(point.least_limit() <= limit);
            assert!(point.is_in(&sides), "{problem:?} {point:?}");
            held += 1;
        }
        println!("order {order}: {held} points in their boxes");
        assert!(held > 250, "order {order}: {held}");
    }
}

/// Where the library says 'empty', the lowest points of random members and
/// random linear terms between the ends are above the limit.
#[test]
fn an_empty_ellipsoid_has_no_point_for_any_terms_between_the_ends() {
    let (mut generator, mut random) = (Generator::new(94), Random::new(95));
    for order in 1..=8 {
        let mut empty = 0;
        for _ in 0..800 {
            let mut problem = definite(&mut generator, &mut random, order);
            let lowest = (0..8).map(|_| {
                let mut point = generator.point_near(&problem);
                point.lower();
                point
            });
            let lowest: Vec<Point> = lowest.collect();
            let least = lowest.iter().map(Point::least_limit).min().unwrap();
            let below = random.pick(&[1, 20, 1 << 16, 1 << 30]);
            let limit = least - i128::from(random.between(0, below));
            if limit.abs() > LIMIT_RANGE {
                continue;
            }
            problem.limit = limit as i64;
            if given(&problem).0 == EMPTY {
                assert!(least > limit, "{problem:?} {lowest:?}");
                empty += 1;
            }
        }
        println!("order {order}: {empty} empty ones");
        assert!(empty > 25, "order {order}: {empty}");
    }
}
