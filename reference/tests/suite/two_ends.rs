//! Linear terms with two ends: what a box says of every a between them.

use hankboulder_reference::generate::{Generator, Point, ProblemKind, RawProblem, KINDS};
use hankboulder_reference::random::Random;

use crate::support::{enclose, enclose_problem, quadratic_form};

/// The problem with its linear terms at chosen ends: bit k of `chosen` says
/// whether term k is at its high one.
fn at_ends(problem: &RawProblem, chosen: usize) -> RawProblem {
    let end = |k: usize| match chosen >> k & 1 {
        0 => problem.linear_low[k],
        _ => problem.linear_high[k],
    };
    let linear: Vec<i64> = (0..problem.order).map(end).collect();
    RawProblem {
        linear_low: linear.clone(),
        linear_high: linear,
        ..problem.clone()
    }
}

/// Problems of every kind and order whose ends are not all equal.
fn wide_problems(seed: u64, rounds: usize) -> Vec<RawProblem> {
    let mut generator = Generator::new(seed);
    let mut list = vec![];
    for (order, kind) in (1..=8).flat_map(|order| KINDS.map(|kind| (order, kind))) {
        let drawn = (0..rounds).map(|round| generator.problem(kind, order, round % 2 == 1));
        list.extend(drawn.filter(|problem| problem.linear_low != problem.linear_high));
    }
    list
}

/// A box of two ends contains the boxes of both, and of all that have one end or
/// the other in each place; where it is empty, so are they.
#[test]
fn a_box_of_two_ends_contains_the_boxes_of_either() {
    let (mut given, mut empty, mut wider) = (0, 0, 0);
    for problem in wide_problems(71, 100) {
        let (code, sides) = enclose_problem(&problem);
        if code > 0 {
            continue;
        }
        // All choices of ends at small orders, eight of them at others.
        let choices = 1_usize << problem.order;
        for chosen in (0..choices).step_by(choices / 8 | 1) {
            let (one, part) = enclose_problem(&at_ends(&problem, chosen));
            if code < 0 {
                assert_eq!(one, -1, "{problem:?}");
                empty += 1;
            } else if one == 0 {
                let pairs = sides.chunks(2).zip(part.chunks(2));
                let contained = |(s, p): (&[i64], &[i64])| s[0] <= p[0] && p[1] <= s[1];
                assert!(pairs.into_iter().all(contained), "{problem:?}");
                given += 1;
                wider += usize::from(sides != part);
            }
        }
    }
    assert!(given > 1000 && empty > 300, "{given} given, {empty} empty");
    assert!(2 * wider > given, "{wider} of {given} are wider");
}

/// x becomes −x: the ends and the centre change their signs and the two ends
/// their places, and the sides are mirrored.
fn mirrored(problem: &RawProblem) -> RawProblem {
    let negated = |numbers: &[i64]| numbers.iter().map(|m| -m).collect::<Vec<i64>>();
    RawProblem {
        linear_low: negated(&problem.linear_high),
        linear_high: negated(&problem.linear_low),
        centre: negated(&problem.centre),
        ..problem.clone()
    }
}

#[test]
fn a_mirrored_problem_has_the_mirrored_box() {
    let mut given = 0;
    for problem in wide_problems(72, 150) {
        let (code, sides) = enclose_problem(&problem);
        let (other, seen) = enclose_problem(&mirrored(&problem));
        assert_eq!(other, code, "{problem:?}");
        if code == 0 {
            let pairs = sides.chunks(2).flat_map(|side| [-side[1], -side[0]]);
            assert_eq!(seen, pairs.collect::<Vec<i64>>(), "{problem:?}");
            given += 1;
        }
    }
    assert!(given > 300, "{given}");
}

/// W25 and its mirror image: D takes the low end where c is above 0, and the
/// high one where it is below.
#[test]
fn the_end_that_makes_d_greatest_is_taken() {
    let boxed = |ends: (i64, i64), centre: i64| {
        enclose_problem(&RawProblem {
            order: 1,
            low: vec![4],
            high: vec![4],
            linear_low: vec![ends.0],
            linear_high: vec![ends.1],
            limit: 0,
            centre: vec![centre],
        })
    };
    assert_eq!(boxed((-8, -4), 2), (0, vec![-3, 7]));
    assert_eq!(boxed((4, 8), -2), (0, vec![-7, 3]));
    // Either end alone has a smaller box.
    assert_eq!(enclose(&[4], &[4], &[-8], 0, &[2]), (0, vec![-1, 5]));
    assert_eq!(enclose(&[4], &[4], &[-4], 0, &[2]), (0, vec![-2, 6]));
}

/// A definite problem of this order with ends up to `width` apart.
fn definite(generator: &mut Generator, random: &mut Random, order: usize) -> RawProblem {
    let mut problem = generator.problem(ProblemKind::Definite, order, random.one_in(2));
    let width = random.pick(&[0, 1, 30, 4000]);
    for k in 0..order {
        let term = problem.linear_low[k];
        problem.linear_high[k] = (term + random.between(0, width)).min(1 << 36);
    }
    problem
}

/// Any point is on the ellipsoid of the problem whose limit is just large
/// enough for it: the box holds it, and is not empty.
#[test]
fn a_box_holds_the_point_that_its_limit_was_made_for() {
    let (mut generator, mut random) = (Generator::new(73), Random::new(74));
    for order in 1..=8 {
        let mut held = 0;
        for _ in 0..800 {
            let mut problem = definite(&mut generator, &mut random, order);
            let mut point = generator.point_near(&problem);
            if random.one_in(2) {
                point.lower();
            }
            let limit = point.least_limit();
            if limit.abs() > 1 << 54 {
                continue;
            }
            problem.limit = limit as i64;
            let (code, sides) = enclose_problem(&problem);
            assert_ne!(code, -1, "{problem:?} {point:?}");
            if code == 0 {
                assert!(point.is_in(&sides), "{problem:?} {point:?}");
                held += 1;
            }
        }
        assert!(held > 150, "order {order}: {held}");
    }
}

/// Points at the edge of the ellipsoid of random members and random linear terms
/// between the ends are in the box.
#[test]
fn a_box_holds_the_edges_of_every_ellipsoid_between_the_ends() {
    let (mut generator, mut random) = (Generator::new(75), Random::new(76));
    for order in 1..=8 {
        let mut held = 0;
        for _ in 0..400 {
            let problem = definite(&mut generator, &mut random, order);
            let limit = i128::from(problem.limit);
            let (code, sides) = enclose_problem(&problem);
            for _ in 0..if code == 0 { 6 } else { 0 } {
                let mut point = generator.point_near(&problem);
                point.lower();
                if point.least_limit() <= limit {
                    point.go_outward(limit, &mut random);
                    assert!(point.least_limit() <= limit);
                    assert!(point.is_in(&sides), "{problem:?} {point:?}");
                    held += 1;
                }
            }
        }
        assert!(held > 200, "order {order}: {held}");
    }
}

/// Where the box is empty, the lowest points of random members and linear terms
/// are all above the limit; with a limit at such a point it is not empty.
#[test]
fn an_empty_box_has_no_point_for_any_terms_between_the_ends() {
    let (mut generator, mut random) = (Generator::new(77), Random::new(78));
    for order in 1..=8 {
        let mut empty = 0;
        for _ in 0..600 {
            let mut problem = definite(&mut generator, &mut random, order);
            let lowest: Vec<Point> = (0..8)
                .map(|_| {
                    let mut point = generator.point_near(&problem);
                    point.lower();
                    point
                })
                .collect();
            let least = lowest.iter().map(Point::least_limit).min().unwrap();
            let below = random.pick(&[1, 20, 1 << 16, 1 << 30]);
            let limit = least - i128::from(random.between(0, below));
            if limit.abs() > 1 << 54 {
                continue;
            }
            problem.limit = limit as i64;
            let (code, _) = enclose_problem(&problem);
            if code == -1 {
                assert!(least > limit, "{problem:?} {lowest:?}");
                empty += 1;
            }
        }
        assert!(empty > 20, "order {order}: {empty}");
    }
}

/// Order 1, all small numbers: m·x² + 2a·x ≤ α has points exactly if
/// a² + m·α ≥ 0, and they end at (−a ± √(a² + m·α)) / m.
#[test]
fn boxes_of_order_1_hold_all_points_of_all_ends() {
    let (mut given, mut empty) = (0, 0);
    for (m, width, c) in (2..6).flat_map(|m| [(m, 0, 0), (m, 1, 1), (m, 3, -2)]) {
        for (l, h) in (-5..=5).flat_map(|l| (l..=5).map(move |h| (l, h))) {
            for limit in -12..=12 {
                let (code, sides) = enclose_problem(&RawProblem {
                    order: 1,
                    low: vec![m],
                    high: vec![m + width],
                    linear_low: vec![l],
                    linear_high: vec![h],
                    limit,
                    centre: vec![c],
                });
                for (m, a) in [m, m + width]
                    .into_iter()
                    .flat_map(|m| (l..=h).map(move |a| (m, a)))
                {
                    let square = a * a + m * limit;
                    if code > 0 || square < 0 {
                        continue;
                    }
                    assert_eq!(code, 0, "m = {m}, a = {a}, α = {limit}");
                    let (below, above) = (-a - m * sides[0], m * sides[1] + a);
                    assert!(
                        below >= 0 && square <= below * below,
                        "m = {m}, a = {a}, α = {limit}"
                    );
                    assert!(
                        above >= 0 && square <= above * above,
                        "m = {m}, a = {a}, α = {limit}"
                    );
                }
                given += usize::from(code == 0);
                empty += usize::from(code == -1);
            }
        }
    }
    assert!(given > 5000 && empty > 500, "{given} given, {empty} empty");
}

/// The points of the tests above are those of R3.6: the value at the fractions
/// given is worked out here by another route.
#[test]
fn the_least_limit_of_a_point_is_its_value_rounded_up() {
    let mut generator = Generator::new(79);
    let mut apart = 0;
    for _ in 0..400 {
        let problem = generator.any_problem();
        let point = generator.point_near(&problem);
        let [x, n, a] = [&point.x, &point.member, &point.linear];
        let (p, q, s) = (x.denominator, n.denominator, a.denominator);
        let small: Vec<Vec<i64>> = [x, n, a]
            .map(|list| list.numbers.iter().map(|m| *m as i64).collect())
            .to_vec();
        let dot: i128 = small[2]
            .iter()
            .zip(&small[0])
            .map(|(a, x)| i128::from(*a) * i128::from(*x))
            .sum();
        let value = s * quadratic_form(&small[1], &small[0]) + 2 * p * q * dot;
        let unit = p * p * q * s;
        let limit = point.least_limit();
        assert!((limit - 1) * unit < value && value <= limit * unit);
        for (k, number) in small[2].iter().enumerate() {
            let (low, high) = (problem.linear_low[k], problem.linear_high[k]);
            assert!(
                s * i128::from(low) <= i128::from(*number)
                    && i128::from(*number) <= s * i128::from(high)
            );
            apart += usize::from(low < high);
        }
    }
    assert!(apart > 200, "{apart}");
}
