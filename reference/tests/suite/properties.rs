//! Properties of generated problems, checked exactly.

use hankboulder_reference::entries;
use hankboulder_reference::generate::{Generator, ProblemKind, RawProblem, KINDS};
use hankboulder_reference::random::Random;

use crate::support::{
    bytes, corners, enclose_problem, judge, minors_positive, numbers, quadratic_form, run_factor,
    test_factor,
};

/// Problems of every kind and order, thin and wide, several of each.
fn problems(seed: u64, orders: std::ops::RangeInclusive<usize>, rounds: usize) -> Vec<RawProblem> {
    let mut generator = Generator::new(seed);
    let mut list = vec![];
    for _ in 0..rounds {
        for kind in KINDS {
            for order in orders.clone() {
                list.push(generator.problem(kind, order, false));
                list.push(generator.problem(kind, order, true));
            }
        }
    }
    list
}

/// Problems that are judged definite, with their factors.
fn definite_problems(seed: u64) -> Vec<(RawProblem, Vec<i64>)> {
    let judged = problems(seed, 1..=8, 12).into_iter().filter_map(|problem| {
        let judged = judge(problem.order, &problem.low, &problem.high);
        (judged.code == 0).then_some((problem, judged.factor))
    });
    let list: Vec<_> = judged.collect();
    assert!(list.len() > 200, "{}", list.len());
    list
}

#[test]
fn the_factor_of_a_definite_problem_is_accepted() {
    for (problem, factor) in definite_problems(31) {
        let (code, _) = test_factor(problem.order, &problem.low, &problem.high, &factor);
        assert_eq!(code, 0, "{problem:?}");
    }
}

#[test]
fn an_accepted_factor_leaves_no_vector_that_shows() {
    let mut generator = Generator::new(32);
    let mut random = Random::new(33);
    let mut accepted = 0;
    for _ in 0..1500 {
        let mut call = generator.factor_call();
        if run_factor(&mut call) != 0 {
            continue;
        }
        accepted += 1;
        for range in [1, 1, 1, 2, 5, 30, 1000, 1 << 15] {
            let x: Vec<i64> = (0..call.n).map(|_| random.within(range)).collect();
            let code = entries::test_vector(call.n, &call.low, &call.high, &bytes(&x));
            assert!(code == -1 || code == 7, "{call:?} {x:?}");
        }
    }
    assert!(accepted > 100, "{accepted}");
}

/// H − P is the remainder of each division or root: from 0 to below r(i,i)
/// above the diagonal, from 0 to 2·r(i,i) on it.
#[test]
fn the_factor_leaves_small_remainders() {
    for (problem, factor) in definite_problems(34) {
        let n = problem.order;
        for (i, j) in (0..n).flat_map(|i| (i..n).map(move |j| (i, j))) {
            let entry = |k: usize, l: usize| i128::from(factor[k * n + l]);
            let product: i128 = (0..n).map(|k| entry(k, i) * entry(k, j)).sum();
            let sum = i128::from(problem.low[i * n + j] + problem.high[i * n + j]);
            let row = i * n..(i + 1) * n;
            let width: i64 = row
                .map(|place| problem.high[place] - problem.low[place])
                .sum();
            let diagonal = (1 << 29) + (1 << 31) * i128::from(width);
            let shift = if i == j { diagonal } else { 0 };
            let remainder = (1 << 31) * sum - shift - product;
            let end = if i == j {
                2 * entry(i, i)
            } else {
                entry(i, i) - 1
            };
            assert!((0..=end).contains(&remainder), "{problem:?} at ({i}, {j})");
            if i < j {
                assert_eq!(entry(j, i), 0);
            }
        }
    }
}

/// A bounded matrix is definite exactly if, for every choice of signs z, the
/// member with L where z(i)·z(j) > 0 and U elsewhere is.
fn definite_by_minors(problem: &RawProblem) -> bool {
    let n = problem.order;
    (0..1_usize << n).all(|signs| {
        let sign = |i: usize| signs >> i & 1;
        let member: Vec<i64> = (0..n * n)
            .map(|place| {
                let same = sign(place / n) == sign(place % n);
                let table = if same { &problem.low } else { &problem.high };
                table[place]
            })
            .collect();
        minors_positive(n, &member)
    })
}

#[test]
fn verdicts_agree_with_the_leading_minors() {
    let mut counts = [0; 3];
    for problem in problems(35, 1..=4, 40) {
        let judged = judge(problem.order, &problem.low, &problem.high);
        let definite = definite_by_minors(&problem);
        match judged.code {
            0 => assert!(definite, "{problem:?}"),
            -1 => assert!(!definite, "{problem:?}"),
            code => assert_eq!(code, -2),
        }
        counts[judged.code.unsigned_abs() as usize] += 1;
    }
    assert!(counts.iter().all(|count| *count > 10), "{counts:?}");
}

/// The vector test's answer against the least value over all corners.
#[test]
fn the_vector_test_agrees_with_the_corners() {
    let mut random = Random::new(36);
    let mut counts = [0; 2];
    for problem in problems(37, 1..=3, 30) {
        let n = problem.order;
        let members = corners(n, &problem.low, &problem.high);
        for range in [1, 1, 2, 40, 1 << 15] {
            let x: Vec<i64> = (0..n).map(|_| random.within(range)).collect();
            if x.iter().all(|entry| *entry == 0) {
                continue;
            }
            let least = members.iter().map(|m| quadratic_form(m, &x)).min().unwrap();
            let (low, high) = (bytes(&problem.low), bytes(&problem.high));
            let code = entries::test_vector(n as i64, &low, &high, &bytes(&x));
            assert_eq!(code == 0, least <= 0, "{problem:?} {x:?}");
            counts[usize::from(code == 0)] += 1;
        }
    }
    assert!(counts.iter().all(|count| *count > 50), "{counts:?}");
}

/// By how much row i of the difference of a matrix and P is diagonally dominant.
fn dominance(matrix: &[i64], r: &[i64], n: usize, i: usize) -> i128 {
    let difference = |j: usize| -> i128 {
        let p: i128 = (0..n)
            .map(|k| i128::from(r[k * n + i]) * i128::from(r[k * n + j]))
            .sum();
        i128::from(matrix[i * n + j]) * (1 << 32) - p
    };
    let off: i128 = (0..n).map(|j| difference(j).abs()).sum::<i128>() - difference(i).abs();
    difference(i) - off
}

/// The residual test, row by row over all corners: the difference of every
/// corner and P is diagonally dominant exactly if the factor is accepted. The least by
/// which a row is dominant is what the rows have over.
#[test]
fn the_residual_test_agrees_with_the_corners() {
    let mut generator = Generator::new(38);
    let mut counts = [0; 2];
    for _ in 0..6000 {
        let mut call = generator.factor_call();
        if !(1..=3).contains(&call.n) {
            continue;
        }
        let code = run_factor(&mut call);
        if code > 0 {
            continue;
        }
        let n = call.n as usize;
        let [low, high, r] = [&call.low, &call.high, &call.factor].map(|b| numbers(b));
        let corners = corners(n, &low, &high);
        let rows = corners.iter().flat_map(|m| (0..n).map(move |i| (m, i)));
        let least = rows.map(|(m, i)| dominance(m, &r, n, i)).min();
        let over = i128::from(numbers(&call.over)[0]);
        assert_eq!(Some(over), least, "{call:?}");
        assert_eq!(code == 0, over >= 0, "{call:?}");
        counts[usize::from(code == 0)] += 1;
    }
    assert!(counts.iter().all(|count| *count > 50), "{counts:?}");
}

/// Tables with L + U = B'B + diag(1 + w(i) + e(i)), e(i) from 0 to 1: the
/// condition of demand 3's last sentence holds, often with equality.
fn at_the_condition(random: &mut Random, n: usize) -> (Vec<i64>, Vec<i64>) {
    let rows = random.index(n + 1);
    let spread = random.pick(&[1, 3, 50]);
    let b: Vec<i64> = (0..rows * n).map(|_| random.within(spread)).collect();
    let mut sum: Vec<i64> = (0..n * n)
        .map(|place| {
            (0..rows)
                .map(|k| b[k * n + place / n] * b[k * n + place % n])
                .sum()
        })
        .collect();
    let mut width = vec![0; n * n];
    for i in 0..n {
        for j in i..n {
            // Sum and width are both even or both odd.
            let odd = if i == j {
                0
            } else {
                sum[i * n + j].rem_euclid(2)
            };
            width[i * n + j] = odd + 2 * random.between(0, 2);
            width[j * n + i] = width[i * n + j];
        }
    }
    for i in 0..n {
        let place = i * n + i;
        sum[place] += 1 + width[i * n..(i + 1) * n].iter().sum::<i64>();
        sum[place] += (sum[place] - width[place]).rem_euclid(2);
    }
    let half = |sign: i64| -> Vec<i64> {
        let both = sum.iter().zip(&width);
        both.map(|(s, w)| (s + sign * w) / 2).collect()
    };
    (half(-1), half(1))
}

#[test]
fn the_condition_of_demand_3_makes_factoring_end() {
    let mut random = Random::new(39);
    for round in 0..1200 {
        let n = 1 + round % 8;
        let (low, high) = at_the_condition(&mut random, n);
        let judged = judge(n, &low, &high);
        assert_eq!(judged.code, 0, "{low:?} {high:?}");
        let tested = test_factor(n, &low, &high, &judged.factor);
        assert_eq!(tested, (0, judged.over));
    }
}

/// Points of the grid with n coordinates of step 1/q, up to `count` steps from
/// 0.
fn grid(n: usize, count: i64) -> Vec<Vec<i64>> {
    let mut list = vec![vec![]];
    for _ in 0..n {
        let longer = |x: &Vec<i64>| {
            let x = x.clone();
            (-count..=count).map(move |last| [x.as_slice(), &[last]].concat())
        };
        list = list.iter().flat_map(longer).collect();
    }
    list
}

/// The least 2a'x over all choices of one end for each linear term.
fn least_linear_part(problem: &RawProblem, x: &[i64]) -> i128 {
    let mut least = vec![0];
    for (k, x) in x.iter().enumerate() {
        let ends = [problem.linear_low[k], problem.linear_high[k]];
        let with = |a: i64| {
            least
                .iter()
                .map(move |sum| sum + 2 * i128::from(a) * i128::from(*x))
        };
        least = ends.into_iter().flat_map(with).collect();
    }
    least.into_iter().min().unwrap()
}

/// Checks a box against every grid point of the ellipsoid of every corner and of
/// every choice of ends. Gives the number of points found.
fn check_box(problem: &RawProblem, denominator: i64, points: &[Vec<i64>]) -> (i64, usize) {
    let (code, sides) = enclose_problem(problem);
    let members = corners(problem.order, &problem.low, &problem.high);
    let q = i128::from(denominator);
    let mut found = 0;
    for x in points {
        let rest = i128::from(problem.limit) * q * q - least_linear_part(problem, x) * q;
        if code > 0 || members.iter().all(|m| quadratic_form(m, x) > rest) {
            continue;
        }
        found += 1;
        assert_eq!(code, 0, "a point of an empty set: {problem:?} {x:?}");
        for (side, x) in sides.chunks(2).zip(x) {
            let inside = side[0] * denominator <= *x && *x <= side[1] * denominator;
            assert!(inside, "outside the box: {problem:?} {x}");
        }
    }
    (code, found)
}

/// A small problem whose ellipsoid lies near 0.
fn small_ellipsoid(random: &mut Random, n: usize) -> RawProblem {
    let mut low = vec![0; n * n];
    let mut high = vec![0; n * n];
    for (i, j) in (0..n).flat_map(|i| (i..n).map(move |j| (i, j))) {
        let middle = if i == j {
            random.between(2, 9)
        } else {
            random.within(1)
        };
        let width = random.pick(&[0, 0, 0, 1, 2]);
        for place in [i * n + j, j * n + i] {
            low[place] = middle;
            high[place] = middle + width;
        }
    }
    let mut list = |range: i64| -> Vec<i64> { (0..n).map(|_| random.within(range)).collect() };
    let (linear_low, centre) = (list(6), list(2));
    let width = random.pick(&[0, 1, 4]);
    let linear_high = linear_low
        .iter()
        .map(|a| a + random.between(0, width))
        .collect();
    let lowest = random.pick(&[-6, -6, -200]);
    let limit = random.between(lowest, 30);
    RawProblem {
        order: n,
        low,
        high,
        linear_low,
        linear_high,
        limit,
        centre,
    }
}

fn check_boxes(seed: u64, order: usize, denominator: i64, steps: i64, rounds: usize) {
    let mut random = Random::new(seed);
    let points = grid(order, steps);
    let (mut given, mut empty, mut found) = (0, 0, 0);
    for _ in 0..rounds {
        let problem = small_ellipsoid(&mut random, order);
        let (code, count) = check_box(&problem, denominator, &points);
        given += usize::from(code == 0);
        empty += usize::from(code == -1);
        found += count;
    }
    assert!(given > 20 && found > 100, "{given} boxes, {found} points");
    assert!(empty > 0, "no box is empty");
}

#[test]
fn boxes_of_order_1_hold_every_point_of_the_grid() {
    check_boxes(41, 1, 60, 1200, 1500);
}

#[test]
fn boxes_of_order_2_hold_every_point_of_the_grid() {
    check_boxes(42, 2, 3, 36, 300);
}

#[test]
fn boxes_of_order_3_hold_every_point_of_the_grid() {
    check_boxes(43, 3, 1, 8, 200);
}

/// Random points near the sides of generated boxes of every order.
#[test]
fn generated_boxes_hold_sampled_points() {
    let mut random = Random::new(44);
    let mut generator = Generator::new(45);
    let mut found = 0;
    for round in 0..600 {
        let order = 1 + round % 8;
        let problem = generator.problem(ProblemKind::Definite, order, false);
        let points: Vec<Vec<i64>> = (0..40)
            .map(|_| {
                let range = random.pick(&[1, 4, 40, 4000]);
                let near = |c: &i64| 2 * c + random.within(range);
                problem.centre.iter().map(near).collect()
            })
            .collect();
        found += check_box(&problem, 2, &points).1;
    }
    assert!(found > 1000, "{found} points");
}
