//! The bracket of the stiffness (R26): worked cases, the bound as the least number that a
//! lowered table shows, the step as the one of the box, the ends of the range, mended
//! tables, and what it means for members (D3.9).

use hankboulder_reference::cases::{bounds as read, numbers};
use hankboulder_reference::entries;
use hankboulder_reference::generate::{Fractions, Generator, ProblemKind, RawProblem, KINDS};
use hankboulder_reference::problem::Bounds;
use hankboulder_reference::random::Random;
use hankboulder_reference::stiffness::{is_under, least_quotient, quotient, squares};
use hankboulder_reference::vectors::{least_value, shows, tried_vectors};

use crate::support::{
    bracket, bytes, corners, enclose_problem, judge, minors_positive, quadratic_form, Bracketed,
    UNWRITTEN,
};

const BETWEEN: i64 = 0;
const AT_MOST: i64 = -1;
const DEFINITE: i64 = 0;
const YES: i64 = 0;
const NO: i64 = -1;
const REFUSED_FLAT: i64 = 8;

const ENTRY: i64 = 1 << 20;

/// The bracket of tables written as in docs/RULES.md.
fn told(low: &str, high: &str) -> Bracketed {
    bracket(low.split(';').count(), &numbers(low), &numbers(high))
}

fn bracket_of(problem: &RawProblem) -> Bracketed {
    bracket(problem.order, &problem.low, &problem.high)
}

fn bounds_of(problem: &RawProblem) -> Bounds {
    Bounds::read(problem.order, &problem.low, &problem.high).unwrap()
}

/// The bracket with a step.
fn between(step: i64, bound: i64, vector: &[i64]) -> Bracketed {
    Bracketed {
        code: BETWEEN,
        step,
        bound,
        vector: vector.to_vec(),
    }
}

/// The bracket with a bound alone.
fn at_most(bound: i64, vector: &[i64]) -> Bracketed {
    Bracketed {
        code: AT_MOST,
        ..between(UNWRITTEN, bound, vector)
    }
}

/// A table with one number on the diagonal and another elsewhere.
fn even(n: usize, diagonal: i64, others: i64) -> Vec<i64> {
    let entry = |place: usize| match place.is_multiple_of(n + 1) {
        true => diagonal,
        false => others,
    };
    (0..n * n).map(entry).collect()
}

/// The first tried vector: 1 at the end.
fn first_tried(n: usize) -> Vec<i64> {
    (0..n).map(|k| i64::from(k + 1 == n)).collect()
}

/// Problems for the bracket of the orders asked.
fn problems(seed: u64, orders: std::ops::RangeInclusive<usize>, count: usize) -> Vec<RawProblem> {
    let mut generator = Generator::new(seed);
    let drawn = std::iter::repeat_with(|| generator.bracket_problem());
    drawn
        .filter(|problem| orders.contains(&problem.order))
        .take(count)
        .collect()
}

#[test]
fn brackets_worked_by_hand() {
    let thin = |matrix: &str| told(matrix, matrix);
    assert_eq!(thin("[-3]"), at_most(-3, &[1]));
    assert_eq!(told("[2]", "[9]"), between(1, 2, &[1]));
    assert_eq!(told("[-7]", "[9]"), at_most(-7, &[1]));
    assert_eq!(thin("[9 0; 0 9]"), between(8, 9, &[0, 1]));
    // All of (0, 0, 1), (0, 1, 0) and (1, 0, 0) have a quotient; the least is the second.
    assert_eq!(thin("[9 0 0; 0 5 0; 0 0 7]"), between(4, 5, &[0, 1, 0]));
    // (1, 1, 1) has 3·4 - 6·1 = 6, and 6/3 is 2.
    let thirds = "[4 -1 -1; -1 4 -1; -1 -1 4]";
    assert_eq!(thin(thirds), between(1, 2, &[1, 1, 1]));
    // With 5 in the last place it is 7/3, and (1, 1, 0) has 6/2.
    let more = "[4 -1 -1; -1 4 -1; -1 -1 5]";
    assert_eq!(thin(more), between(2, 3, &[1, 1, 0]));
    // Low where the product is positive and high where it is negative: (1, 1) has
    // 10 - 6 = 4 and (1, -1) 10 - 8 = 2.
    assert_eq!(told("[5 -3; -3 5]", "[6 4; 4 6]"), between(0, 1, &[1, -1]));
    assert_eq!(told("[5 -4; -4 5]", "[6 3; 3 6]"), between(0, 1, &[1, 1]));
    // The width of row 2 stops factoring, though all members are definite. (0, 1, 1) has
    // 4/2, and (1, 1, 1), which comes later, 4/3.
    let (low, high) = ("[4 -2 0; -2 4 -2; 0 -2 4]", "[4 2 0; 2 4 2; 0 2 4]");
    assert_eq!(told(low, high), at_most(2, &[0, 1, 1]));
    // The value of (1, -2) is 0, and none of the tried ones shows it.
    assert_eq!(thin("[4 2; 2 1]"), at_most(1, &[0, 1]));
}

#[test]
fn quotients_worked_by_hand() {
    let found = |low: &str, high: &str, x: &[i128]| {
        let bounds = read(low, high).unwrap();
        (least_value(&bounds, x), quotient(&bounds, x))
    };
    let thin = |matrix: &str, x: &[i128]| found(matrix, matrix, x);
    assert_eq!(thin("[5 2; 2 5]", &[1, -1]), (6, 3));
    assert_eq!(thin("[4 1; 1 3]", &[1, -1]), (5, 3));
    assert_eq!(thin("[4 1; 1 3]", &[0, 1]), (3, 3));
    assert_eq!(thin("[1 2; 2 1]", &[1, -1]), (-2, -1));
    assert_eq!(thin("[0 1; 1 1]", &[1, -1]), (-1, 0));
    assert_eq!(thin("[0 2; 2 1]", &[1, -1]), (-3, -1));
    assert_eq!(thin("[1 3; 3 10]", &[-3, 1]), (1, 1));
    assert_eq!(found("[3 1; 1 3]", "[4 2; 2 4]", &[1, -1]), (2, 1));
    // x'x is 14.
    assert_eq!(thin("[1 0 0; 0 1 0; 0 0 1]", &[1, -2, 3]), (14, 1));
    assert_eq!(squares(&[1, -2, 3]), 14);
    // Around each multiple of 3, on both sides of 0
    for (third, expected) in [(-7, -2), (-6, -2), (-5, -1), (-4, -1), (-3, -1), (-2, 0)] {
        let matrix = format!("[{third} 0 0; 0 0 0; 0 0 0]");
        assert_eq!(thin(&matrix, &[1, 1, 1]), (third, expected));
    }
    for (third, expected) in [(-1, 0), (0, 0), (1, 1), (2, 1), (3, 1), (4, 2)] {
        let matrix = format!("[{third} 0 0; 0 0 0; 0 0 0]");
        assert_eq!(thin(&matrix, &[1, 1, 1]), (third, expected));
    }
}

/// R26.2 and R26.1: the quotient is the least whole number that a vector is under, and
/// zeros are under none.
#[test]
fn the_quotient_is_the_least_number_that_a_vector_is_under() {
    let mut random = Random::new(101);
    for problem in problems(102, 1..=8, 1000) {
        let bounds = bounds_of(&problem);
        for range in [1, 1, 3, 1 << 15] {
            let draw = |_| i128::from(random.within(range));
            let x: Vec<i128> = (0..problem.order).map(draw).collect();
            if squares(&x) == 0 {
                assert!(!is_under(&bounds, &x, 1 << 60));
                continue;
            }
            let w = quotient(&bounds, &x);
            assert!(is_under(&bounds, &x, w) && !is_under(&bounds, &x, w - 1));
            assert_eq!(is_under(&bounds, &x, 0), shows(&bounds, &x));
        }
    }
}

/// The bounds with w taken off both diagonals, whatever range that leaves them in.
fn lowered(bounds: &Bounds, w: i128) -> Bounds {
    let mut lowered = bounds.clone();
    for i in 0..bounds.order {
        lowered.low[i][i] -= w;
        lowered.high[i][i] -= w;
    }
    lowered
}

/// The least w that a tried vector shows 'not definite' for with w taken off the
/// diagonals, and the first vector that shows it there.
fn by_lowering(bounds: &Bounds) -> (i128, Vec<i128>) {
    let found = |w: i128| {
        let lowered = lowered(bounds, w);
        let mut tried = tried_vectors(bounds.order).iter();
        tried.find(|x| shows(&lowered, x)).cloned()
    };
    let reach = 1_i128 << 20;
    // Nothing shows it at the first, and (0, .., 1) at the second.
    let (mut none, mut some) = (-(bounds.order as i128) * reach - 1, reach);
    assert!(found(none).is_none());
    while some - none > 1 {
        let middle = (none + some).div_euclid(2);
        match found(middle) {
            Some(_) => some = middle,
            None => none = middle,
        }
    }
    (some, found(some).unwrap())
}

#[test]
fn the_bound_is_the_least_that_a_lowered_table_is_shown_for() {
    let mut signs = [0; 3];
    let small = problems(103, 1..=5, 1000).into_iter();
    for problem in small.chain(problems(104, 6..=8, 30)) {
        let bracket = bracket_of(&problem);
        let (bound, vector) = by_lowering(&bounds_of(&problem));
        let vector: Vec<i64> = vector.iter().map(|entry| *entry as i64).collect();
        assert_eq!(
            (bracket.bound, &bracket.vector),
            (bound as i64, &vector),
            "{problem:?}"
        );
        signs[(1 + bound.signum()) as usize] += 1;
    }
    assert!(signs.iter().all(|count| *count > 60), "{signs:?}");
}

/// The same through the vector test, of tables that stay in their range: the vector that is
/// shown has 'yes' at v, no tried vector before it has, and none has at v - 1.
#[test]
fn the_vector_test_says_yes_at_the_bound_and_no_below_it() {
    let test = |problem: &RawProblem, x: &[i128]| {
        let x: Vec<i64> = x.iter().map(|entry| *entry as i64).collect();
        let (low, high) = (bytes(&problem.low), bytes(&problem.high));
        entries::test_vector(problem.order as i64, &low, &high, &bytes(&x))
    };
    let mut count = 0;
    for problem in problems(105, 1..=4, 1200) {
        let bracket = bracket_of(&problem);
        let (at, below) = (bracket.bound, bracket.bound - 1);
        let (Some(at), Some(below)) = (problem.lowered(at), problem.lowered(below)) else {
            continue;
        };
        count += 1;
        let tried = tried_vectors(problem.order);
        let place = |x: &Vec<i128>| {
            let mut both = x.iter().zip(&bracket.vector);
            both.all(|(entry, shown)| *entry == i128::from(*shown))
        };
        let shown = tried.iter().position(place).unwrap();
        assert_eq!(test(&at, &tried[shown]), YES);
        assert!(tried[..shown].iter().all(|x| test(&at, x) == NO));
        assert!(tried.iter().all(|x| test(&below, x) == NO));
    }
    assert!(count > 900, "{count}");
}

/// With a number taken off both diagonals, the bound is smaller by it and the vector the
/// same.
#[test]
fn the_bound_moves_with_the_diagonal() {
    let mut random = Random::new(106);
    let mut moved = 0;
    for problem in problems(107, 1..=6, 1200) {
        let bracket = bracket_of(&problem);
        for range in [1, 10, 1 << 20] {
            let step = random.within(range);
            let Some(lowered) = problem.lowered(step) else {
                continue;
            };
            let other = bracket_of(&lowered);
            assert_eq!(other.bound, bracket.bound - step);
            assert_eq!(other.vector, bracket.vector);
            moved += 1;
        }
    }
    assert!(moved > 1500, "{moved}");
}

/// t by twenty verdicts on lowered tables.
fn step_by_verdicts(problem: &RawProblem) -> i64 {
    let succeeds = |d: i64| {
        let diagonal = problem.low.iter().step_by(problem.order + 1);
        let positive = diagonal.min().unwrap() - d >= 1;
        let lowered = problem.lowered(d).filter(|_| positive);
        lowered.is_some_and(|p| judge(p.order, &p.low, &p.high).code == DEFINITE)
    };
    let bits = (0..20).rev().map(|bit| 1 << bit);
    bits.fold(0, |t, bit| if succeeds(t + bit) { t + bit } else { t })
}

/// R26.5: the step is given exactly where the judge says 'definite'; it is the one that
/// the box works with, and below the bound.
#[test]
fn the_step_is_given_with_a_definite_verdict_and_is_that_of_the_box() {
    let mut met = [0; 3];
    for problem in problems(108, 1..=8, 800) {
        let bracket = bracket_of(&problem);
        let verdict = judge(problem.order, &problem.low, &problem.high).code;
        assert_eq!(bracket.code == BETWEEN, verdict == DEFINITE, "{problem:?}");
        let flat = enclose_problem(&problem).0 == REFUSED_FLAT;
        if bracket.code == AT_MOST {
            assert!(flat, "{problem:?}");
            met[0] += 1;
            continue;
        }
        assert_eq!(bracket.step, step_by_verdicts(&problem), "{problem:?}");
        assert_eq!(bracket.step == 0, flat, "{problem:?}");
        assert!(bracket.step < bracket.bound, "{problem:?}");
        met[1 + usize::from(flat)] += 1;
    }
    assert!(met.iter().all(|count| *count > 50), "{met:?}");
}

/// Where the bound is 0 or less, the judge says 'not definite' and the vector shows it.
#[test]
fn a_bound_of_0_or_less_is_a_verdict_of_not_definite() {
    let mut met = [0; 4];
    for problem in problems(109, 1..=8, 800) {
        let bracket = bracket_of(&problem);
        let verdict = judge(problem.order, &problem.low, &problem.high).code;
        let x: Vec<i128> = bracket.vector.iter().map(|x| i128::from(*x)).collect();
        assert_eq!(shows(&bounds_of(&problem), &x), bracket.bound <= 0);
        if bracket.bound <= 0 {
            assert_eq!(verdict, -1, "{problem:?}");
            met[3] += 1;
        } else {
            // By a solved vector, too
            met[verdict.unsigned_abs() as usize] += 1;
        }
    }
    assert!(met.iter().all(|count| *count > 10), "{met:?}");
}

/// −n·2^20 ≤ v, and v is no more than any L(i,i).
#[test]
fn the_bound_is_in_its_range() {
    for problem in problems(110, 1..=8, 800) {
        let bound = bracket_of(&problem).bound;
        let least = problem.low.iter().step_by(problem.order + 1).min();
        assert!(-(problem.order as i64) * ENTRY <= bound, "{problem:?}");
        assert!(bound <= *least.unwrap(), "{problem:?}");
    }
}

#[test]
fn the_ends_of_the_range_are_met_at_every_order() {
    for n in 1..=8 {
        let (order, ones) = (n as i64, vec![1; n]);
        let low = even(n, -ENTRY, -ENTRY);
        assert_eq!(bracket(n, &low, &low), at_most(-order * ENTRY, &ones));
        // Every vector has -2^20 at each pair of entries.
        let widest = bracket(n, &low, &even(n, ENTRY, ENTRY));
        assert_eq!(widest, at_most(-order * ENTRY, &ones));
        let high = even(n, ENTRY, 0);
        let most = bracket(n, &high, &high);
        assert_eq!(most, between(ENTRY - 1, ENTRY, &first_tried(n)));
        // Along signs that alternate
        let signs: Vec<i64> = (0..n as i64).map(|k| 1 - 2 * (k % 2)).collect();
        let along = |place: usize| -ENTRY * signs[place / n] * signs[place % n];
        let table: Vec<i64> = (0..n * n).map(along).collect();
        assert_eq!(bracket(n, &table, &table), at_most(-order * ENTRY, &signs));
    }
}

/// A diagonal of w + 9k less 9xx', for an x with k nonzero entries, all 1 or -1. Its value
/// at y is (w + 9k)·y'y - 9(x'y)², so that x and -x alone have the quotient w.
#[test]
fn every_tried_vector_is_shown_where_it_and_its_opposite_alone_are_under_the_bound() {
    for n in 1..=5 {
        for x in tried_vectors(n) {
            let x: Vec<i64> = x.iter().map(|entry| *entry as i64).collect();
            if x.iter().find(|entry| **entry != 0) != Some(&1) {
                continue;
            }
            let count = x.iter().filter(|entry| **entry != 0).count() as i64;
            for w in [1, ENTRY - 72, -9000] {
                let mut table = even(n, w + 9 * count, 0);
                for (place, entry) in table.iter_mut().enumerate() {
                    *entry -= 9 * x[place / n] * x[place % n];
                }
                let bracket = bracket(n, &table, &table);
                assert_eq!((bracket.bound, bracket.vector), (w, x.clone()));
            }
        }
    }
}

/// (0, 1, 0, ..) has 8 and (1, 1, 0, ..), which comes later, 15/2: both have the quotient
/// 8. Where the latter has 14/2, its quotient is the least.
#[test]
fn of_several_vectors_with_one_quotient_the_first_is_shown() {
    for n in 2..=8 {
        let mut table = even(n, 9, 0);
        (table[1], table[n], table[n + 1]) = (-1, -1, 8);
        let mut second = vec![0; n];
        second[1] = 1;
        let found = bracket(n, &table, &table);
        assert_eq!((found.bound, &found.vector), (8, &second), "{n}");
        let mut both = second.clone();
        both[0] = 1;
        table[0] = 8;
        let found = bracket(n, &table, &table);
        assert_eq!((found.bound, found.vector), (7, both), "{n}");
    }
}

/// Bound and vector from the values of all corners.
#[test]
fn the_bound_agrees_with_the_corners() {
    for problem in problems(111, 1..=3, 600) {
        let n = problem.order;
        let members = corners(n, &problem.low, &problem.high);
        let least = |x: &Vec<i64>| members.iter().map(|m| quadratic_form(m, x)).min().unwrap();
        let tried = tried_vectors(n).iter();
        let tried: Vec<Vec<i64>> = tried
            .map(|x| x.iter().map(|entry| *entry as i64).collect())
            .collect();
        let count = |x: &Vec<i64>| x.iter().filter(|entry| **entry != 0).count() as i128;
        let under = |x: &&Vec<i64>, w: i128| least(x) <= w * count(x);
        let bracket = bracket_of(&problem);
        let v = i128::from(bracket.bound);
        let first = tried.iter().find(|x| under(x, v));
        assert_eq!(first, Some(&bracket.vector), "{problem:?}");
        assert!(!tried.iter().any(|x| under(&x, v - 1)), "{problem:?}");
    }
}

/// Whether every member is definite with w taken off its diagonal: the members with L where
/// signs agree and U elsewhere, by their minors.
fn definite_above(problem: &RawProblem, w: i64) -> bool {
    let (n, mended) = (problem.order, problem.mended());
    (0..1_usize << n).all(|signs| {
        let entry = |place: usize| {
            let (i, j) = (place / n, place % n);
            let same = signs >> i & 1 == signs >> j & 1;
            let table = if same { &mended.low } else { &mended.high };
            table[place] - if i == j { w } else { 0 }
        };
        let member: Vec<i64> = (0..n * n).map(entry).collect();
        minors_positive(n, &member)
    })
}

/// D3.9, exactly: all members are definite with t off their diagonals, and one is not with
/// v off. The bracket of [1 3; 3 10] and its kind has no step though all are definite.
#[test]
fn the_bracket_agrees_with_the_leading_minors() {
    let (mut stopped, mut met) = (0, [0; 2]);
    for problem in problems(112, 1..=4, 3000) {
        let bracket = bracket_of(&problem);
        // 128 bits hold the minors of entries in their range.
        if problem.lowered(bracket.bound).is_some() {
            assert!(!definite_above(&problem, bracket.bound), "{problem:?}");
        }
        if bracket.code == BETWEEN {
            assert!(definite_above(&problem, bracket.step), "{problem:?}");
            met[usize::from(bracket.step > 0)] += 1;
        } else if definite_above(&problem, 0) {
            assert!(bracket.bound > 0, "{problem:?}");
            stopped += 1;
        }
    }
    assert!(stopped > 100, "{stopped}");
    assert!(met.iter().all(|count| *count > 200), "{met:?}");
}

/// The member of R8.1 for a vector, of the tables as they are handed in.
fn least_member(problem: &RawProblem, x: &[i64]) -> Fractions {
    let (n, mended) = (problem.order, problem.mended());
    let entry = |place: usize| {
        let (i, j) = (place / n, place % n);
        let table = match i == j || x[i] * x[j] > 0 {
            true => &mended.low,
            false => &mended.high,
        };
        assert!((problem.low[place]..=problem.high[place]).contains(&table[place]));
        i128::from(table[place])
    };
    Fractions {
        numbers: (0..n * n).map(entry).collect(),
        denominator: 1,
    }
}

/// D3.9 for members of fractions and any vectors.
#[test]
fn members_are_above_the_step_and_one_is_not_above_the_bound() {
    let (mut generator, mut random) = (Generator::new(113), Random::new(114));
    let (mut given, mut near) = (0, 0);
    for problem in problems(115, 1..=8, 1000) {
        let bracket = bracket_of(&problem);
        let member = least_member(&problem, &bracket.vector);
        assert!(member.above(bracket.bound, &bracket.vector) <= 0);
        assert!(member.above(bracket.bound - 1, &bracket.vector) > 0);
        for range in [1, 1, 1, 2, 30, 1 << 15] {
            let x: Vec<i64> = (0..problem.order).map(|_| random.within(range)).collect();
            if x.iter().all(|entry| *entry == 0) {
                continue;
            }
            for member in [generator.member(&problem), least_member(&problem, &x)] {
                if range == 1 {
                    assert!(member.above(bracket.bound - 1, &x) > 0, "{problem:?}");
                }
                if bracket.code == BETWEEN {
                    assert!(member.above(bracket.step, &x) > 0, "{problem:?} {x:?}");
                    near += usize::from(member.above(bracket.step + 1, &x) <= 0);
                }
            }
        }
        given += usize::from(bracket.code == BETWEEN);
    }
    assert!(given > 250 && near > 400, "{given} {near}");
}

/// Of [5] over 1 and of [10] over 3 at x = 3: 45 - 9w and 90 - 27w.
#[test]
fn what_a_member_is_above_worked_by_hand() {
    let member = |numbers: &[i128], denominator| Fractions {
        numbers: numbers.to_vec(),
        denominator,
    };
    assert_eq!(member(&[5], 1).above(5, &[3]), 0);
    assert_eq!(member(&[5], 1).above(4, &[3]), 9);
    assert_eq!(member(&[10], 3).above(3, &[3]), 9);
    assert_eq!(member(&[10], 3).above(4, &[3]), -18);
    // 7 - 4 + 9 at (1, -1), and x'x = 2
    assert_eq!(member(&[7, 2, 2, 9], 1).above(5, &[1, -1]), 2);
}

#[test]
fn the_bracket_is_that_of_the_mended_tables() {
    let mut generator = Generator::new(116);
    let mut differing = 0;
    for (n, kind) in (1..=7).flat_map(|n| KINDS.map(|kind| (n, kind))) {
        for round in 0..20 {
            let problem = generator.problem(kind, n, round % 2 == 1);
            let apart = generator.rounded_apart(&problem);
            let bracket = bracket_of(&problem);
            assert_eq!(bracket_of(&apart), bracket, "{apart:?}");
            // The wider bounds of each pair have another bound in many cases.
            let mut wider = apart.clone();
            for (i, j) in (0..n).flat_map(|i| (0..n).map(move |j| (i, j))) {
                let (place, other) = (i * n + j, j * n + i);
                wider.low[place] = apart.low[place].min(apart.low[other]);
                wider.high[place] = apart.high[place].max(apart.high[other]);
            }
            differing += usize::from(least_quotient(&bounds_of(&wider)) as i64 != bracket.bound);
        }
    }
    assert!(differing > 150, "{differing}");
}

/// Definite tables far from the boundary have large steps, at every order. At order 1 the
/// step is 1 below the bound.
#[test]
fn large_steps_are_given() {
    let mut generator = Generator::new(117);
    let mut large = [0; 8];
    for round in 0..480 {
        let n = 1 + round % 8;
        let problem = generator.problem(ProblemKind::Definite, n, round % 16 >= 8);
        let bracket = bracket_of(&problem);
        large[n - 1] += usize::from(bracket.code == BETWEEN && bracket.step > 4000);
        if n == 1 && bracket.code == BETWEEN {
            assert_eq!(bracket.bound - bracket.step, 1);
        }
    }
    assert!(large.iter().all(|count| *count >= 5), "{large:?}");
}
