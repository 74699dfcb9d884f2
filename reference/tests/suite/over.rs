//! What the rows of the residual have over (R7.7): worked cases, the least of all rows,
//! its sign and its range, mended tables, and what it means for members (D3.8).

use hankboulder_reference::cases::numbers;
use hankboulder_reference::generate::{Fractions, Generator, RawProblem, KINDS};
use hankboulder_reference::random::Random;

use crate::support::{judge, test_factor};

const ACCEPTED: i64 = 0;
const NOT_ACCEPTED: i64 = -1;
const DEFINITE: i64 = 0;

const ENTRY: i64 = 1 << 20;
const FACTOR: i64 = 1 << 26;
/// The scale of a factor, and of the product of two.
const SCALE: i64 = 1 << 16;
const SQUARE: i64 = 1 << 32;

/// The factor test on tables written as in docs/RULES.md.
fn tested(low: &str, high: &str, factor: &str) -> (i64, i64) {
    let order = low.split(';').count();
    test_factor(order, &numbers(low), &numbers(high), &numbers(factor))
}

/// A table with this diagonal, and 0 elsewhere.
fn diagonal(entries: &[i64]) -> Vec<i64> {
    let n = entries.len();
    let entry = |place: usize| match place.is_multiple_of(n + 1) {
        true => entries[place / n],
        false => 0,
    };
    (0..n * n).map(entry).collect()
}

/// The factor test on L = U with a diagonal alone, and a factor of such a kind.
fn tested_diagonal(entries: &[i64], roots: &[i64]) -> (i64, i64) {
    let table = diagonal(entries);
    test_factor(entries.len(), &table, &table, &diagonal(roots))
}

#[test]
fn factors_worked_by_hand() {
    let thin = |matrix: &str, factor: &str| tested(matrix, matrix, factor);
    assert_eq!(thin("[1]", "[65536]"), (ACCEPTED, 0));
    assert_eq!(thin("[1]", "[65537]"), (NOT_ACCEPTED, -131073));
    assert_eq!(thin("[1]", "[65535]"), (ACCEPTED, 131071));
    assert_eq!(thin("[0]", "[1]"), (NOT_ACCEPTED, -1));
    let steep = "[1 3; 3 10]";
    assert_eq!(thin(steep, "[65536 196608; 0 65536]"), (ACCEPTED, 0));
    let less = thin(steep, "[65536 196607; 0 65536]");
    assert_eq!(less, (NOT_ACCEPTED, -65536));
    // Of a factor 2^16 times the identity the rows are those of M less the identity:
    // 3 - 1, 4 - 1 - 2 and 5 - 2.
    let unit = "[65536 0 0; 0 65536 0; 0 0 65536]";
    assert_eq!(
        thin("[4 1 0; 1 5 2; 0 2 6]", unit),
        (ACCEPTED, SQUARE),
        "the least is in the middle"
    );
    // And 3 - 1, 4 - 1 - 5 and 5 - 5: the middle one is -2.
    let below = thin("[4 1 0; 1 5 -5; 0 -5 6]", unit);
    assert_eq!(below, (NOT_ACCEPTED, -2 * SQUARE));
}

/// The greater of |L| and |U| off the diagonal, and L on it.
#[test]
fn both_tables_count_off_the_diagonal_and_low_on_it() {
    let unit = "[65536 0; 0 65536]";
    for (low, high, over) in [
        ("[4 -1; -1 9]", "[4 3; 3 9]", 0),
        ("[4 -3; -3 9]", "[4 1; 1 9]", 0),
        ("[4 -1; -1 9]", "[4 2; 2 9]", 1),
        ("[4 -2; -2 9]", "[4 -1; -1 9]", 1),
        ("[9 1; 1 4]", "[9 5; 5 4]", -2),
        ("[9 1; 1 4]", "[90 5; 5 40]", -2),
    ] {
        let code = if over >= 0 { ACCEPTED } else { NOT_ACCEPTED };
        assert_eq!(tested(low, high, unit), (code, over * SQUARE), "{low}");
    }
}

/// Of factors 2^16 times the identity, row k has L(k,k) - 1 over, in units of 2^32.
#[test]
fn the_least_counts_whichever_row_it_is_in() {
    for n in 1..=8 {
        for k in 0..n {
            let mut entries: Vec<i64> = (0..n as i64).map(|i| 20 + i).collect();
            let roots = vec![SCALE; n];
            for (least, code) in [(5, ACCEPTED), (1, ACCEPTED), (0, NOT_ACCEPTED)] {
                entries[k] = least;
                let over = (least - 1) * SQUARE;
                assert_eq!(tested_diagonal(&entries, &roots), (code, over), "row {k}");
            }
            // Every other row falls short as well, by less.
            let mut short = vec![-3; n];
            short[k] = -7;
            let tested = tested_diagonal(&short, &roots);
            assert_eq!(tested, (NOT_ACCEPTED, -8 * SQUARE), "row {k}");
        }
    }
}

#[test]
fn nothing_over_is_accepted_and_1_short_is_not() {
    for n in 1..=8 {
        for k in 0..n {
            let (mut entries, mut roots) = (vec![9; n], vec![SCALE; n]);
            (entries[k], roots[k]) = (1, SCALE);
            assert_eq!(tested_diagonal(&entries, &roots), (ACCEPTED, 0));
            (entries[k], roots[k]) = (0, 1);
            assert_eq!(tested_diagonal(&entries, &roots), (NOT_ACCEPTED, -1));
        }
    }
}

/// The most is 2^52 - 1, from 2^52 on the diagonal and a product of 1. The least is in
/// the last row, n: -2^52 less n times 2^52 on the diagonal, and beside it 2^52 and j
/// times 2^52 in each column j below n.
#[test]
fn the_ends_of_the_range_are_met_at_every_order() {
    let unit = 1_i64 << 52;
    for n in 1..=8 {
        let most = tested_diagonal(&vec![ENTRY; n], &vec![1; n]);
        assert_eq!(most, (ACCEPTED, unit - 1));
        let low = vec![-ENTRY; n * n];
        let full = |place: usize| if place / n > place % n { 0 } else { FACTOR };
        let factor: Vec<i64> = (0..n * n).map(full).collect();
        // 2, 5, 9, 14, 20, 27, 35 and 44
        let units = (1 + n) + (1..n).map(|j| 1 + j).sum::<usize>();
        let least = test_factor(n, &low, &low, &factor);
        assert_eq!(least, (NOT_ACCEPTED, -unit * units as i64));
        assert!(least.1 >= -44 * unit && least.1 > -(1 << 60));
    }
}

/// What each row has over by the middle of the bounds and half of their width: the
/// greater of two magnitudes is that of the middle plus half of the distance.
fn by_middle(problem: &RawProblem, factor: &[i64]) -> Vec<i128> {
    let n = problem.order;
    let at = |table: &[i64], i: usize, j: usize| i128::from(table[i * n + j]);
    let low = |i, j| at(&problem.low, i, j).max(at(&problem.low, j, i));
    let high = |i, j| at(&problem.high, i, j).min(at(&problem.high, j, i));
    let product = |i, j| -> i128 { (0..n).map(|k| at(factor, k, i) * at(factor, k, j)).sum() };
    let half = 1_i128 << 31;
    let row = |i: usize| {
        let beside: i128 = (0..n)
            .filter(|j| *j != i)
            .map(|j| {
                let middle = half * (low(i, j) + high(i, j)) - product(i, j);
                middle.abs() + half * (high(i, j) - low(i, j))
            })
            .sum();
        2 * half * low(i, i) - product(i, i) - beside
    };
    (0..n).map(row).collect()
}

/// Offered factors that 6 lets through, with their problems, answers and numbers.
fn offers(seed: u64, rounds: usize) -> Vec<(RawProblem, Vec<i64>, i64, i64)> {
    let mut generator = Generator::new(seed);
    let drawn = (0..rounds).filter_map(|_| {
        let (problem, factor) = generator.offer();
        let (code, over) = test_factor(problem.order, &problem.low, &problem.high, &factor);
        (code <= 0).then_some((problem, factor, code, over))
    });
    drawn.collect()
}

#[test]
fn the_number_agrees_with_middle_and_width_and_has_the_sign_of_the_answer() {
    let mut counts = [0; 2];
    for (problem, factor, code, over) in offers(91, 12_000) {
        let least = by_middle(&problem, &factor).into_iter().min();
        assert_eq!(least, Some(i128::from(over)), "{problem:?} {factor:?}");
        assert_eq!(code == ACCEPTED, over >= 0, "{problem:?} {factor:?}");
        assert!(over.unsigned_abs() <= 44 << 52, "{problem:?} {factor:?}");
        counts[usize::from(code == ACCEPTED)] += 1;
    }
    assert!(counts.iter().all(|count| *count > 3000), "{counts:?}");
}

/// Halves apart have the number of the tables that they are mended to. Row by row, as
/// they are handed in, they would have another one in many cases.
#[test]
fn the_number_is_that_of_the_mended_tables() {
    let apart = tested("[2 0; 1 2]", "[2 1; 2 2]", "[89738 47861; 0 75910]");
    assert_eq!(apart, (ACCEPTED, 536914293));
    let mut generator = Generator::new(92);
    let mut differing = 0;
    for (problem, factor, ..) in offers(93, 6000) {
        let mended = problem.mended();
        let apart = generator.rounded_apart(&mended);
        let n = mended.order;
        let tested = test_factor(n, &mended.low, &mended.high, &factor);
        for lopsided in [&apart, &problem] {
            let other = test_factor(n, &lopsided.low, &lopsided.high, &factor);
            assert_eq!(other, tested, "{lopsided:?}");
        }
        let handed_in = |i: usize| {
            let mut rows = apart.clone();
            for j in 0..n {
                rows.low[j * n + i] = apart.low[i * n + j];
                rows.high[j * n + i] = apart.high[i * n + j];
            }
            by_middle(&rows, &factor)[i]
        };
        let least = (0..n).map(handed_in).min();
        differing += usize::from(least != Some(i128::from(tested.1)));
    }
    assert!(differing > 1000, "{differing}");
}

/// The factor that the judge gives comes with the number that the factor test gives of
/// it, and that is 0 or more.
#[test]
fn the_judges_number_is_that_of_its_factor() {
    let mut generator = Generator::new(94);
    let mut given = [0; 8];
    for (n, kind) in (1..=8).flat_map(|n| KINDS.map(|kind| (n, kind))) {
        for round in 0..60 {
            let problem = generator.problem(kind, n, round % 2 == 1);
            let apart = generator.rounded_apart(&problem);
            let judged = judge(n, &apart.low, &apart.high);
            if judged.code != DEFINITE {
                continue;
            }
            given[n - 1] += 1;
            let tested = test_factor(n, &apart.low, &apart.high, &judged.factor);
            assert_eq!(tested, (ACCEPTED, judged.over), "{apart:?}");
            assert!(judged.over >= 0);
            let least = by_middle(&problem, &judged.factor).into_iter().min();
            assert_eq!(least, Some(i128::from(judged.over)));
        }
    }
    assert!(given.iter().all(|count| *count > 60), "{given:?}");
}

/// Of [5] and the factor 2^16 times 2: 2^32·(5·9 - 4·9), less v times 9.
#[test]
fn the_slack_worked_by_hand() {
    let member = |numbers: &[i128], denominator| Fractions {
        numbers: numbers.to_vec(),
        denominator,
    };
    let (factor, unit) = (2 * SCALE, i128::from(SQUARE));
    assert_eq!(member(&[5], 1).slack(&[factor], 0, &[3]), 9 * unit);
    assert_eq!(member(&[5], 1).slack(&[factor], SQUARE, &[3]), 0);
    assert_eq!(member(&[5], 1).slack(&[factor], SQUARE + 1, &[3]), -9);
    // 10/3, so that all is 3 times as much: 10·9 - 3·4·9 is -18.
    let thirds = member(&[10], 3);
    assert_eq!(thirds.slack(&[factor], 0, &[3]), -18 * unit);
    assert_eq!(thirds.slack(&[factor], -1, &[3]), -18 * unit + 27);
    // x'Nx = 7 + 2·2 + 9 and Rx = (1, 1) in units of 2^16, at (1, 1) with [1 0; 0 1]
    let two = member(&[7, 2, 2, 9], 1);
    let identity = diagonal(&[SCALE, SCALE]);
    assert_eq!(two.slack(&identity, 0, &[1, 1]), 18 * unit);
    // With [1 1; 0 1] it is (2, 1).
    let upper = [SCALE, SCALE, 0, SCALE];
    assert_eq!(two.slack(&upper, 5, &[1, 1]), 15 * unit - 10);
}

/// D3.8, whichever sign v has, for members of the tables as they are handed in. Where
/// there is no slack, no greater v would hold.
#[test]
fn no_member_has_less_than_the_number_and_the_factor_say() {
    let (mut generator, mut random) = (Generator::new(95), Random::new(96));
    let (mut counts, mut sharp) = ([0; 2], [0; 2]);
    for (problem, factor, code, over) in offers(97, 6000) {
        let sign = usize::from(code == ACCEPTED);
        counts[sign] += 1;
        for range in [1, 1, 1, 2, 30, 1 << 15] {
            let member = generator.member(&problem);
            let x: Vec<i64> = (0..problem.order).map(|_| random.within(range)).collect();
            let slack = member.slack(&factor, over, &x);
            assert!(slack >= 0, "{problem:?} {factor:?} {member:?} {x:?}");
            let nonzero = x.iter().any(|entry| *entry != 0);
            sharp[sign] += usize::from(nonzero && slack == 0);
        }
    }
    assert!(counts.iter().all(|count| *count > 1500), "{counts:?}");
    assert!(sharp.iter().all(|count| *count > 300), "{sharp:?}");
}
