//! The worked cases of docs/RULES.md, and the same lines through the byte
//! entries.

use hankboulder_reference::cases::{listed_cases, numbers};
use hankboulder_reference::entries;

use crate::support::{
    bracket, bytes, enclose, judge, minors_positive, test_factor, Bracketed, Judged, UNWRITTEN,
};

#[test]
fn every_listed_case_passes() {
    let cases = listed_cases();
    let failed: Vec<String> = cases
        .iter()
        .filter(|case| !case.passes())
        .map(|case| case.to_string())
        .collect();
    assert_eq!(failed, Vec::<String>::new());
    assert_eq!(cases.len(), 102);
}

#[test]
fn a_failing_case_would_be_seen() {
    let mut case = listed_cases().remove(0);
    for wrong in [
        "definite; row 61304; over 536909487",
        "definite; row 61303; over 536909486",
        "definite; row 61303",
    ] {
        case.expected = wrong.to_string();
        assert!(!case.passes());
        assert!(case.to_string().ends_with("FAIL"));
    }
}

/// Judges matrices written as in docs/RULES.md.
fn judged(low: &str, high: &str) -> Judged {
    let n = low.split(';').count();
    judge(n, &numbers(low), &numbers(high))
}

fn definite(factor: &[i64], over: i64) -> Judged {
    let n = (1..=8).find(|n| n * n == factor.len()).unwrap();
    Judged {
        code: 0,
        factor: factor.to_vec(),
        vector: vec![UNWRITTEN; n],
        over,
    }
}

fn not_definite(vector: &[i64]) -> Judged {
    Judged {
        code: -1,
        factor: vec![UNWRITTEN; vector.len() * vector.len()],
        vector: vector.to_vec(),
        over: UNWRITTEN,
    }
}

fn undecided(n: usize) -> Judged {
    Judged {
        code: -2,
        factor: vec![UNWRITTEN; n * n],
        vector: vec![UNWRITTEN; n],
        over: UNWRITTEN,
    }
}

#[test]
fn judged_matrices_of_order_1() {
    assert_eq!(judged("[1]", "[1]"), definite(&[61303], 536909487));
    assert_eq!(judged("[1]", "[2]"), definite(&[61303], 536909487));
    assert_eq!(judged("[0]", "[0]"), not_definite(&[1]));
    assert_eq!(judged("[0]", "[5]"), not_definite(&[1]));
}

#[test]
fn judged_matrices_of_order_2() {
    let thin = |matrix: &str| judged(matrix, matrix);
    let factor = [89738, 47861, 0, 75910];
    assert_eq!(thin("[2 1; 1 2]"), definite(&factor, 536914293));
    let factor = [61303, 140122, 0, 36108];
    assert_eq!(thin("[1 2; 2 5]"), definite(&factor, 536838306));
    assert_eq!(thin("[1 2; 2 1]"), not_definite(&[1, -1]));
    assert_eq!(thin("[1 1; 1 1]"), not_definite(&[1, -1]));
    assert_eq!(thin("[1 1000; 1000 10000]"), not_definite(&[-1143, 1]));
    assert_eq!(thin("[1 3; 3 10]"), undecided(2));
    assert!(minors_positive(2, &[1, 3, 3, 10]));
}

#[test]
fn wrong_turns() {
    let rounded_down = judged("[2 -1; -1 2]", "[2 -1; -1 2]");
    assert_eq!(rounded_down.factor[1], -47862);
    let high_breaks_it = judged("[1 0; 0 1]", "[1 2; 2 1]");
    assert_eq!(high_breaks_it, not_definite(&[1, -1]));
    let early_stop = "[1 0 1000; 0 1 5; 1000 5 10000]";
    assert_eq!(judged(early_stop, early_stop), not_definite(&[-1143, 0, 1]));
}

#[test]
fn judged_boxes() {
    let boxed = |m: i64, a: i64, limit: i64| enclose(&[m], &[m], &[a], limit, &[0]);
    let kept = vec![UNWRITTEN; 2];
    assert_eq!(boxed(4, 0, -1), (-1, kept.clone()));
    assert_eq!(boxed(4, 0, 0), (0, vec![0, 0]));
    assert_eq!(boxed(1, 0, 0), (8, kept.clone()));
    assert_eq!(boxed(4, 1 << 20, 0).0, 0);
    assert_eq!(boxed(4, (1 << 20) + 1, 0), (9, kept));
}

#[test]
fn brackets() {
    let told = |low: &str, high: &str| {
        let n = low.split(';').count();
        bracket(n, &numbers(low), &numbers(high))
    };
    let thin = |matrix: &str| told(matrix, matrix);
    let between = |step: i64, bound: i64, vector: &[i64]| Bracketed {
        code: 0,
        step,
        bound,
        vector: vector.to_vec(),
    };
    let at_most = |bound: i64, vector: &[i64]| Bracketed {
        code: -1,
        ..between(UNWRITTEN, bound, vector)
    };
    assert_eq!(thin("[1]"), between(0, 1, &[1]));
    assert_eq!(thin("[4]"), between(3, 4, &[1]));
    assert_eq!(thin("[0]"), at_most(0, &[1]));
    assert_eq!(thin("[5 2; 2 5]"), between(2, 3, &[1, -1]));
    assert_eq!(thin("[1 2; 2 1]"), at_most(-1, &[1, -1]));
    assert_eq!(thin("[4 1; 1 3]"), between(2, 3, &[0, 1]));
    assert_eq!(thin("[0 1; 1 1]"), at_most(0, &[1, 0]));
    assert_eq!(thin("[1 3; 3 10]"), at_most(1, &[1, 0]));
    let apart = told("[3 -1; 1 3]", "[4 2; 3 4]");
    assert_eq!(apart, between(0, 1, &[1, -1]));
    assert_eq!(apart, told("[3 1; 1 3]", "[4 2; 2 4]"));
}

#[test]
fn judged_vector_and_factor() {
    let m = bytes(&[1, 1000, 1000, 10000]);
    let x = bytes(&[-1143, 1]);
    assert_eq!(entries::test_vector(2, &m, &m, &x), 0);
    let (m, factor) = ([2, 1, 1, 2], [89738, 47861, 0, 75910]);
    assert_eq!(test_factor(2, &m, &m, &factor), (0, 536914293));
    let m = bytes(&m);
    assert_eq!(entries::test_vector(2, &m, &m, &x), -1);
}
