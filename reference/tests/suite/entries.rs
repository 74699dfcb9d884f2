//! What the byte entries write, and what they keep.

use hankboulder_reference::entries;
use hankboulder_reference::generate::Generator;

use crate::support::{
    bytes, run_box, run_factor, run_gather, run_judge, run_pool, run_stiffness, run_sums,
};

/// 'Definite' keeps the vector, 'not definite' the factor, all others both. What the
/// rows have over is written with the factor.
#[test]
fn the_judge_writes_a_factor_with_its_number_or_a_vector() {
    let mut generator = Generator::new(11);
    let mut written = [0, 0];
    for _ in 0..1500 {
        let before = generator.judge_call();
        let mut after = before.clone();
        let code = run_judge(&mut after);
        let changed = [
            after.factor != before.factor,
            after.vector != before.vector,
            after.over != before.over,
        ];
        match code {
            0 => assert_eq!(changed, [true, false, true]),
            -1 => assert_eq!(changed, [false, true, false]),
            _ => assert_eq!(changed, [false; 3]),
        }
        written[0] += usize::from(changed[0]);
        written[1] += usize::from(changed[1]);
    }
    assert!(written.iter().all(|count| *count > 100), "{written:?}");
}

/// What the rows have over is written where the code is 0 or -1 and nowhere else.
#[test]
fn the_factor_test_writes_what_the_rows_have_over_where_it_answers() {
    let mut generator = Generator::new(15);
    let mut written = [0, 0];
    for _ in 0..3000 {
        let before = generator.factor_call();
        let mut after = before.clone();
        let code = run_factor(&mut after);
        assert_eq!(after.over != before.over, code <= 0, "{before:?}");
        after.over = before.over.clone();
        assert_eq!(after, before);
        if code <= 0 {
            written[code.unsigned_abs() as usize] += 1;
        }
    }
    assert!(written.iter().all(|count| *count > 300), "{written:?}");
}

/// Sides are written where the code is 0 and nowhere else.
#[test]
fn the_box_writes_only_a_given_box() {
    let mut generator = Generator::new(12);
    let mut given = 0;
    for _ in 0..1500 {
        let mut call = generator.box_call();
        let before = call.sides.clone();
        let code = run_box(&mut call);
        assert_eq!(call.sides != before, code == 0);
        given += usize::from(code == 0);
    }
    assert!(given > 100, "{given}");
}

/// Bound and vector are written where the code is 0 or -1, the step where it is 0, and
/// nothing elsewhere.
#[test]
fn the_bracket_writes_a_bound_with_its_vector_and_a_step_where_it_is_given() {
    let mut generator = Generator::new(16);
    let mut written = [0, 0];
    for _ in 0..1500 {
        let before = generator.stiffness_call();
        let mut after = before.clone();
        let code = run_stiffness(&mut after);
        let changed = [
            after.step != before.step,
            after.bound != before.bound,
            after.vector != before.vector,
        ];
        match code {
            0 => assert_eq!(changed, [true; 3]),
            -1 => assert_eq!(changed, [false, true, true]),
            _ => assert_eq!(changed, [false; 3]),
        }
        assert_eq!((after.low, after.high), (before.low, before.high));
        written[0] += usize::from(changed[0]);
        written[1] += usize::from(changed[1]);
    }
    assert!(written[0] > 200 && written[1] > 700, "{written:?}");
}

/// The sums are written where the sample is taken and nowhere else.
#[test]
fn gathering_writes_only_what_is_taken() {
    let mut generator = Generator::new(13);
    let mut changed = 0;
    for _ in 0..3000 {
        let before = generator.gather_call();
        let mut after = before.clone();
        let code = run_gather(&mut after);
        assert!(code == 0 || after == before, "{code}");
        changed += usize::from(after != before);
    }
    assert!(changed > 900, "{changed}");
}

/// The sums are written where the problems are taken and nowhere else, and no list is.
#[test]
fn pooling_writes_only_what_is_taken() {
    let mut generator = Generator::new(15);
    let mut changed = 0;
    for _ in 0..3000 {
        let before = generator.pool_call();
        let mut after = before.clone();
        let code = run_pool(&mut after);
        assert!(code == 0 || after == before, "{code}");
        changed += usize::from(after != before);
    }
    assert!(changed > 900, "{changed}");
}

/// The limit is written where the code is 0 and nowhere else.
#[test]
fn reading_the_sums_writes_only_a_limit() {
    let mut generator = Generator::new(14);
    let mut written = 0;
    for _ in 0..1500 {
        let mut call = generator.sums_call();
        let before = call.limit.clone();
        let code = run_sums(&mut call);
        assert_eq!(call.limit != before, code == 0);
        written += usize::from(code == 0);
    }
    assert!(written > 300, "{written}");
}

#[test]
fn numbers_are_signed_with_the_low_byte_first() {
    let mut sides = [0xA5; 16];
    // M = [4], a = −8, α = 0, c = 2: case P.
    let m = [4, 0, 0, 0, 0, 0, 0, 0];
    let a = [0xF8, 0xFF, 0xFF, 0xFF, 0xFF, 0xFF, 0xFF, 0xFF];
    let c = [2, 0, 0, 0, 0, 0, 0, 0];
    assert_eq!(entries::enclose(1, &m, &m, &a, &a, 0, &c, &mut sides), 0);
    let low = [0xFF; 8];
    let high = [5, 0, 0, 0, 0, 0, 0, 0];
    assert_eq!(sides, [low, high].concat()[..]);

    let (mut factor, mut vector, mut over) = ([0; 8], [0xA5; 8], [0xA5; 8]);
    let code = entries::judge(1, &m, &m, &mut factor, &mut vector, &mut over);
    assert_eq!(code, 0);
    // 129007 = 0x1F7EF
    assert_eq!(factor, [0xEF, 0xF7, 1, 0, 0, 0, 0, 0]);
    assert_eq!(vector, [0xA5; 8]);
    // 537063135 = 0x2002EEDF
    assert_eq!(over, [0xDF, 0xEE, 0x02, 0x20, 0, 0, 0, 0]);
    // 2^34 - 131073^2 = -262145
    let r = bytes(&[131073]);
    assert_eq!(entries::test_factor(1, &m, &m, &r, &mut over), -1);
    assert_eq!(over, [0xFF, 0xFF, 0xFB, 0xFF, 0xFF, 0xFF, 0xFF, 0xFF]);

    // 300 = 0x12C has the step 299, and -2 is a bound alone.
    let (mut step, mut bound) = ([0xA5; 8], [0xA5; 8]);
    let m = [0x2C, 1, 0, 0, 0, 0, 0, 0];
    let code = entries::stiffness(1, &m, &m, &mut step, &mut bound, &mut vector);
    assert_eq!((code, bound), (0, m));
    assert_eq!(step, [0x2B, 1, 0, 0, 0, 0, 0, 0]);
    assert_eq!(vector, [1, 0, 0, 0, 0, 0, 0, 0]);
    let m = [0xFE, 0xFF, 0xFF, 0xFF, 0xFF, 0xFF, 0xFF, 0xFF];
    let code = entries::stiffness(1, &m, &m, &mut step, &mut bound, &mut vector);
    assert_eq!((code, bound), (-1, m));
    assert_eq!(step, [0x2B, 1, 0, 0, 0, 0, 0, 0]);
}
