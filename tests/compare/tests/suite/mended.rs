//! Lopsided tables, whose upper and lower halves differ: every act answers as for the
//! mended ones (R2.10), and leaves tables that are only read as they are. A lopsided
//! problem is made from a symmetric one, which is what it has to be mended to. Expected
//! refusals, sums and files are literals; all else agrees with the reference too.

use hankboulder_compare::enclosure::BOX;
use hankboulder_compare::gather::GATHER;
use hankboulder_compare::judge::JUDGE;
use hankboulder_compare::pool::{self, POOL};
use hankboulder_compare::read_summary::{of_file, unwritten, writing_again, READ_SUMMARY};
use hankboulder_compare::read_sums::READ_SUMS;
use hankboulder_compare::stiffness::STIFFNESS;
use hankboulder_compare::test_factor::TEST_FACTOR;
use hankboulder_compare::test_vector::TEST_VECTOR;
use hankboulder_compare::write_summary::WRITE_SUMMARY;
use hankboulder_compare::{bytes, numbers, Act, Call, Lent};
use hankboulder_reference::cases::{self, bytes as hexadecimal};
use hankboulder_reference::generate::{Generator, ProblemKind, RawPool, RawProblem, KINDS};
use hankboulder_reference::random::Random;
use hankboulder_reference::rides::Sample;

use crate::support::{
    call_on, factor_call, judge_call, places, problem_call, square, stiffness_call, write_call,
    ENTRY_RANGE, FILE, JUDGED_OVER, SCALE, SIDES,
};

const WRITTEN: i64 = 0;
const TAKEN: i64 = 0;
const DEFINITE: i64 = 0;
const NOT_DEFINITE: i64 = -1;
const EMPTY: i64 = -1;
const REFUSED_LENGTH: i64 = 2;
const REFUSED_RANGE: i64 = 3;
const REFUSED_CROSSED: i64 = 4;
const REFUSED_LOPSIDED: i64 = 5;
const REFUSED_FACTOR: i64 = 6;
const REFUSED_VECTOR: i64 = 7;
const REFUSED_FLAT: i64 = 8;
const REFUSED_FAR: i64 = 9;
const REFUSED_REVERSED: i64 = 16;

const END: i64 = ENTRY_RANGE;
const LIMIT_RANGE: i128 = 1 << 54;
/// The order of sums that take a sample
const ORDER: usize = 4;

/// What is offered to the factor test and to the vector test.
struct Offered {
    factor: Vec<i64>,
    vector: Vec<i64>,
}

/// What the library's judge gives for a problem, and where it gives none 2^16 times the
/// identity, and ones.
fn offered(problem: &RawProblem) -> Offered {
    let (answer, after) = JUDGE.given(&judge_call(&problem.low, &problem.high));
    let mut offered = Offered {
        factor: square(problem.order, SCALE, 0),
        vector: vec![1; problem.order],
    };
    match answer {
        DEFINITE => offered.factor = numbers(&after[2]),
        NOT_DEFINITE => offered.vector = numbers(&after[3]),
        _ => {}
    }
    offered
}

/// Makes a call of an act on a problem.
type Caller = fn(&RawProblem, &Offered) -> Call;

/// Every act. Those from the box on are handed linear terms.
const ACTS: [(&Act, Caller); 10] = [
    (&JUDGE, |p, _| judge_call(&p.low, &p.high)),
    (&TEST_FACTOR, |p, o| factor_call(&p.low, &p.high, &o.factor)),
    (&TEST_VECTOR, |p, o| {
        call_on(&p.low, &p.high, &[bytes(&o.vector)])
    }),
    (&STIFFNESS, |p, _| stiffness_call(&p.low, &p.high)),
    (&BOX, |p, _| problem_call(p)),
    (&GATHER, |p, _| {
        gather_call(p, sample([0.5, -0.3, 0.0, 7.9, 1.0]))
    }),
    (&POOL, |p, _| pool_call(p)),
    (&READ_SUMS, |p, _| sums_call(p)),
    (&WRITE_SUMMARY, |p, _| write_call(p)),
    (&READ_SUMMARY, |p, _| of_file(p.file(), unwritten())),
];

fn sample(numbers: [f32; 5]) -> Sample {
    Sample::of(numbers.map(f32::to_bits))
}

/// The sums of a problem, with its limit for a running limit.
fn gather_call(problem: &RawProblem, sample: Sample) -> Call {
    let ends = [bytes(&problem.linear_low), bytes(&problem.linear_high)];
    let others = [&ends[..], &[bytes(&[problem.limit])]].concat();
    Call {
        sample,
        ..call_on(&problem.low, &problem.high, &others)
    }
}

/// A problem of ones, pooled into the sums of a problem, with its limit for a running limit.
fn pool_call(problem: &RawProblem) -> Call {
    let order = problem.order;
    let ones = RawProblem {
        low: square(order, 1, 1),
        high: square(order, 1, 1),
        ..RawProblem::zeros(order)
    };
    let pool = RawPool {
        sums: problem.clone(),
        problems: vec![ones],
    };
    pool::of(pool.call())
}

fn sums_call(problem: &RawProblem) -> Call {
    let ends = [bytes(&problem.linear_low), bytes(&problem.linear_high)];
    let others = [&ends[..], &[vec![0x5A; 8]]].concat();
    Call {
        numbers: vec![problem.limit.min(0), 1000],
        ..call_on(&problem.low, &problem.high, &others)
    }
}

/// Fails where an act does not answer a lopsided problem as it answers the one that it is
/// mended to, or leaves other buffers, or writes to a table that is only read.
fn expect_mended_by(act: &Act, apart: &Call, symmetric: &Call) {
    let outcome = act.agree(apart, 3);
    assert_eq!(outcome, act.agree(symmetric, 6), "{}: {apart:?}", act.name);
    let (_, after) = act.given(apart);
    let (_, expected) = act.given(symmetric);
    // The tables come first, and a file stands for both.
    let first = if act.name == READ_SUMMARY.name { 1 } else { 2 };
    if [GATHER.name, POOL.name].contains(&act.name) && outcome.answer == TAKEN {
        assert_eq!(after, expected, "{apart:?}");
    } else {
        assert_eq!(after[..first], apart.buffers[..first], "{}", act.name);
        assert_eq!(after[first..], expected[first..], "{}", act.name);
    }
}

/// The same of every act.
fn expect_mended(apart: &RawProblem, problem: &RawProblem) {
    let offered = offered(problem);
    for (act, call) in ACTS {
        expect_mended_by(act, &call(apart, &offered), &call(problem, &offered));
    }
}

/// Fails where the library or the reference does not refuse a problem by the number, in
/// every one of these acts, or writes. Gathering refuses an order other than 4 before.
fn expect_refused_by(acts: &[(&Act, Caller)], problem: &RawProblem, number: i64) {
    let offered = offered(problem);
    for (act, call) in acts {
        let other_order = act.name == GATHER.name && problem.order != ORDER;
        let number = if other_order { REFUSED_LENGTH } else { number };
        let call = call(problem, &offered);
        act.expect(&call, number);
        assert_eq!(act.agree(&call, 1).answer, number);
    }
}

/// The same of every act.
fn expect_refused(problem: &RawProblem, number: i64) {
    expect_refused_by(&ACTS, problem, number);
}

#[test]
fn halves_rounded_apart_of_every_kind_and_order() {
    let mut generator = Generator::new(131);
    let mut lopsided = 0;
    for (order, kind) in (1..=8).flat_map(|order| KINDS.map(|kind| (order, kind))) {
        for round in 0..30 {
            let problem = generator.problem(kind, order, round % 2 == 1);
            let apart = generator.rounded_apart(&problem);
            expect_mended(&apart, &problem);
            lopsided += usize::from(!apart.is_symmetric());
        }
    }
    assert!(lopsided > 900, "{lopsided}");
}

#[test]
fn a_pair_that_leaves_no_number_of_every_kind_and_order() {
    let mut generator = Generator::new(132);
    let mut met = 0;
    for (order, kind) in (2..=8).flat_map(|order| KINDS.map(|kind| (order, kind))) {
        for round in 0..30 {
            let mut problem = generator.problem(kind, order, round % 2 == 1);
            let i = round % order;
            generator.leave_no_number(&mut problem, (i, (i + 1) % order));
            let mut all = problem.low.iter().chain(&problem.high);
            if all.all(|entry| entry.abs() <= END) {
                expect_refused(&problem, REFUSED_LOPSIDED);
                met += 1;
            }
        }
    }
    assert!(met > 600, "{met}");
}

/// A problem of an order that has a box: L and U are 0 to 2 off the diagonal.
fn good(order: usize) -> RawProblem {
    let mut low = square(order, 0, 0);
    for i in 0..order {
        low[i * order + i] = 60 + i as i64;
    }
    let mut high = low.clone();
    let off_diagonal = |place: &usize| !place.is_multiple_of(order + 1);
    (0..order * order)
        .filter(off_diagonal)
        .for_each(|k| high[k] = 2);
    RawProblem {
        order,
        low,
        high,
        linear_low: vec![-3; order],
        linear_high: vec![5; order],
        limit: 700,
        centre: vec![1; order],
    }
}

/// `good` with these bounds at one place.
fn with(order: usize, place: usize, (low, high): (i64, i64)) -> RawProblem {
    let mut problem = good(order);
    (problem.low[place], problem.high[place]) = (low, high);
    problem
}

/// All places (i, j) at every order, i ≠ j.
fn off_diagonal() -> impl Iterator<Item = (usize, usize, usize)> {
    places().filter(|(_, i, j)| i != j)
}

#[test]
fn a_half_that_is_mended_away_at_every_entry() {
    for (order, i, j) in off_diagonal() {
        for half in [(-1, 2), (0, 3), (-5, 9), (-END, END)] {
            expect_mended(&with(order, i * order + j, half), &good(order));
        }
        // Each half has one bound that counts: 1 is left.
        let mut apart = with(order, i * order + j, (1, 7));
        apart.high[j * order + i] = 1;
        let mut thin = good(order);
        for place in [i * order + j, j * order + i] {
            (thin.low[place], thin.high[place]) = (1, 1);
        }
        expect_mended(&apart, &thin);
    }
}

/// At each place alone L is not above U.
#[test]
fn refusal_5_at_every_entry_where_no_number_is_left() {
    for (order, i, j) in off_diagonal() {
        let place = i * order + j;
        for half in [(3, 3), (3, 9), (END, END), (-1, -1), (-9, -1), (-END, -END)] {
            expect_refused(&with(order, place, half), REFUSED_LOPSIDED);
        }
        // The next number is left.
        for half in [(2, 2), (2, 9), (0, 0), (-9, 0)] {
            let left = with(order, place, half);
            let judged = JUDGE.agree(&judge_call(&left.low, &left.high), 0);
            assert_eq!(judged.answer, DEFINITE);
        }
    }
}

#[test]
fn a_half_that_would_be_mended_away_is_refused_by_3_or_4() {
    for (order, i, j) in off_diagonal() {
        let place = i * order + j;
        let (least, most) = (i32::MIN.into(), i32::MAX.into());
        for half in [(-END - 1, 2), (0, END + 1), (least, most), (least, 2)] {
            expect_refused(&with(order, place, half), REFUSED_RANGE);
        }
        for half in [(2, 1), (1, 0), (END, -END), (-1, -2), (4, 3)] {
            expect_refused(&with(order, place, half), REFUSED_CROSSED);
        }
        // 3 comes first, though both are of one pair; the other half would do.
        let mut both = with(order, place, (2, 1));
        both.low[j * order + i] = -END - 1;
        expect_refused(&both, REFUSED_RANGE);
    }
}

/// Each check is completed over all of the input before another begins (R5.1): a pair
/// that leaves no number does not hide an entry that 4 or 3 refuses, before it or behind it.
#[test]
fn refusal_5_at_every_entry_comes_after_4_and_3_at_either_end_of_the_diagonal() {
    for (order, i, j) in off_diagonal() {
        for half in [(3, 3), (3, 9), (-1, -1), (-9, -1)] {
            let lopsided = with(order, i * order + j, half);
            for end in [0, order * order - 1] {
                let mut crossed = lopsided.clone();
                crossed.low[end] = crossed.high[end] + 1;
                expect_refused(&crossed, REFUSED_CROSSED);
                let (mut below, mut above) = (lopsided.clone(), crossed);
                below.low[end] = -END - 1;
                expect_refused(&below, REFUSED_RANGE);
                // 4 too, at the other end
                above.high[order * order - 1 - end] = END + 1;
                expect_refused(&above, REFUSED_RANGE);
            }
        }
    }
}

/// 16, 6, 7, 8 and 9 are asked of lopsided tables that are let through.
#[test]
fn what_comes_after_5_is_asked_of_the_mended_tables() {
    for (order, i, j) in off_diagonal() {
        let apart = with(order, i * order + j, (-END, END));
        let mut reversed = apart.clone();
        reversed.linear_low[order - 1] = 6;
        expect_refused_by(&ACTS[4..], &reversed, REFUSED_REVERSED);
        let (mut flat, mut far) = (apart.clone(), apart.clone());
        flat.low[0] = 1;
        BOX.expect(&problem_call(&flat), REFUSED_FLAT);
        far.linear_high[0] = 1 << 30;
        BOX.expect(&problem_call(&far), REFUSED_FAR);
        let zeros = bytes(&vec![0; order]);
        let call = call_on(&apart.low, &apart.high, &[zeros]);
        TEST_VECTOR.expect(&call, REFUSED_VECTOR);
        let call = factor_call(&apart.low, &apart.high, &square(order, 0, 0));
        TEST_FACTOR.expect(&call, REFUSED_FACTOR);
    }
}

#[test]
fn verdicts_worked_by_hand() {
    let judge = |low: &str, high: &str| judge_call(&cases::numbers(low), &cases::numbers(high));
    let call = judge("[2 0; 1 2]", "[2 1; 2 2]");
    let mut after = call.buffers.clone();
    after[2] = bytes(&[89738, 47861, 0, 75910]);
    after[JUDGED_OVER] = bytes(&[536914293]);
    JUDGE.expect_after(&call, DEFINITE, &after);
    let call = judge("[1 -9; 2 1]", "[1 2; 5 1]");
    let mut after = call.buffers.clone();
    after[3] = bytes(&[1, -1]);
    JUDGE.expect_after(&call, NOT_DEFINITE, &after);
    JUDGE.expect(&judge("[1 2; 3 4]", "[1 2; 3 4]"), REFUSED_LOPSIDED);
    JUDGE.expect(&judge("[2 0; 2 2]", "[2 1; 3 2]"), REFUSED_LOPSIDED);
}

/// The identity, each entry off its diagonal bounded in one half from below and in the
/// other from above: the margin is that of the mended tables, whose rows have no width.
#[test]
fn the_margin_is_asked_of_the_mended_tables() {
    for order in 1..=8 {
        let (mut low, mut high) = (square(order, 1, 0), square(order, 1, 0));
        for (i, j) in (0..order).flat_map(|i| (0..i).map(move |j| (i, j))) {
            low[i * order + j] = -END;
            high[j * order + i] = END;
        }
        let call = judge_call(&low, &high);
        let mut after = call.buffers.clone();
        after[2] = bytes(&square(order, 61303, 0));
        after[JUDGED_OVER] = bytes(&[536909487]);
        JUDGE.expect_after(&call, DEFINITE, &after);
    }
}

/// Sums of order 4, zero but for these bounds at (i,j) and at (j,i).
fn sums((i, j): (usize, usize), one: (i64, i64), other: (i64, i64), drawn: [f32; 5]) -> Call {
    let mut sums = RawProblem::zeros(ORDER);
    for (place, half) in [(i * ORDER + j, one), (j * ORDER + i, other)] {
        (sums.low[place], sums.high[place]) = half;
    }
    gather_call(&sums, sample(drawn))
}

/// Fails where the sample is not taken, or does not leave these bounds in both places.
/// Entries beside them are not looked at here, but agree with the reference.
fn expect_taken(call: &Call, (i, j): (usize, usize), bounds: (i64, i64)) {
    assert_eq!(GATHER.agree(call, 2).answer, TAKEN);
    let (_, after) = GATHER.given(call);
    let tables = [numbers(&after[0]), numbers(&after[1])];
    for place in [i * ORDER + j, j * ORDER + i] {
        assert_eq!((tables[0][place], tables[1][place]), bounds, "{call:?}");
    }
}

/// A sample that adds 1 to the entries (i,j) and (j,i), or takes 1 off them.
fn of_one((i, j): (usize, usize), sign: f32) -> [f32; 5] {
    let mut drawn = [0.0; 5];
    (drawn[i], drawn[j]) = (0.0625, sign * 0.0625);
    drawn
}

/// All places of sums but the diagonal.
fn places_of_sums() -> impl Iterator<Item = (usize, usize)> {
    let all = (0..ORDER).flat_map(|i| (0..ORDER).map(move |j| (i, j)));
    all.filter(|(i, j)| i != j)
}

#[test]
fn sums_are_mended_before_a_sample_is_added() {
    for at in places_of_sums() {
        let (plus, minus) = (of_one(at, 1.0), of_one(at, -1.0));
        expect_taken(&sums(at, (-3, 5), (-2, 7), plus), at, (-1, 6));
        expect_taken(&sums(at, (-3, 5), (-2, 7), minus), at, (-3, 4));
        expect_taken(&sums(at, (2, 5), (-2, 2), plus), at, (3, 3));
        // A sample of zeros mends them, and no more.
        expect_taken(&sums(at, (-3, 5), (-2, 7), [0.0; 5]), at, (-2, 5));
        GATHER.expect(&sums(at, (3, 5), (-2, 2), plus), REFUSED_LOPSIDED);
    }
}

#[test]
fn a_half_that_is_mended_away_halves_nothing() {
    for at in places_of_sums() {
        let (plus, minus) = (of_one(at, 1.0), of_one(at, -1.0));
        for away in [(0, END), (-END, END)] {
            expect_taken(&sums(at, away, (0, 4), plus), at, (1, 5));
        }
        for away in [(-END, 0), (-END, END)] {
            expect_taken(&sums(at, away, (-4, 0), minus), at, (-5, -1));
        }
        // The half that counts has room for 1 more.
        expect_taken(&sums(at, (0, END), (0, END - 1), plus), at, (1, END));
        expect_taken(&sums(at, (-END, 0), (1 - END, 0), minus), at, (-END, -1));
    }
}

/// Both halves are at the end, so that there is no room: the mended sums are halved.
#[test]
fn lopsided_sums_are_mended_before_they_are_halved() {
    for at in places_of_sums() {
        let (plus, minus) = (of_one(at, 1.0), of_one(at, -1.0));
        let half = END / 2;
        expect_taken(&sums(at, (-7, END), (-9, END), plus), at, (-3, half + 1));
        expect_taken(&sums(at, (-END, 7), (-END, 9), minus), at, (-half - 1, 3));
        // Or another sum is.
        let mut full = sums(at, (-3, 5), (-2, 7), [0.0, 0.0, 0.0, 0.0, 0.0625]);
        full.buffers[4] = bytes(&[-(1 << 54)]);
        expect_taken(&full, at, (-1, 3));
    }
}

/// A chain of samples from lopsided sums: from the first that is taken on, it is the chain
/// from the mended ones.
#[test]
fn chains_from_lopsided_sums() {
    let mut generator = Generator::new(133);
    let mut lopsided = 0;
    for _ in 0..300 {
        let apart = generator.sums();
        let [mut one, mut other] =
            [&apart, &apart.mended()].map(|sums| gather_call(sums, Sample::default()));
        let mut taken = false;
        for round in 0..6 {
            one.sample = generator.good_sample();
            other.sample = one.sample;
            let answer = GATHER.agree(&one, round).answer;
            assert_eq!(GATHER.agree(&other, round).answer, answer);
            taken |= answer == TAKEN;
            (one.buffers, other.buffers) = (GATHER.given(&one).1, GATHER.given(&other).1);
            assert_eq!(one.buffers == other.buffers, taken || apart.is_symmetric());
        }
        lopsided += usize::from(!apart.is_symmetric());
    }
    assert!(lopsided > 60, "{lopsided}");
}

/// L = [5 1; 0 6], U = [5 3; 2 6], and terms 0.
const LOPSIDED_FILE: &str = "01 0100 02, \
    02 1000 05000000 01000000 00000000 06000000, \
    03 1000 05000000 03000000 02000000 06000000, \
    04 1000 0000000000000000 0000000000000000, 05 0800 0000000000000000, \
    06 1000 0000000000000000 0000000000000000, 07 1000 0000000000000000 0000000000000000";

/// The same with L = [5 1; 1 6], U = [5 2; 2 6].
const MENDED_FILE: &str = "01 0100 02, \
    02 1000 05000000 01000000 01000000 06000000, \
    03 1000 05000000 02000000 02000000 06000000, \
    04 1000 0000000000000000 0000000000000000, 05 0800 0000000000000000, \
    06 1000 0000000000000000 0000000000000000, 07 1000 0000000000000000 0000000000000000";

/// The buffers after reading a file, and the file that is written of them. Fails where it
/// is not read, and where the file that was lent is not as it was.
fn read_and_written(file: &[u8]) -> (Vec<Vec<u8>>, Vec<u8>) {
    let call = of_file(file.to_vec(), unwritten());
    assert_eq!(READ_SUMMARY.agree(&call, 5).answer, WRITTEN);
    let (_, after) = READ_SUMMARY.given(&call);
    assert_eq!(after[0], file);
    let outputs = after[1..].to_vec();
    let again = writing_again(&of_file(file.to_vec(), outputs.clone()));
    let (answer, mut buffers) = WRITE_SUMMARY.given(&again);
    assert_eq!(answer, WRITTEN);
    (outputs, buffers.swap_remove(FILE))
}

#[test]
fn a_lopsided_file_worked_by_hand() {
    let (lopsided, mended) = (hexadecimal(LOPSIDED_FILE), hexadecimal(MENDED_FILE));
    let (outputs, file) = read_and_written(&lopsided);
    assert_eq!(numbers(&outputs[1])[..5], [5, 1, 1, 6, 0]);
    assert_eq!(numbers(&outputs[2])[..5], [5, 2, 2, 6, 0]);
    assert_eq!(file, mended);
    assert_eq!(read_and_written(&mended), (outputs, mended));
}

/// A symmetric file comes back byte for byte; a lopsided one as that of the mended problem,
/// which is read as itself.
#[test]
fn round_trips_of_lopsided_files_of_every_kind_and_order() {
    let mut generator = Generator::new(134);
    for (order, kind) in (1..=8).flat_map(|order| KINDS.map(|kind| (order, kind))) {
        for round in 0..40 {
            let problem = generator.problem(kind, order, round % 2 == 1);
            let apart = generator.rounded_apart(&problem);
            let (symmetric, lopsided) = (problem.file(), apart.file());
            let (outputs, file) = read_and_written(&lopsided);
            assert_eq!(file, symmetric, "{apart:?}");
            assert_eq!(read_and_written(&symmetric), (outputs, symmetric.clone()));
            // The writer makes the same file of the lopsided problem itself.
            let call = write_call(&apart);
            let mut after = call.buffers.clone();
            after[FILE] = symmetric;
            WRITE_SUMMARY.expect_after(&call, WRITTEN, &after);
        }
    }
}

/// The answer where one buffer is lent as both tables, as the acts that only read them
/// allow; fails where it is written to.
fn of_one_table(act: &Act, call: &Call) -> i64 {
    let mut buffers = call.buffers.clone();
    let lend = |buffer: &mut Vec<u8>| Lent {
        pointer: buffer.as_mut_ptr(),
        length: buffer.len(),
    };
    let mut lent: Vec<Lent> = buffers.iter_mut().map(lend).collect();
    lent[1] = lent[0];
    let answer = (act.library)(call, &lent);
    assert_eq!(buffers[..2], call.buffers[..2], "{}", act.name);
    answer
}

/// A lopsided table that is lent as both leaves no number; a symmetric one is let through.
#[test]
fn one_lopsided_table_lent_as_both_is_refused_by_5() {
    for (order, i, j) in off_diagonal() {
        let mut thin = good(order);
        thin.high = thin.low.clone();
        let mut lopsided = thin.clone();
        lopsided.low[i * order + j] += 1;
        lopsided.high = lopsided.low.clone();
        let offered = offered(&thin);
        let read_only = ACTS.iter().filter(|(act, _)| {
            let written = [GATHER.name, POOL.name, READ_SUMMARY.name];
            !written.contains(&act.name)
        });
        for (act, call) in read_only {
            let answer = of_one_table(act, &call(&lopsided, &offered));
            assert_eq!(answer, REFUSED_LOPSIDED, "{}", act.name);
            assert!(of_one_table(act, &call(&thin, &offered)) <= 0);
        }
    }
}

/// Points at the edge of the ellipsoids of members between both halves.
#[test]
fn points_of_every_member_of_lopsided_tables_lie_inside() {
    let (mut generator, mut random) = (Generator::new(135), Random::new(136));
    let mut held = 0;
    for round in 0..3500 {
        let order = 2 + round % 7;
        let problem = generator.problem(ProblemKind::Definite, order, true);
        let mut apart = generator.rounded_apart(&problem);
        let mut point = generator.point_near(&apart);
        point.lower();
        let limit = point.least_limit();
        if limit.abs() > LIMIT_RANGE {
            continue;
        }
        apart.limit = limit as i64;
        let (answer, buffers) = BOX.given(&problem_call(&apart));
        assert_ne!(answer, EMPTY, "{apart:?} {point:?}");
        if answer == 0 {
            point.go_outward(limit, &mut random);
            assert!(point.is_in(&numbers(&buffers[SIDES])), "{apart:?}");
            held += 1;
        }
    }
    println!("{held} points in their boxes");
    assert!(held > 800, "{held}");
}
