//! The bracket of the stiffness.

use hankboulder_reference::entries::{bracketed, stiffness_code, NEGATIVE, POSITIVE};
use hankboulder_reference::generate::Generator;
use hankboulder_reference::problem::{Bounds, ENTRY_RANGE};
use hankboulder_reference::stiffness::{has_smaller_fraction, Bracket};
use hankboulder_reference::vectors::tried_vectors;

use crate::act::{symmetric_at_1, Act, Call, Inputs};
use crate::counts::{Detail, Given, Outcome};
use crate::guarded::Lent;
use crate::judge::JUDGE;
use crate::test_vector::TEST_VECTOR;
use crate::{bytes, numbers};

extern "C" {
    fn hb_stiffness(
        n: i64,
        low: *const u8,
        low_len: usize,
        high: *const u8,
        high_len: usize,
        step: *mut u8,
        step_len: usize,
        bound: *mut u8,
        bound_len: usize,
        vector: *mut u8,
        vector_len: usize,
    ) -> i64;
}

/// The places of the outputs among the buffers
pub const STEP: usize = 2;
/// The bound's
pub const BOUND: usize = 3;
/// The vector's
pub const VECTOR: usize = 4;

/// The bracket of the stiffness.
pub const STIFFNESS: Act = Act {
    name: "hb_stiffness",
    answers: &[0, -1, 1, 2, 3, 4, 5],
    possible: symmetric_at_1,
    inputs: Inputs::Numbers(2),
    generate,
    reference,
    library,
    confirm,
};

fn generate(generator: &mut Generator) -> Call {
    let call = generator.stiffness_call();
    let buffers = vec![call.low, call.high, call.step, call.bound, call.vector];
    Call::new(call.n, buffers)
}

fn reference(call: &mut Call) -> Outcome {
    let [low, high, step, bound, vector] = &mut call.buffers[..] else {
        unreachable!("the bracket has five buffers");
    };
    let answer = bracketed(call.n, low, high, step, bound, vector);
    Outcome {
        answer: stiffness_code(&answer),
        detail: answer.ok().map(|bracket| detail(call, &bracket)),
    }
}

/// What the bracket of a call gives, and whether another vector than the one that is shown
/// has the least fraction.
fn detail(call: &Call, bracket: &Bracket) -> Detail {
    let list = |place: usize| numbers(&call.buffers[place]);
    let bounds = Bounds::read(call.n as usize, &list(0), &list(1));
    let bounds = bounds.expect("a bracket has bounds that are let through");
    let given = match (bracket.step, bracket.bound) {
        (Some(0), _) => Given::StepOf0,
        (Some(_), _) => Given::StepAbove0,
        (None, ..=-1) => Given::BoundBelow0,
        (None, 0) => Given::BoundOf0,
        (None, 1..) => Given::BoundAbove0,
    };
    Detail::Bracketed(given, has_smaller_fraction(&bounds, &bracket.vector))
}

fn library(call: &Call, lent: &[Lent]) -> i64 {
    let [low, high, step, bound, vector] = lent else {
        unreachable!("the bracket has five buffers");
    };
    // SAFETY: each pointer has its length in readable and writable bytes, and no two
    // overlap, unless both are tables.
    unsafe {
        hb_stiffness(
            call.n,
            low.pointer,
            low.length,
            high.pointer,
            high.length,
            step.pointer,
            step.length,
            bound.pointer,
            bound.length,
            vector.pointer,
            vector.length,
        )
    }
}

/// The tables of a call with a number taken off both diagonals, where that leaves them in
/// their range.
pub fn lowered(call: &Call, step: i64) -> Option<[Vec<u8>; 2]> {
    let lower = |place: usize| {
        let mut table = numbers(&call.buffers[place]);
        for entry in table.iter_mut().step_by(call.n as usize + 1) {
            *entry -= step;
        }
        let mut entries = table.iter();
        let within = entries.all(|entry| i128::from(entry.abs()) <= ENTRY_RANGE);
        within.then(|| bytes(&table))
    };
    Some([lower(0)?, lower(1)?])
}

/// The library's answer of the vector test for two tables.
pub fn tested(n: i64, tables: &[Vec<u8>; 2], vector: &[u8]) -> i64 {
    let [low, high] = tables.clone();
    let call = Call::new(n, vec![low, high, vector.to_vec()]);
    TEST_VECTOR.given(&call).0
}

/// The library's verdict on two tables.
pub fn verdict(n: i64, tables: &[Vec<u8>; 2]) -> i64 {
    let [low, high] = tables.clone();
    let (factor, vector) = (vec![0; low.len()], vec![0; 8 * n as usize]);
    let call = Call::new(n, vec![low, high, factor, vector, vec![0; 8]]);
    JUDGE.given(&call).0
}

/// t by twenty verdicts of the library on lowered tables (R12.2).
pub fn step_by_verdicts(call: &Call) -> i64 {
    let diagonal = numbers(&call.buffers[0]);
    let least = diagonal.iter().step_by(call.n as usize + 1).min();
    let least = *least.expect("an order is 1 or more");
    let succeeds = |d: i64| {
        let lowered = lowered(call, d).filter(|_| least - d >= 1);
        lowered.is_some_and(|tables| verdict(call.n, &tables) == POSITIVE)
    };
    let bits = (0..20).rev().map(|bit| 1 << bit);
    bits.fold(0, |t, bit| if succeeds(t + bit) { t + bit } else { t })
}

/// At orders up to this one every tried vector is tested below the bound.
const ALL_TESTED: i64 = 2;

/// A step is given exactly with a definite verdict, is the one that verdicts on lowered
/// tables find, and is below the bound. The bound is in its range. The vector is a tried
/// one; of the tables with the bound taken off the vector test says yes of it, with one
/// less taken off no of it, up to order `ALL_TESTED` no of every tried vector, and with
/// nothing yes where the bound is 0 or less.
fn confirm(after: &Call, answer: i64) {
    if ![POSITIVE, NEGATIVE].contains(&answer) {
        return;
    }
    let (n, tables) = (
        after.n,
        [after.buffers[0].clone(), after.buffers[1].clone()],
    );
    let single = |place: usize| numbers(&after.buffers[place])[0];
    let (bound, shown) = (single(BOUND), &after.buffers[VECTOR]);
    let definite = verdict(n, &tables) == POSITIVE;
    assert_eq!(answer == POSITIVE, definite, "{after:?}");
    if answer == POSITIVE {
        let step = single(STEP);
        assert!((0..bound).contains(&step), "{after:?}");
        assert_eq!(step, step_by_verdicts(after), "{after:?}");
    }
    let least = -i128::from(n) * ENTRY_RANGE;
    let diagonal = numbers(&tables[0]).into_iter().step_by(n as usize + 1);
    assert!(i128::from(bound) >= least, "{after:?}");
    assert!(diagonal.min() >= Some(bound), "{after:?}");
    let entries = numbers(shown);
    assert!(entries.iter().all(|entry| entry.abs() <= 1), "{after:?}");
    let yes = tested(n, &tables, shown) == POSITIVE;
    assert_eq!(yes, bound <= 0, "{after:?}");
    if let Some(at) = lowered(after, bound) {
        assert_eq!(tested(n, &at, shown), POSITIVE, "{after:?}");
    }
    if let Some(below) = lowered(after, bound - 1) {
        assert_eq!(tested(n, &below, shown), NEGATIVE, "{after:?}");
        let all = tried_vectors(n as usize).iter();
        for x in all.filter(|_| n <= ALL_TESTED) {
            let x: Vec<i64> = x.iter().map(|entry| *entry as i64).collect();
            assert_eq!(tested(n, &below, &bytes(&x)), NEGATIVE, "{after:?}");
        }
    }
}
