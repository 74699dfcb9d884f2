//! The judge.

use hankboulder_reference::entries::{judge_code, judged, NEGATIVE, POSITIVE};
use hankboulder_reference::generate::Generator;
use hankboulder_reference::judge::Verdict;

use crate::act::{symmetric_at_1, Act, Call, Inputs};
use crate::counts::{Detail, Outcome};
use crate::guarded::Lent;
use crate::test_factor::TEST_FACTOR;
use crate::test_vector::TEST_VECTOR;

extern "C" {
    fn hb_judge(
        n: i64,
        low: *const u8,
        low_len: usize,
        high: *const u8,
        high_len: usize,
        factor: *mut u8,
        factor_len: usize,
        vector: *mut u8,
        vector_len: usize,
        over: *mut u8,
        over_len: usize,
    ) -> i64;
}

/// The judge.
pub const JUDGE: Act = Act {
    name: "hb_judge",
    answers: &[0, -1, -2, 1, 2, 3, 4, 5],
    // Factoring a table of order 1 ends where L is 1 or more, and where not, (1)
    // shows it.
    possible: |order, answer| symmetric_at_1(order, answer) && (order > 1 || answer != -2),
    inputs: Inputs::Numbers(2),
    generate,
    reference,
    library,
    confirm,
};

fn generate(generator: &mut Generator) -> Call {
    let call = generator.judge_call();
    let buffers = vec![call.low, call.high, call.factor, call.vector, call.over];
    Call::new(call.n, buffers)
}

fn reference(call: &mut Call) -> Outcome {
    let [low, high, factor, vector, over] = &mut call.buffers[..] else {
        unreachable!("the judge has five buffers");
    };
    let answer = judged(call.n, low, high, factor, vector, over);
    Outcome {
        answer: judge_code(&answer),
        detail: match answer {
            Ok(Verdict::NotDefinite(list, _)) => Some(Detail::From(list)),
            _ => None,
        },
    }
}

fn library(call: &Call, lent: &[Lent]) -> i64 {
    let [low, high, factor, vector, over] = lent else {
        unreachable!("the judge has five buffers");
    };
    // SAFETY: each pointer has its length in readable and writable bytes, and no
    // two overlap.
    unsafe {
        hb_judge(
            call.n,
            low.pointer,
            low.length,
            high.pointer,
            high.length,
            factor.pointer,
            factor.length,
            vector.pointer,
            vector.length,
            over.pointer,
            over.length,
        )
    }
}

/// A factor that the judge has written is accepted by the factor test, which writes the
/// same number over; and of a vector that it has written the vector test says yes.
fn confirm(after: &Call, answer: i64) {
    let [low, high, factor, vector, over] = &after.buffers[..] else {
        unreachable!("the judge has five buffers");
    };
    match answer {
        POSITIVE => {
            let lent = [low, high, factor].map(Vec::clone).to_vec();
            // Other bytes than those that have to be written
            let unwritten = over.iter().map(|byte| !byte).collect();
            let call = Call::new(after.n, [lent.clone(), vec![unwritten]].concat());
            let tested = [lent, vec![over.clone()]].concat();
            TEST_FACTOR.expect_after(&call, POSITIVE, &tested);
        }
        NEGATIVE => {
            let lent = [low, high, vector].map(Vec::clone).to_vec();
            TEST_VECTOR.expect(&Call::new(after.n, lent), POSITIVE);
        }
        _ => {}
    }
}
