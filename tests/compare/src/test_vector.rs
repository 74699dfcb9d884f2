//! The vector test.

use hankboulder_reference::entries;

use crate::act::{symmetric_at_1, Act, Call, Inputs};
use crate::counts::Outcome;
use crate::guarded::Lent;

extern "C" {
    fn hb_test_vector(
        n: i64,
        low: *const u8,
        low_len: usize,
        high: *const u8,
        high_len: usize,
        vector: *const u8,
        vector_len: usize,
    ) -> i64;
}

/// The vector test.
pub const TEST_VECTOR: Act = Act {
    name: "hb_test_vector",
    answers: &[0, -1, 1, 2, 3, 4, 5, 7],
    possible: symmetric_at_1,
    inputs: Inputs::Numbers(3),
    generate: |generator| {
        let call = generator.vector_call();
        Call::new(call.n, vec![call.low, call.high, call.vector])
    },
    reference,
    library,
    confirm: |_, _| {},
};

fn reference(call: &mut Call) -> Outcome {
    let [low, high, vector] = &call.buffers[..] else {
        unreachable!("the vector test has three buffers");
    };
    entries::test_vector(call.n, low, high, vector).into()
}

fn library(call: &Call, lent: &[Lent]) -> i64 {
    let [low, high, vector] = lent else {
        unreachable!("the vector test has three buffers");
    };
    // SAFETY: each pointer has its length in readable bytes, and no two overlap.
    unsafe {
        hb_test_vector(
            call.n,
            low.pointer,
            low.length,
            high.pointer,
            high.length,
            vector.pointer,
            vector.length,
        )
    }
}
