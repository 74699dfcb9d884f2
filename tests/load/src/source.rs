//! The calls of a seed, by number.

use hankboulder_reference::generate::Generator;
use hankboulder_reference::random::Random;

use crate::call::{Act, Call, Passed};
use crate::variation::varied;

/// A generated call and its variations have numbers one after the other.
const GROUP: u64 = 12;

/// The acts in turn, one for each group.
const TURNS: [Act; 14] = [
    Act::Judge,
    Act::TestFactor,
    Act::TestVector,
    Act::Box,
    Act::Stiffness,
    Act::Gather,
    Act::Pool,
    Act::ReadSums,
    Act::WriteSummary,
    Act::ReadSummary,
    Act::BusWrite,
    Act::BusTick,
    Act::BusRead,
    Act::BusLine,
];

/// The calls of a seed. A call depends on the seed and its number alone.
pub struct Source {
    seed: u64,
    /// The group of the last call, and the group's generated call
    group: Option<(u64, Call)>,
    /// The last call, with its buffers before it
    pub before: Call,
    /// The last call, with its buffers after it
    pub after: Call,
}

impl Source {
    /// The calls of a seed.
    pub fn new(seed: u64) -> Source {
        let none = Call {
            act: Act::Judge,
            passed: Passed::default(),
            buffers: vec![],
        };
        Source {
            seed,
            group: None,
            before: none.clone(),
            after: none,
        }
    }

    /// Makes a call the last one; its answer.
    pub fn call(&mut self, number: u64) -> i64 {
        let mut random = Random::new(mixed(!self.seed, number));
        let first = self.first_of(number / GROUP);
        self.before = if number.is_multiple_of(GROUP) {
            first.clone()
        } else {
            varied(first, &mut random)
        };
        self.after = self.before.clone();
        self.after.answer()
    }

    /// The generated call of a group.
    fn first_of(&mut self, group: u64) -> &Call {
        let seed = self.seed;
        let known = self.group.take().filter(|(known, _)| *known == group);
        let first = known.unwrap_or_else(|| (group, first(seed, group)));
        &self.group.insert(first).1
    }
}

/// The generated call of a group. A refused one is replaced, once, so that more
/// of its variations are not refused.
fn first(seed: u64, group: u64) -> Call {
    let act = TURNS[(group % TURNS.len() as u64) as usize];
    let mut generator = Generator::new(mixed(seed, group));
    let call = Call::generated(act, &mut generator);
    if call.clone().answer() > 0 {
        return Call::generated(act, &mut generator);
    }
    call
}

/// A seed from a seed and a number.
fn mixed(seed: u64, number: u64) -> u64 {
    Random::new(Random::new(seed).bits() ^ number).bits()
}
