//! An act's library entry and its reference, and their comparison.

use std::thread;

use hankboulder_reference::generate::Generator;
use hankboulder_reference::random::Random;
use hankboulder_reference::rides::Sample;

use crate::counts::{Counts, Outcome};
use crate::guarded::{Guarded, Lent, Surroundings};
use crate::lopsided::has_lopsided;
use crate::variation::varied;

/// The arguments of a call.
#[derive(Clone, Debug, PartialEq, Eq)]
pub struct Call {
    /// The order. Where it is not passed: in reading a summary the one that the file begins
    /// with, and of the bus that in the block, or of a tick that in the run area
    pub n: i64,
    /// The sample, of the act that has one
    pub sample: Sample,
    /// What else is passed as a number: the limit of the box, the running limit and the
    /// allowance, or the address and the value of the bus
    pub numbers: Vec<i64>,
    /// The buffers in the order of the C entry, read and written ones
    pub buffers: Vec<Vec<u8>>,
}

impl Call {
    /// A call that has an order and buffers alone.
    pub fn new(n: i64, buffers: Vec<Vec<u8>>) -> Call {
        Call {
            n,
            sample: Sample::default(),
            numbers: vec![],
            buffers,
        }
    }
}

/// What an act reads, and so what is varied of a call.
#[derive(Clone, Copy, Debug, PartialEq, Eq)]
pub enum Inputs {
    /// The numbers of the first so many buffers, and those that are passed
    Numbers(usize),
    /// The same, and those of the sample
    Sampled(usize),
    /// The numbers of all buffers: the sums, and the lists of the problems
    Pooled,
    /// The bytes of the first buffer
    File,
    /// The bytes of the block, and the numbers of what is behind it
    Bus,
}

/// An act.
pub struct Act {
    /// The name of the C entry
    pub name: &'static str,
    /// Every answer that it can give
    pub answers: &'static [i64],
    /// Whether it can give an answer other than 1 at an order from 1 to 8
    pub possible: fn(i64, i64) -> bool,
    /// What it reads
    pub inputs: Inputs,
    /// A generated call, faulty ones among them
    pub generate: fn(&mut Generator) -> Call,
    /// The reference's outcome; leaves the buffers as they are after the call
    pub reference: fn(&mut Call) -> Outcome,
    /// The library's answer
    pub library: fn(&Call, &[Lent]) -> i64,
    /// Fails where the library's other entries speak against an answer and the
    /// buffers after it
    pub confirm: fn(&Call, i64),
}

/// Generated calls are made on this many threads at once, each with a seed of
/// its own.
const THREADS: u64 = 4;

/// A generated call is followed by this many variations of it, and one that is
/// refused by fewer: most of these are refused again.
const VARIATIONS: usize = 11;
const VARIATIONS_OF_REFUSED: usize = 1;

/// What most acts can answer at an order: a table of order 1 is symmetric, and where 4
/// lets it through it leaves a number.
pub fn symmetric_at_1(order: i64, answer: i64) -> bool {
    order > 1 || answer != 5
}

/// The surroundings of a call that is looked at for its outcome alone
const PLAIN: Surroundings = Surroundings {
    fill: 0,
    shift: 0,
    null_for_empty: false,
};

impl Act {
    /// The library's answer to a call, and the buffers after it.
    pub fn given(&self, call: &Call) -> (i64, Vec<Vec<u8>>) {
        let (answer, guarded) = self.call_library(call, PLAIN);
        let content = |buffer: &Guarded| buffer.content().to_vec();
        (answer, guarded.iter().map(content).collect())
    }

    fn call_library(&self, call: &Call, surroundings: Surroundings) -> (i64, Vec<Guarded>) {
        let guard = |content: &Vec<u8>| Guarded::new(content, surroundings);
        let mut guarded: Vec<Guarded> = call.buffers.iter().map(guard).collect();
        let lent: Vec<Lent> = guarded.iter_mut().map(Guarded::lend).collect();
        ((self.library)(call, &lent), guarded)
    }

    /// What the library does wrong in a call, if anything: another answer than
    /// the expected one, other buffers after, or a byte beside them written.
    fn fault(
        &self,
        call: &Call,
        answer: i64,
        after: &[Vec<u8>],
        surroundings: Surroundings,
    ) -> Option<String> {
        let (given, guarded) = self.call_library(call, surroundings);
        if given != answer {
            return Some(format!("answer {given}, not {answer}"));
        }
        let buffers = guarded.iter().zip(after).enumerate();
        let faults = buffers.map(|(place, (buffer, expected))| {
            let content = buffer.content();
            if !buffer.guards_kept() {
                Some(format!("a byte beside buffer {place} was written"))
            } else if content != expected {
                Some(format!("buffer {place} is {content:?}, not {expected:?}"))
            } else {
                None
            }
        });
        faults.flatten().next()
    }

    /// Calls the library twice, in different surroundings, and fails where an
    /// answer or a buffer is not the expected one.
    fn expect_shifted(&self, call: &Call, answer: i64, after: &[Vec<u8>], shift: usize) {
        for (fill, null_for_empty) in [(0x00, true), (0xA5, false)] {
            let surroundings = Surroundings {
                fill,
                shift: (shift + usize::from(fill)) % 8,
                null_for_empty,
            };
            if let Some(fault) = self.fault(call, answer, after, surroundings) {
                panic!("{}: {fault}, in {surroundings:?}: {call:?}", self.name);
            }
        }
    }

    /// Fails where the library gives another answer or changes a buffer.
    pub fn expect(&self, call: &Call, answer: i64) {
        self.expect_after(call, answer, &call.buffers);
    }

    /// Fails where the library gives another answer or leaves other buffers.
    pub fn expect_after(&self, call: &Call, answer: i64, after: &[Vec<u8>]) {
        self.expect_shifted(call, answer, after, 0);
    }

    /// Fails where the library and the reference differ; their common outcome.
    pub fn agree(&self, call: &Call, shift: usize) -> Outcome {
        let mut after = call.clone();
        let outcome = (self.reference)(&mut after);
        self.expect_shifted(call, outcome.answer, &after.buffers, shift);
        (self.confirm)(&after, outcome.answer);
        outcome
    }

    /// Compares generated calls and variations of them until so many were not
    /// refused, and counts the calls.
    pub fn agree_on_generated(&self, seed: u64, answered: usize) -> Counts {
        thread::scope(|scope| {
            let part = |thread| {
                let seed = seed * THREADS + thread;
                let answered = answered.div_ceil(THREADS as usize);
                scope.spawn(move || self.agree_on_part(seed, answered))
            };
            let parts: Vec<_> = (0..THREADS).map(part).collect();
            let joined = parts.into_iter().map(|part| part.join());
            joined
                .map(|counts| counts.expect("every call agrees"))
                .sum()
        })
    }

    fn agree_on_part(&self, seed: u64, answered: usize) -> Counts {
        let mut generator = Generator::new(seed);
        let mut random = Random::new(!seed);
        let mut counts = Counts::default();
        while counts.answered() < answered {
            let call = (self.generate)(&mut generator);
            let outcome = self.agree(&call, random.index(8));
            counts.add(call.n, outcome, has_lopsided(&call, self.inputs));
            let variations = if outcome.refused() {
                VARIATIONS_OF_REFUSED
            } else {
                VARIATIONS
            };
            for _ in 0..variations {
                let call = varied(&call, self.inputs, &mut random);
                let outcome = self.agree(&call, random.index(8));
                counts.add(call.n, outcome, has_lopsided(&call, self.inputs));
            }
        }
        counts
    }
}
