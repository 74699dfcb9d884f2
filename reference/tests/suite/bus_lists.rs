//! Lists of operations on a bus by another route: a model that knows the whole judge's verdict
//! from the start, and in which tick it is due (D3.11).

use std::collections::BTreeMap;

use hankboulder_reference::factoring::{factor, Factoring};
use hankboulder_reference::generate::{Generator, Operation, RawBus};
use hankboulder_reference::problem::Bounds;

use crate::bus::{BUSY, RAISED, TAKEN};
use crate::support::{bytes, judge, numbers};

/// What is due of a run.
#[derive(Clone, Copy, Debug)]
struct Due {
    order: u8,
    ticks: usize,
    verdict: u8,
}

/// A bus as the rules tell of it, register by register.
#[derive(Debug, Default)]
struct Model {
    due: Option<Due>,
    done: bool,
    refused: bool,
    refusal: u8,
    verdict: u8,
    mask: [bool; 3],
    flags: [bool; 3],
    order: u8,
}

/// The number that bits make up, the first the lowest.
fn packed(bits: [bool; 3]) -> u8 {
    bits.iter()
        .rev()
        .fold(0, |sum, bit| 2 * sum + u8::from(*bit))
}

fn unpacked(value: u8) -> [bool; 3] {
    [value % 2 == 1, value / 2 % 2 == 1, value / 4 % 2 == 1]
}

/// The judge's refusal, or what is due of a run that begins.
fn judged(order: u8, low: &[u8], high: &[u8]) -> Result<Due, u8> {
    let n = usize::from(order);
    if !(1..=8).contains(&n) {
        return Err(1);
    }
    if low.len() != 8 * n * n || high.len() != 8 * n * n {
        return Err(2);
    }
    let (low, high) = (numbers(low), numbers(high));
    let verdict = match judge(n, &low, &high).code {
        0 => 1,
        -1 => 2,
        -2 => 3,
        refusal => return Err(refusal as u8),
    };
    let bounds = Bounds::read(n, &low, &high).unwrap();
    let ticks = match factor(&bounds) {
        Factoring::Ends(_) => n,
        Factoring::Stops { column, .. } => column + 1,
    };
    Ok(Due {
        order,
        ticks,
        verdict,
    })
}

impl Model {
    fn registers(&self) -> Vec<u8> {
        let status = packed([self.due.is_some(), self.done, self.refused]);
        let (mask, flags) = (packed(self.mask), packed(self.flags));
        let mut block = vec![
            0,
            status,
            self.refusal,
            self.verdict,
            mask,
            flags,
            self.order,
        ];
        block.resize(32, 0);
        block
    }

    fn start(&mut self, low: &[u8], high: &[u8]) -> i64 {
        if self.due.is_some() {
            return BUSY;
        }
        (self.done, self.refused, self.refusal, self.verdict) = (false, false, 0, 0);
        match judged(self.order, low, high) {
            Ok(due) => {
                self.due = Some(due);
                self.flags[0] = true;
            }
            Err(refusal) => {
                (self.refused, self.refusal) = (true, refusal);
                self.flags[2] = true;
            }
        }
        TAKEN
    }

    fn tick(&mut self) {
        let Some(due) = &mut self.due else {
            return;
        };
        due.ticks -= 1;
        if due.ticks == 0 {
            (self.done, self.verdict, self.due) = (true, due.verdict, None);
            self.flags[1] = true;
        }
    }

    /// Carries out an operation; its answer, and the byte that a read gives.
    fn carry_out(&mut self, operation: &Operation) -> (i64, Option<u8>) {
        match operation {
            Operation::Write {
                address,
                value,
                low,
                high,
            } => match (address, value) {
                (0, 1) => return (self.start(low, high), None),
                (0, 2) => *self = Model::default(),
                (4, _) => self.mask = unpacked(*value),
                (5, _) => {
                    let ones = unpacked(*value);
                    self.flags = [0, 1, 2].map(|bit| self.flags[bit] && !ones[bit]);
                }
                (6, _) => self.order = *value,
                _ => {}
            },
            Operation::Tick => self.tick(),
            Operation::Read { address } => {
                let told = (1..=6).contains(address);
                let place = if told { *address as usize } else { 31 };
                return (TAKEN, Some(self.registers()[place]));
            }
            Operation::Line => {
                let raised = (0..3).any(|bit| self.flags[bit] && self.mask[bit]);
                return (if raised { RAISED } else { TAKEN }, None);
            }
        }
        (TAKEN, None)
    }
}

/// A word for an operation, for the counts.
fn word(operation: &Operation) -> &'static str {
    match operation {
        Operation::Write {
            address: 0,
            value: 1,
            ..
        } => "start",
        Operation::Write {
            address: 0,
            value: 2,
            ..
        } => "reset",
        Operation::Write { .. } => "write",
        Operation::Tick => "tick",
        Operation::Read { .. } => "read",
        Operation::Line => "line",
    }
}

/// Every register after every operation, every answer and every byte that is read. Each
/// verdict at each order, each refusal of a start, starts and resets while busy are met.
#[test]
fn lists_of_operations_agree_with_the_whole_judge() {
    let mut generator = Generator::new(211);
    let mut met: BTreeMap<(&str, i64, bool), usize> = BTreeMap::new();
    let mut verdicts: BTreeMap<(u8, u8), usize> = BTreeMap::new();
    let mut refusals: BTreeMap<u8, usize> = BTreeMap::new();
    for _ in 0..5000 {
        let (mut bus, mut model) = (RawBus::zeros(), Model::default());
        for operation in generator.bus_operations() {
            let due = model.due;
            let (answer, byte) = model.carry_out(&operation);
            assert_eq!(bus.carry_out(&operation), answer, "{operation:?}");
            assert_eq!(bus.block, model.registers(), "{operation:?} {model:?}");
            assert!(byte.is_none_or(|byte| bus.value == [byte]), "{operation:?}");
            let has_run = bus.run.iter().any(|byte| *byte != 0);
            assert_eq!(has_run, model.due.is_some(), "{operation:?}");
            let key = (word(&operation), answer, due.is_some());
            *met.entry(key).or_default() += 1;
            if let (Some(due), Operation::Tick, None) = (due, &operation, model.due) {
                *verdicts.entry((due.order, due.verdict)).or_default() += 1;
            }
            if word(&operation) == "start" && model.refused {
                *refusals.entry(model.refusal).or_default() += 1;
            }
        }
    }
    println!("{met:?}\n{verdicts:?}\n{refusals:?}");
    for word in ["start", "reset", "write", "tick", "read", "line"] {
        for busy in [false, true] {
            let answer = if (word, busy) == ("start", true) {
                BUSY
            } else {
                TAKEN
            };
            let count = met.get(&(word, answer, busy)).copied().unwrap_or(0);
            assert!(count >= 100, "{word}, busy {busy}: {count}");
        }
    }
    for (order, verdict) in (1..=8).flat_map(|order| [1, 2, 3].map(|v| (order, v))) {
        let count = verdicts.get(&(order, verdict)).copied().unwrap_or(0);
        // At order 1 nothing is undecided.
        let least = if (order, verdict) == (1, 3) { 0 } else { 10 };
        assert!(
            count >= least,
            "verdict {verdict} at order {order}: {count}"
        );
    }
    assert_eq!(
        refusals.keys().copied().collect::<Vec<u8>>(),
        [1, 2, 3, 4, 5]
    );
    assert!(refusals.values().all(|count| *count >= 50), "{refusals:?}");
}

/// D3.11 of single starts: nothing but ticks brings a run forward, the verdict comes with its
/// tick and no sooner, and n + 1 ticks are always enough.
#[test]
fn a_verdict_comes_in_its_tick_whatever_stands_between() {
    let mut generator = Generator::new(212);
    for _ in 0..1500 {
        let problem = generator.any_problem();
        let order = problem.order as u8;
        let [low, high] = [&problem.low, &problem.high].map(|table| bytes(table));
        let due = judged(order, &low, &high).expect("a problem that is let through");
        assert!(due.ticks <= problem.order + 1);
        let mut bus = RawBus::zeros();
        bus.carry_out(&Operation::plain_write(6, order));
        bus.carry_out(&Operation::start(low, high));
        for tick in 1..=due.ticks {
            for _ in 0..3 {
                let between = generator.operation();
                let reset = word(&between) == "reset";
                if reset || between == Operation::Tick {
                    continue;
                }
                let run = bus.run.clone();
                let answer = bus.carry_out(&between);
                assert_eq!(answer == BUSY, word(&between) == "start");
                assert_eq!(bus.run, run, "{between:?}");
                assert_eq!(bus.block[1..4], [1, 0, 0]);
            }
            assert_eq!(bus.block[1..4], [1, 0, 0], "before tick {tick}");
            bus.carry_out(&Operation::Tick);
        }
        assert_eq!(bus.block[1..4], [2, 0, due.verdict]);
    }
}
