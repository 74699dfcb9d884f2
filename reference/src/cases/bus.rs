//! The worked cases of the bus: W73 to W88.

use super::{numbers, Case};
use crate::bus::{BLOCK_SIZE, COMMAND, FLAGS, MASK, ORDER, RESET, START, STATUS};
use crate::bus_run::{NEXT, RUN_SIZE, STOP};
use crate::entries::{self, POSITIVE};
use crate::summary::{decode, encode, NUMBER_WIDTH};

/// The registers that have a word, by address.
const WORDS: [&str; 7] = [
    "command",
    "status",
    "refusal number",
    "verdict",
    "mask",
    "flags",
    "order",
];

/// A bus, the tables that are lent to it, and what was told of it so far.
#[derive(Clone)]
struct Bench {
    block: Vec<u8>,
    run: Vec<u8>,
    tables: [Vec<u8>; 2],
    told: Vec<String>,
}

impl Bench {
    /// A bus of zeros.
    fn new() -> Bench {
        Bench {
            block: vec![0; BLOCK_SIZE],
            run: vec![0; RUN_SIZE],
            tables: [vec![], vec![]],
            told: vec![],
        }
    }

    /// A bus of zeros with a start of this order on a thin matrix, which is not told.
    fn started(order: u8, matrix: &str) -> Bench {
        let ordered = Bench::new().write(ORDER as i64, order);
        ordered.lend(matrix).write(COMMAND as i64, START)
    }

    fn lend(mut self, matrix: &str) -> Bench {
        let table = encode(&numbers(matrix), NUMBER_WIDTH);
        self.tables = [table.clone(), table];
        self
    }

    /// A write. Only a refusal is told, and whether something moved with it.
    fn write(mut self, address: i64, value: u8) -> Bench {
        let before = self.clone();
        let [low, high] = &self.tables;
        let (block, run) = (&mut self.block, &mut self.run);
        let answer = entries::bus_write(block, run, address, value, low, high);
        if answer != POSITIVE {
            let kept = (&before.block, &before.run) == (&self.block, &self.run);
            let moved = if kept { "nothing" } else { "something" };
            self.told.push(format!("refused {answer}, {moved} moves"));
        }
        self
    }

    /// The block without its last byte.
    fn cut(mut self) -> Bench {
        self.block.pop();
        self
    }

    fn tick(mut self) -> Bench {
        let answer = entries::bus_tick(&mut self.block, &mut self.run);
        assert_eq!(answer, POSITIVE, "a tick of good sizes");
        self
    }

    /// Tells what is not 0: registers, then the run.
    fn tell(mut self) -> Bench {
        let word = |address: usize| {
            let word = WORDS.get(address).map(|word| word.to_string());
            word.unwrap_or(format!("register {address}"))
        };
        let registers = (0..BLOCK_SIZE).filter(|address| self.block[*address] != 0);
        let mut parts: Vec<String> = registers
            .map(|address| format!("{} {}", word(address), self.block[address]))
            .collect();
        if self.run.iter().any(|byte| *byte != 0) {
            let run = decode(&self.run, NUMBER_WIDTH);
            parts.push(match run[STOP] {
                0 => format!("run at {}", run[NEXT]),
                stop => format!("run stopped at {}, m = {}", run[NEXT], stop - 1),
            });
        }
        if parts.is_empty() {
            parts.push("zeros".to_string());
        }
        self.told.push(parts.join(", "));
        self
    }

    /// Tells the line.
    fn tell_line(mut self) -> Bench {
        let low = entries::bus_line(&self.block) == POSITIVE;
        let line = if low { "line low" } else { "line raised" };
        self.told.push(line.to_string());
        self
    }

    fn case(self, subject: &str, expected: &str) -> Case {
        Case::new(&format!("bus, {subject}"), expected, self.told.join("; "))
    }
}

/// W73 to W88.
pub(super) fn cases() -> Vec<Case> {
    let begun = "status 1, flags 1, order 1, run at 0";
    let definite = "status 2, verdict 1, flags 3, order 1";
    let undecided = "status 2, verdict 3, flags 3, order 2";
    let one = || Bench::started(1, "[1]");
    let steep = || Bench::started(2, "[1 3; 3 10]");
    let short = Bench::new().write(ORDER as i64, 2).lend("[1]");
    let others = (-1..=32).filter(|address| *address != COMMAND as i64);
    let all_ones = others.fold(Bench::new(), |bus, address| bus.write(address, 255));
    let again = one().lend("[0]").write(COMMAND as i64, START);
    let cleared = |bus: Bench, flags: u8| bus.write(FLAGS as i64, flags);
    let changed = steep().tick().lend("[9 0; 0 9]").write(ORDER as i64, 5);
    let changed = changed.write(MASK as i64, 7).write(COMMAND as i64, 3);
    let masked = one().tick().write(MASK as i64, 2).tell_line();
    vec![
        one()
            .tell()
            .tick()
            .tell()
            .case("[1]", &format!("{begun}; {definite}")),
        steep()
            .tell()
            .tick()
            .tell()
            .tick()
            .tell()
            .tick()
            .tell()
            .case(
                "[1 3; 3 10]",
                &format!(
                    "status 1, flags 1, order 2, run at 0; status 1, flags 1, order 2, run at 1; \
                status 1, flags 1, order 2, run stopped at 1, m = 1; {undecided}"
                ),
            ),
        Bench::started(1, "[0]").tick().tell().tick().tell().case(
            "[0]",
            "status 1, flags 1, order 1, run stopped at 0, m = 0; \
            status 2, verdict 2, flags 3, order 1",
        ),
        Bench::started(0, "[1]").tell().case(
            "[1], register 6 being 0",
            "status 4, refusal number 1, flags 4",
        ),
        short.write(COMMAND as i64, START).tell().case(
            "two tables of one number for order 2",
            "status 4, refusal number 2, flags 4, order 2",
        ),
        again.tell().tick().tell().case(
            "[1], then a start with [0]",
            &format!("refused 20, nothing moves; {begun}; {definite}"),
        ),
        all_ones
            .tell()
            .case("255 to all but 0", "mask 7, order 255"),
        cleared(cleared(one().tick(), 0).tell(), 1).tell().case(
            "[1] done, then 0 and 1 to 5",
            &format!("{definite}; status 2, verdict 1, flags 2, order 1"),
        ),
        cleared(masked, 2)
            .tell_line()
            .case("[1] done, then 2 to 4 and to 5", "line raised; line low"),
        steep()
            .tick()
            .write(COMMAND as i64, RESET)
            .tell()
            .tick()
            .tell()
            .case("[1 3; 3 10] reset after a tick", "zeros; zeros"),
        changed.tick().tick().tell().case(
            "[1 3; 3 10], with 5 to 6, 7 to 4, 3 to 0 and other tables after a tick",
            "status 2, verdict 3, mask 7, flags 3, order 5",
        ),
        Bench::new()
            .write(STATUS as i64, 1)
            .tick()
            .tell()
            .case("1 to 1, then a tick", "zeros"),
        cleared(Bench::started(0, "[1]"), 4)
            .tell()
            .write(COMMAND as i64, START)
            .tell()
            .case(
                "[1], register 6 being 0, twice, with the flag cleared between",
                "status 4, refusal number 1; status 4, refusal number 1, flags 4",
            ),
        one()
            .tick()
            .write(MASK as i64, 2)
            .write(COMMAND as i64, START)
            .tell()
            .case(
                "[1] done, 2 to 4, then a start",
                "status 1, mask 2, flags 3, order 1, run at 0",
            ),
        one().cut().write(COMMAND as i64, START).case(
            "[1], then a start with a block of 31 bytes",
            "refused 2, nothing moves",
        ),
        cleared(steep(), 1).tick().tell().case(
            "[1 3; 3 10], 1 to 5, then a tick",
            "status 1, order 2, run at 1",
        ),
    ]
}
