//! The bus: the worked cases, every value at every address, every size of every buffer, and lists
//! of operations. After each operation block and run area are the reference's, byte for byte.

use hankboulder_compare::bus::line::LINE;
use hankboulder_compare::bus::read::READ;
use hankboulder_compare::bus::tick::{Ticked, TICK};
use hankboulder_compare::bus::write::{Written, WRITE};
use hankboulder_compare::bus::{given, of};
use hankboulder_compare::stiffness::verdict;
use hankboulder_compare::{bytes, Counts, Detail, Lent, Outcome};
use hankboulder_reference::generate::{Generator, Operation, RawBus};
use hankboulder_reference::random::Random;

const TAKEN: i64 = 0;
const LOW: i64 = 0;
const RAISED: i64 = -1;
const REFUSED_LENGTH: i64 = 2;
const REFUSED_BUSY: i64 = 20;

/// The addresses of registers
pub const STATUS: usize = 1;
pub const VERDICT: usize = 3;
pub const MASK: usize = 4;
pub const FLAGS: usize = 5;
pub const ORDER: usize = 6;

/// Carries out an operation; its outcome. Fails where library and reference differ.
pub fn carry_out(bus: &mut RawBus, operation: &Operation) -> Outcome {
    let (act, call) = of(bus.clone(), operation);
    let outcome = act.agree(&call, call.buffers.len());
    assert_eq!(given(bus, operation), outcome.answer);
    outcome
}

pub fn write(bus: &mut RawBus, address: usize, value: u8) -> i64 {
    carry_out(bus, &Operation::plain_write(address, value)).answer
}

/// A start with thin tables.
pub fn start(bus: &mut RawBus, table: &[i64]) -> i64 {
    carry_out(bus, &Operation::start(bytes(table), bytes(table))).answer
}

pub fn tick(bus: &mut RawBus) {
    assert_eq!(carry_out(bus, &Operation::Tick).answer, TAKEN);
}

fn line(bus: &RawBus) -> i64 {
    carry_out(&mut bus.clone(), &Operation::Line).answer
}

/// The registers from the status to the order, each read over the bus. All others are 0.
fn registers(bus: &RawBus) -> [u8; 6] {
    let mut bus = bus.clone();
    let mut read = |address: i64| {
        assert_eq!(
            carry_out(&mut bus, &Operation::Read { address }).answer,
            TAKEN
        );
        bus.value[0]
    };
    let told = std::array::from_fn(|place| read(place as i64 + 1));
    let others = [0].into_iter().chain(7..32);
    assert!(others.map(&mut read).all(|byte| byte == 0));
    let block = [&[0], &told[..], &[0; 25]].concat();
    assert_eq!(bus.block, block, "registers that are not read");
    told
}

fn has_run(bus: &RawBus) -> bool {
    bus.run.iter().any(|byte| *byte != 0)
}

/// A bus of zeros with an order and a start.
pub fn started(order: u8, table: &[i64]) -> RawBus {
    let mut bus = RawBus::zeros();
    assert_eq!(write(&mut bus, ORDER, order), TAKEN);
    assert_eq!(start(&mut bus, table), TAKEN);
    bus
}

const UNDECIDED: [i64; 4] = [1, 3, 3, 10];

/// W73 to W75.
#[test]
fn worked_runs() {
    let mut bus = started(1, &[1]);
    assert_eq!(registers(&bus), [1, 0, 0, 0, 1, 1]);
    tick(&mut bus);
    assert_eq!(registers(&bus), [2, 0, 1, 0, 3, 1]);
    let mut bus = started(2, &UNDECIDED);
    for _ in 0..3 {
        assert_eq!(registers(&bus), [1, 0, 0, 0, 1, 2]);
        tick(&mut bus);
    }
    assert_eq!(registers(&bus), [2, 0, 3, 0, 3, 2]);
    let mut bus = started(1, &[0]);
    tick(&mut bus);
    assert_eq!(registers(&bus), [1, 0, 0, 0, 1, 1]);
    tick(&mut bus);
    assert_eq!(registers(&bus), [2, 0, 2, 0, 3, 1]);
    assert!(!has_run(&bus));
}

/// W76 to W78.
#[test]
fn worked_refusals() {
    let bus = started(0, &[1]);
    assert_eq!(registers(&bus), [4, 1, 0, 0, 4, 0]);
    assert!(!has_run(&bus));
    assert_eq!(registers(&started(2, &[1])), [4, 2, 0, 0, 4, 2]);
    let before = started(1, &[1]);
    let mut bus = before.clone();
    assert_eq!(start(&mut bus, &[0]), REFUSED_BUSY);
    assert_eq!(bus, before);
    tick(&mut bus);
    assert_eq!(registers(&bus), [2, 0, 1, 0, 3, 1]);
}

/// W79 to W84.
#[test]
fn worked_writes() {
    let mut bus = RawBus::zeros();
    for address in (-1..=32).filter(|address| *address != 0) {
        let operation = Operation::Write {
            address,
            value: 255,
            low: vec![],
            high: vec![],
        };
        assert_eq!(carry_out(&mut bus, &operation).answer, TAKEN);
    }
    assert_eq!(registers(&bus), [0, 0, 0, 7, 0, 255]);
    let mut done = started(1, &[1]);
    tick(&mut done);
    let mut bus = done.clone();
    write(&mut bus, FLAGS, 0);
    assert_eq!(registers(&bus), [2, 0, 1, 0, 3, 1]);
    write(&mut bus, FLAGS, 1);
    assert_eq!(registers(&bus), [2, 0, 1, 0, 2, 1]);
    let mut bus = done;
    write(&mut bus, MASK, 2);
    assert_eq!(line(&bus), RAISED);
    write(&mut bus, FLAGS, 2);
    assert_eq!(line(&bus), LOW);
    let mut begun = started(2, &UNDECIDED);
    tick(&mut begun);
    let mut bus = begun.clone();
    write(&mut bus, 0, 2);
    for _ in 0..3 {
        assert_eq!(bus, RawBus::zeros());
        tick(&mut bus);
    }
    let mut bus = begun;
    for (address, value) in [(ORDER, 5), (MASK, 7), (0, 3)] {
        write(&mut bus, address, value);
    }
    tick(&mut bus);
    assert_eq!(registers(&bus), [1, 0, 0, 7, 1, 5]);
    tick(&mut bus);
    assert_eq!(registers(&bus), [2, 0, 3, 7, 3, 5]);
    let mut bus = RawBus::zeros();
    write(&mut bus, STATUS, 1);
    tick(&mut bus);
    assert_eq!(bus, RawBus::zeros());
}

/// All 256 values to all addresses from -1 to 32: idle, busy, done, and with any bytes.
#[test]
fn every_value_at_every_address() {
    let mut random = Random::new(301);
    let mut done = started(1, &[1]);
    tick(&mut done);
    let mut buses = vec![RawBus::zeros(), started(2, &UNDECIDED), done];
    for _ in 0..3 {
        let mut any = started(2, &UNDECIDED);
        any.block = random.bytes(32);
        buses.push(any);
    }
    let one = bytes(&[1]);
    for bus in &buses {
        for (address, value) in (-1..=32).flat_map(|a| (0..=255).map(move |v| (a, v))) {
            let operation = Operation::Write {
                address,
                value,
                low: one.clone(),
                high: one.clone(),
            };
            let busy = address == 0 && value == 1 && bus.block[STATUS] % 2 == 1;
            let answer = carry_out(&mut bus.clone(), &operation).answer;
            assert_eq!(answer, if busy { REFUSED_BUSY } else { TAKEN });
        }
        for address in (-40..=300).chain([1 << 32, (1 << 32) + 3, i64::MIN, i64::MAX]) {
            let mut read = bus.clone();
            read.value = vec![0x5A];
            carry_out(&mut read, &Operation::Read { address });
            let told = (1..=6).contains(&address);
            assert_eq!(
                read.value[0],
                if told { bus.block[address as usize] } else { 0 }
            );
        }
    }
}

/// Of all flags and all masks.
#[test]
fn the_line_is_raised_where_flags_and_mask_meet() {
    let mut bus = RawBus::zeros();
    for (flags, mask) in (0..=255).flat_map(|f| (0..=255).map(move |m| (f, m))) {
        (bus.block[FLAGS], bus.block[MASK]) = (flags, mask);
        assert_eq!(line(&bus), if flags & mask == 0 { LOW } else { RAISED });
    }
}

/// One operation of each kind.
fn operations() -> [Operation; 8] {
    let one = bytes(&[1]);
    [
        Operation::start(one.clone(), one),
        Operation::plain_write(0, 2),
        Operation::plain_write(MASK, 7),
        Operation::plain_write(FLAGS, 7),
        Operation::plain_write(9, 0),
        Operation::Tick,
        Operation::Read { address: 1 },
        Operation::Line,
    ]
}

/// Every size of block and byte up to 100, and every size of the run area up to and past its
/// own: 2 before 20, and where the buffer is not needed too.
#[test]
fn refusal_2_for_every_other_size_of_every_buffer() {
    for bus in [started(1, &[1]), RawBus::zeros()] {
        for operation in operations() {
            let (act, good) = of(bus.clone(), &operation);
            for (place, buffer) in good.buffers.iter().enumerate().take(2) {
                let size = buffer.len();
                let most = if size > 100 { size + 40 } else { 100 };
                let others = (0..=most).chain([256, 3120, 4096]);
                for length in others.filter(|length| *length != size) {
                    let mut call = good.clone();
                    call.buffers[place].resize(length, 1);
                    act.expect(&call, REFUSED_LENGTH);
                }
            }
        }
    }
}

/// Every choice of empty buffers, null or not. Tables that are empty are the judge's 2.
#[test]
fn empty_and_null_buffers() {
    for bus in [started(1, &[1]), RawBus::zeros()] {
        for operation in operations() {
            let (act, good) = of(bus.clone(), &operation);
            for empty in 1..1 << good.buffers.len() {
                let mut call = good.clone();
                for (place, buffer) in call.buffers.iter_mut().enumerate() {
                    if empty >> place & 1 == 1 {
                        buffer.clear();
                    }
                }
                let answer = act.agree(&call, 3).answer;
                assert!(answer == REFUSED_LENGTH || empty & 3 == 0, "{operation:?}");
            }
        }
    }
}

/// Every size of the tables up to that of order 8 and past it, at every order and beside: the
/// write is taken, and register 2 has the judge's number.
#[test]
fn sizes_of_the_tables_of_a_start() {
    for order in (0..=10).chain([255]) {
        let good = 8 * order * order;
        let sizes = (0..=9)
            .map(|n| 8 * n * n)
            .chain([1, 7, 9, good + 1, good + 8]);
        for (size, both) in sizes.flat_map(|size| [(size, false), (size, true)]) {
            let tables = if both { [size, size] } else { [good, size] };
            for [low, high] in [tables, [tables[1], tables[0]]] {
                let mut bus = RawBus::zeros();
                write(&mut bus, ORDER, order as u8);
                let begin = Operation::start(vec![0; low], vec![0; high]);
                let detail = carry_out(&mut bus, &begin).detail;
                let expected = match ((1..=8).contains(&order), [low, high] == [good, good]) {
                    (false, _) => Written::Refused(1),
                    (true, false) => Written::Refused(2),
                    (true, true) => Written::Started,
                };
                assert_eq!(
                    detail,
                    Some(Detail::Written(expected)),
                    "{order}: {low}, {high}"
                );
            }
        }
    }
}

/// A start whose two tables are one buffer.
#[test]
fn one_buffer_may_be_both_tables() {
    for (order, table) in [(1, vec![1]), (2, UNDECIDED.to_vec()), (1, vec![1 << 21])] {
        let mut bus = RawBus::zeros();
        write(&mut bus, ORDER, order);
        let begin = Operation::start(bytes(&table), bytes(&table));
        let (act, call) = of(bus, &begin);
        let (answer, after) = act.given(&call);
        let mut buffers = call.buffers.clone();
        let lend = |buffer: &mut Vec<u8>| Lent {
            pointer: buffer.as_mut_ptr(),
            length: buffer.len(),
        };
        let mut lent: Vec<Lent> = buffers.iter_mut().map(lend).collect();
        lent[3] = lent[2];
        assert_eq!(((act.library)(&call, &lent), answer), (TAKEN, TAKEN));
        assert_eq!(buffers, after);
    }
}

/// So many outcomes of this kind at least, at an order or at any of them.
fn expect_met(counts: &Counts, order: Option<i64>, detail: Detail, least: usize) {
    let orders = (1..=8).map(Some).chain([None]);
    let met: usize = match order {
        Some(_) => counts.of_detail(order, detail),
        None => orders.map(|order| counts.of_detail(order, detail)).sum(),
    };
    assert!(met >= least, "{order:?}, {detail:?}: {met}");
}

/// Lists of operations of all kinds, from zeros: starts of every order that come to each
/// verdict or are refused by each number, starts and resets while busy, and changes of the
/// order, the mask and the lent tables in between.
#[test]
fn lists_of_operations_agree_with_the_reference() {
    let mut generator = Generator::new(302);
    let mut counts = Counts::default();
    let mut resets = 0;
    for _ in 0..2500 {
        let mut bus = RawBus::zeros();
        for operation in generator.bus_operations() {
            let was_busy = bus.block[STATUS] == 1;
            let n = of(bus.clone(), &operation).1.n;
            let outcome = carry_out(&mut bus, &operation);
            counts.add(n, outcome, false);
            let reset = outcome.detail == Some(Detail::Written(Written::Reset));
            resets += usize::from(was_busy && reset);
            let raised = bus.block[FLAGS] & bus.block[MASK] != 0;
            assert_eq!(line(&bus), if raised { RAISED } else { LOW });
        }
    }
    println!("{resets} resets of a run: {counts}");
    assert!(resets >= 50, "{resets}");
    for order in 1..=8 {
        for verdict in [1, 2, 3] {
            // At order 1 nothing is undecided.
            let least = if (order, verdict) == (1, 3) { 0 } else { 5 };
            let detail = Detail::Ticked(Ticked::Verdict(verdict));
            expect_met(&counts, Some(order), detail, least);
        }
        for ticked in [Ticked::Column, Ticked::Stop] {
            let least = if (order, ticked) == (1, Ticked::Column) {
                0
            } else {
                50
            };
            expect_met(&counts, Some(order), Detail::Ticked(ticked), least);
        }
        expect_met(&counts, Some(order), Detail::Written(Written::Started), 100);
    }
    expect_met(&counts, None, Detail::Ticked(Ticked::Idle), 1000);
    for refusal in 1..=5 {
        let detail = Detail::Written(Written::Refused(refusal));
        expect_met(&counts, None, detail, 100);
    }
    for written in [
        Written::WhileBusy,
        Written::Reset,
        Written::OtherCommand,
        Written::Mask,
        Written::Flags,
        Written::Order,
        Written::Elsewhere,
    ] {
        expect_met(&counts, None, Detail::Written(written), 100);
    }
    assert_eq!(counts.of_answer(REFUSED_LENGTH), 0);
    assert!(counts.of_answer(REFUSED_BUSY) >= 300 && counts.of_answer(RAISED) >= 300);
}

/// Every start of a problem that is let through comes to the library's own verdict, in n ticks
/// at most where it is definite, in n + 1 at most where not, and in none of those before, with
/// starts of other tables and other writes between the ticks.
#[test]
fn a_run_comes_to_the_judges_verdict() {
    let (mut generator, mut random) = (Generator::new(303), Random::new(304));
    let mut met = [0; 4];
    for _ in 0..2000 {
        let (problem, other) = (generator.any_problem(), generator.any_problem());
        let order = problem.order;
        let tables = [bytes(&problem.low), bytes(&problem.high)];
        let expected = 1 - verdict(order as i64, &tables) as i8;
        let mut bus = RawBus::zeros();
        write(&mut bus, ORDER, order as u8);
        let [low, high] = tables;
        carry_out(&mut bus, &Operation::start(low, high));
        let mut ticks = 0;
        while bus.block[STATUS] == 1 {
            assert_eq!(bus.block[2..4], [0, 0]);
            if random.one_in(2) {
                let again = Operation::start(bytes(&other.low), bytes(&other.high));
                assert_eq!(carry_out(&mut bus, &again).answer, REFUSED_BUSY);
            }
            write(&mut bus, ORDER, other.order as u8);
            write(&mut bus, MASK, random.bits() as u8);
            assert!(ticks <= order, "the run has no end");
            tick(&mut bus);
            ticks += 1;
        }
        assert_eq!(bus.block[STATUS..=VERDICT], [2, 0, expected as u8]);
        if expected == 1 {
            assert_eq!(ticks, order);
        } else {
            assert!((2..=order + 1).contains(&ticks), "{ticks}");
        }
        met[expected as usize] += 1;
    }
    println!("{met:?} verdicts");
    assert!(met[1] > 300 && met[2] > 300 && met[3] > 30, "{met:?}");
}

/// Generated calls of each entry on buses of any bytes, with faults in sizes, and variations.
#[test]
fn generated_calls_agree_with_the_reference() {
    let writes = WRITE.agree_on_generated(305, 40_000);
    println!("{}: {writes}", WRITE.name);
    for refusal in 1..=5 {
        let detail = Detail::Written(Written::Refused(refusal));
        expect_met(&writes, None, detail, 100);
    }
    for written in [
        Written::Started,
        Written::WhileBusy,
        Written::Reset,
        Written::OtherCommand,
        Written::Mask,
        Written::Flags,
        Written::Order,
        Written::Elsewhere,
    ] {
        expect_met(&writes, None, Detail::Written(written), 500);
    }
    let ticks = TICK.agree_on_generated(306, 40_000);
    println!("{}: {ticks}", TICK.name);
    for ticked in [Ticked::Idle, Ticked::WithoutRun] {
        expect_met(&ticks, None, Detail::Ticked(ticked), 1000);
    }
    for order in 1..=8 {
        for verdict in [1, 2, 3] {
            let detail = Detail::Ticked(Ticked::Verdict(verdict));
            expect_met(&ticks, Some(order), detail, 10);
        }
        for ticked in [Ticked::Column, Ticked::Stop, Ticked::WithoutRun] {
            let least = if (order, ticked) == (1, Ticked::Column) {
                0
            } else {
                100
            };
            expect_met(&ticks, Some(order), Detail::Ticked(ticked), least);
        }
    }
    let reads = READ.agree_on_generated(307, 20_000);
    let lines = LINE.agree_on_generated(308, 20_000);
    assert!(lines.of_answer(RAISED) >= 1000 && lines.of_answer(LOW) >= 1000);
    for (act, counts) in [
        (&WRITE, &writes),
        (&TICK, &ticks),
        (&READ, &reads),
        (&LINE, &lines),
    ] {
        let met = act.answers.iter().map(|answer| counts.of_answer(*answer));
        assert!(
            met.clone().all(|count| count >= 100),
            "{}: {counts}",
            act.name
        );
    }
}
