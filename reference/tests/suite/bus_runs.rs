//! The run area of a bus: its numbers after a start and each tick (R28.8), the ends of every
//! range that a run has to keep (R28.10), and any bytes at all.

use hankboulder_reference::bus_run::{column_entry, HIGH, LOW, NEXT, ORDER, RUN_NUMBERS, STOP};
use hankboulder_reference::factoring::{factor, shifted_sum, Factoring};
use hankboulder_reference::generate::{run_ranges, Generator, Operation, RawBus};
use hankboulder_reference::problem::Bounds;
use hankboulder_reference::random::Random;

use crate::bus::{tick, LENGTH, STATUS, TAKEN, VERDICT};
use crate::support::bytes;

const ENTRY: i64 = 1 << 20;

/// The run area after so many ticks, from the whole factor.
fn expected_run(bounds: &Bounds, ticks: usize) -> Vec<i64> {
    let n = bounds.order;
    let (h, factoring) = (shifted_sum(bounds), factor(bounds));
    let mut numbers = vec![0; 195];
    numbers[0] = n as i64;
    for (i, j) in (0..n).flat_map(|i| (0..n).map(move |j| (i, j))) {
        numbers[3 + n * i + j] = bounds.low[i][j] as i64;
        numbers[67 + n * i + j] = bounds.high[i][j] as i64;
    }
    let (factor, ended, m) = match &factoring {
        Factoring::Ends(factor) => (factor, n, 0),
        Factoring::Stops {
            column,
            last_row,
            partial,
        } => (partial, column - 1, *last_row),
    };
    let next = ticks.min(ended);
    numbers[1] = next as i64;
    if ticks > ended {
        numbers[2] = m as i64 + 1;
    }
    for (i, j) in (0..n).flat_map(|j| (0..=j).map(move |i| (i, j))) {
        let is_found = j < next || (j == next && ticks > ended && i < m);
        let entry = if is_found { factor[i][j] } else { h[i][j] };
        numbers[131 + 8 * j + i] = entry as i64;
    }
    numbers
}

#[test]
fn the_run_area_is_the_mended_problem_and_the_columns_so_far() {
    let mut generator = Generator::new(221);
    let (mut stops, mut lopsided) = ([0; 9], 0);
    for _ in 0..3000 {
        let problem = generator.any_problem();
        lopsided += usize::from(!problem.is_symmetric());
        let bounds = Bounds::read(problem.order, &problem.low, &problem.high).unwrap();
        let mut bus = RawBus::zeros();
        bus.block[6] = problem.order as u8;
        bus.run = vec![0xA5; 1560];
        bus.carry_out(&Operation::start(bytes(&problem.low), bytes(&problem.high)));
        let mut ticks = 0;
        while bus.block[STATUS] == 1 {
            assert_eq!(bus.numbers(), expected_run(&bounds, ticks), "{problem:?}");
            if bus.numbers()[STOP] > 0 {
                stops[bus.numbers()[STOP] as usize] += 1;
            }
            assert!(ticks <= problem.order, "the run has no end");
            tick(&mut bus);
            ticks += 1;
        }
        assert_eq!(bus.run, vec![0; 1560]);
    }
    assert!(stops[1..8].iter().all(|count| *count > 5), "{stops:?}");
    assert!(lopsided > 300, "{lopsided}");
}

/// A busy bus with a run of small numbers: L of -1, U of 1, a factor of the identity, and 1
/// on the diagonal of the next column.
fn plain_run(order: usize, next: usize, stop: usize) -> RawBus {
    let mut numbers = vec![0; RUN_NUMBERS];
    numbers[ORDER] = order as i64;
    numbers[NEXT] = next as i64;
    numbers[STOP] = stop as i64;
    numbers[LOW..][..order * order].fill(-1);
    numbers[HIGH..][..order * order].fill(1);
    for k in 0..=next {
        numbers[column_entry(k, k)] = 1;
    }
    busy(&numbers)
}

fn busy(numbers: &[i64]) -> RawBus {
    let mut bus = RawBus::zeros();
    bus.block[STATUS] = 1;
    bus.put_numbers(numbers);
    bus
}

/// Whether a tick moves something.
fn moves(bus: &RawBus) -> bool {
    let mut after = bus.clone();
    assert_eq!(tick(&mut after), TAKEN);
    after != *bus
}

/// A run with numbers put at places.
fn with(bus: &RawBus, places: &[usize], number: i64) -> RawBus {
    let mut numbers = bus.numbers();
    for place in places {
        numbers[*place] = number;
    }
    busy(&numbers)
}

/// Every order, next column and third number.
fn shapes() -> impl Iterator<Item = (usize, usize, usize)> {
    let columns = (1..=8).flat_map(|order| (0..order).map(move |next| (order, next)));
    columns.flat_map(|(order, next)| (0..=next + 1).map(move |stop| (order, next, stop)))
}

#[test]
fn a_run_is_one_up_to_the_ends_of_its_ranges() {
    let mut ends = 0;
    for (order, next, stop) in shapes() {
        let bus = plain_run(order, next, stop);
        assert!(moves(&bus), "{order}, {next}, {stop}");
        for range in run_ranges(order, next, stop) {
            let low = range.low.map(|end| (end, end - 1));
            let high = range.high.map(|end| (end, end + 1));
            for (end, past) in [low, high].into_iter().flatten() {
                assert!(
                    moves(&with(&bus, &range.places, end)),
                    "{range:?} in {order}"
                );
                assert!(
                    !moves(&with(&bus, &range.places, past)),
                    "{range:?} in {order}"
                );
                ends += 1;
            }
            for far in [i64::MIN, i64::MAX] {
                let is_open = far == i64::MIN && stop == 0 && range.low.is_none();
                assert_eq!(moves(&with(&bus, &range.places, far)), is_open);
            }
        }
    }
    assert_eq!(ends, 9180);
}

#[test]
fn the_three_numbers_in_front() {
    for (order, next, stop) in shapes() {
        let bus = plain_run(order, next, stop);
        let turns = [256, 1 << 32, -(1 << 32), i64::MIN];
        let [n, j, third] = [order, next, stop].map(|number| number as i64);
        let beside = |number: i64| turns.map(|turn| number.wrapping_add(turn));
        for number in [0, -1, 9, i64::MAX].into_iter().chain(beside(n)) {
            assert!(!moves(&with(&bus, &[ORDER], number)), "n = {number}");
        }
        for number in [-1, n, n + 1, i64::MAX].into_iter().chain(beside(j)) {
            assert!(!moves(&with(&bus, &[NEXT], number)), "next column {number}");
        }
        for number in [-1, j + 2, j + 3, i64::MAX]
            .into_iter()
            .chain(beside(third))
        {
            assert!(
                !moves(&with(&bus, &[STOP], number)),
                "third number {number}"
            );
        }
    }
}

/// Halves that differ by 1, and L above U by 1, at every place: no run after a stop, and
/// without one the tables play no part.
#[test]
fn tables_of_a_run_that_stopped_pass_the_checks() {
    for (order, next, stop) in shapes() {
        let bus = plain_run(order, next, stop);
        let stopped = stop > 0;
        for (i, j) in (0..order).flat_map(|i| (0..order).map(move |j| (i, j))) {
            let place = i * order + j;
            let mirrored = j * order + i;
            let one_half = |first: usize, number: i64| with(&bus, &[first + place], number);
            let both =
                |first: usize, number: i64| with(&bus, &[first + place, first + mirrored], number);
            assert!(moves(&one_half(LOW, -2)) && moves(&one_half(LOW, 0)));
            assert!(moves(&one_half(HIGH, 2)) && moves(&one_half(HIGH, 0)));
            assert!(moves(&both(LOW, 1)) && moves(&both(HIGH, -1)));
            assert_eq!(moves(&both(LOW, 2)), !stopped);
            assert_eq!(moves(&both(HIGH, -2)), !stopped);
            // a pair that leaves no number: 5, though neither place is crossed
            let lopsided = with(&one_half(LOW, 1), &[HIGH + mirrored], 0);
            assert_eq!(moves(&lopsided), !stopped);
        }
    }
}

/// The places that no rule of a run asks: they may hold anything, and keep it but in the tick
/// that gives the verdict.
#[test]
fn what_is_not_asked_is_kept() {
    let mut random = Random::new(222);
    for (order, next, stop) in shapes() {
        let bus = plain_run(order, next, stop);
        let mut asked = vec![ORDER, NEXT, STOP];
        asked.extend((0..=next).map(|i| column_entry(i, next)).take(match stop {
            0 => next + 1,
            stop => stop - 1,
        }));
        asked.extend((0..next).flat_map(|j| (0..=j).map(move |i| column_entry(i, j))));
        if stop > 0 {
            asked.extend((0..order * order).flat_map(|k| [LOW + k, HIGH + k]));
        }
        let mut numbers = bus.numbers();
        let others = (0..RUN_NUMBERS).filter(|place| !asked.contains(place));
        let others: Vec<usize> = others.collect();
        for place in &others {
            numbers[*place] = random.bits() as i64;
        }
        let (mut plain, mut filled) = (bus, busy(&numbers));
        tick(&mut plain);
        tick(&mut filled);
        assert_eq!(filled.block, plain.block, "{order}, {next}, {stop}");
        if filled.block[STATUS] == 1 {
            let (plain, after) = (plain.numbers(), filled.numbers());
            for place in 0..RUN_NUMBERS {
                let kept = others.contains(&place);
                let expected = if kept { numbers[place] } else { plain[place] };
                assert_eq!(after[place], expected, "number {place}");
            }
        } else {
            assert_eq!(filled.run, vec![0; 1560]);
        }
    }
}

/// R28.10, told once more: of numbers alone, in the order of the rule.
fn holds_a_run(numbers: &[i64]) -> bool {
    let (n, j, third) = (numbers[0], numbers[1], numbers[2]);
    if !(1..=8).contains(&n) || j < 0 || j >= n || third < 0 || third > j + 1 {
        return false;
    }
    let (n, j) = (n as usize, j as usize);
    let column = |i: usize, j: usize| i128::from(numbers[131 + 8 * j + i]);
    for k in 0..j {
        for i in 0..=k {
            let least = if i == k { 1 } else { -(1 << 26) };
            if column(i, k) < least || column(i, k) > 1 << 26 {
                return false;
            }
        }
    }
    if third == 0 {
        return (0..j).all(|i| column(i, j).abs() <= 1 << 52) && column(j, j) <= 1 << 52;
    }
    let m = third as usize - 1;
    let (low, high) = (&numbers[3..3 + n * n], &numbers[67..67 + n * n]);
    (0..m).all(|i| column(i, j).abs() <= 1 << 55)
        && (0..n * n).all(|k| {
            let mirrored = k % n * n + k / n;
            let (l, u) = (low[k], high[k]);
            -ENTRY <= l && l <= u && u <= ENTRY && l <= high[mirrored]
        })
}

/// Any operation on a bus of any bytes: it is answered, and a tick moves something exactly
/// where the status is busy and the run area holds a run.
#[test]
fn any_bytes_are_answered() {
    let mut generator = Generator::new(223);
    let mut counts = [0; 4];
    for _ in 0..20_000 {
        let call = generator.bus_call();
        let mut after = call.bus.clone();
        let answer = after.carry_out(&call.operation);
        let moved = after != call.bus;
        assert!(!moved || [TAKEN, -1].contains(&answer), "{answer}");
        if call.operation != Operation::Tick || answer == LENGTH {
            continue;
        }
        let is_busy = call.bus.block[STATUS] % 2 == 1;
        let holds = holds_a_run(&call.bus.numbers());
        assert_eq!(moved, is_busy && holds, "{:?}", call.bus.numbers());
        let kind = match (is_busy, holds) {
            (false, _) => 0,
            (true, false) => 1,
            (true, true) if after.block[STATUS] % 2 == 1 => 2,
            (true, true) => 3,
        };
        counts[kind] += 1;
    }
    println!("ticks: idle, without a run, within a run, with a verdict: {counts:?}");
    assert!(counts.iter().all(|count| *count > 500), "{counts:?}");
}

/// Runs with any numbers in their ranges: ticks move them up to the verdict, or up to a column
/// that is out of its range, and there nothing moves any more.
#[test]
fn runs_with_any_numbers_in_their_ranges_go_on_as_far_as_they_are_in_range() {
    let mut generator = Generator::new(224);
    let mut verdicts = [0; 4];
    for _ in 0..6000 {
        let mut bus = generator.bus_in_range();
        assert!(holds_a_run(&bus.numbers()));
        let left = bus.numbers()[ORDER] - bus.numbers()[NEXT] + 1;
        for _ in 0..left {
            let goes_on = bus.block[STATUS] == 1 && holds_a_run(&bus.numbers());
            assert_eq!(moves(&bus), goes_on);
            tick(&mut bus);
        }
        let verdict = usize::from(bus.block[VERDICT]);
        assert_eq!(bus.block[STATUS], if verdict == 0 { 1 } else { 2 });
        verdicts[verdict] += 1;
    }
    println!("verdicts: {verdicts:?}");
    assert!(verdicts.iter().all(|count| *count > 100), "{verdicts:?}");
}
