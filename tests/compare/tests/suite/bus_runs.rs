//! Run areas of any bytes: the ends of each range that a run has to keep (R28.10) and one past
//! them, runs at these ends, numbers that are not asked, and bytes by chance.

use hankboulder_compare::bus::tick::Ticked;
use hankboulder_compare::{bytes, Detail};
use hankboulder_reference::bus_run::{column_entry, HIGH, LOW, NEXT, ORDER, RUN_NUMBERS, STOP};
use hankboulder_reference::generate::{run_ranges, Generator, Operation, RawBus};
use hankboulder_reference::random::Random;

use crate::bus::{carry_out, tick, STATUS, VERDICT};

/// A busy bus with these numbers in its run area.
fn busy(numbers: &[i64]) -> RawBus {
    let mut bus = RawBus::zeros();
    bus.block[STATUS] = 1;
    bus.put_numbers(numbers);
    bus
}

/// The numbers of a run: L of -1, U of 1, a factor of the identity, and 1 on the diagonal of the
/// next column.
fn plain_run(order: usize, next: usize, stop: usize) -> Vec<i64> {
    let mut numbers = vec![0; RUN_NUMBERS];
    numbers[ORDER] = order as i64;
    numbers[NEXT] = next as i64;
    numbers[STOP] = stop as i64;
    numbers[LOW..][..order * order].fill(-1);
    numbers[HIGH..][..order * order].fill(1);
    for k in 0..=next {
        numbers[column_entry(k, k)] = 1;
    }
    numbers
}

/// Every order, next column and third number.
fn shapes() -> impl Iterator<Item = (usize, usize, usize)> {
    let columns = (1..=8).flat_map(|order| (0..order).map(move |next| (order, next)));
    columns.flat_map(|(order, next)| (0..=next + 1).map(move |stop| (order, next, stop)))
}

/// What a tick does with these numbers, some of them put anew.
fn ticked(numbers: &[i64], places: &[usize], number: i64) -> Ticked {
    let mut numbers = numbers.to_vec();
    for place in places {
        numbers[*place] = number;
    }
    match carry_out(&mut busy(&numbers), &Operation::Tick).detail {
        Some(Detail::Ticked(ticked)) => ticked,
        other => panic!("{other:?}"),
    }
}

#[test]
fn a_run_is_one_up_to_the_ends_of_its_ranges() {
    for (order, next, stop) in shapes() {
        let numbers = plain_run(order, next, stop);
        for range in run_ranges(order, next, stop) {
            let moves = |end: i64| ticked(&numbers, &range.places, end) != Ticked::WithoutRun;
            if let Some(end) = range.low {
                assert!(
                    moves(end) && !moves(end - 1) && !moves(i64::MIN),
                    "{range:?}"
                );
            }
            if let Some(end) = range.high {
                assert!(
                    moves(end) && !moves(end + 1) && !moves(i64::MAX),
                    "{range:?}"
                );
            }
        }
    }
}

/// n, the next column and the third number: all from -2 to 11, and those with more bytes.
#[test]
fn the_three_numbers_in_front() {
    for (order, next, stop) in shapes() {
        let numbers = plain_run(order, next, stop);
        for (place, most) in [(ORDER, 8), (NEXT, order - 1), (STOP, next + 1)] {
            let number = numbers[place];
            for near in -2..=11 {
                let past = near < i64::from(place == ORDER) || near > most as i64;
                let runs = ticked(&numbers, &[place], near) != Ticked::WithoutRun;
                assert!(!past || !runs, "{near} at {place}");
            }
            for turn in [256, 1 << 32, -(1 << 32), i64::MIN] {
                let far = number.wrapping_add(turn);
                assert_eq!(ticked(&numbers, &[place], far), Ticked::WithoutRun);
            }
        }
    }
}

/// Each place of each table alone, with its pair, and each pair crossed by 1.
#[test]
fn tables_of_a_run_that_stopped() {
    for (order, next, stop) in shapes() {
        let numbers = plain_run(order, next, stop);
        for (first, crossed) in [(LOW, 2), (HIGH, -2)] {
            for place in 0..order * order {
                let mirrored = place % order * order + place / order;
                let pair = [first + place, first + mirrored];
                let runs = |places: &[usize], number: i64| {
                    ticked(&numbers, places, number) != Ticked::WithoutRun
                };
                assert!(runs(&pair[..1], 0) && runs(&pair, 0));
                assert_eq!(runs(&pair, crossed), stop == 0, "{order}, {place}");
            }
        }
    }
}

/// Any bytes in all places at once that a run's next tick does not take.
#[test]
fn what_is_not_asked_is_kept() {
    let mut random = Random::new(311);
    for (order, next, stop) in shapes() {
        let plain = plain_run(order, next, stop);
        let mut numbers: Vec<i64> = (0..RUN_NUMBERS).map(|_| random.bits() as i64).collect();
        numbers[..LOW].copy_from_slice(&plain[..LOW]);
        let taken = if stop == 0 { next + 1 } else { stop - 1 };
        let factored = (0..next).flat_map(|j| (0..=j).map(move |i| column_entry(i, j)));
        let asked = factored.chain((0..taken).map(|i| column_entry(i, next)));
        let size = if stop == 0 { 0 } else { order * order };
        let tables = (0..size).flat_map(|k| [LOW + k, HIGH + k]);
        for place in asked.chain(tables) {
            numbers[place] = plain[place];
        }
        assert_ne!(ticked(&numbers, &[], 0), Ticked::WithoutRun);
    }
}

/// Runs with numbers in their ranges, mostly at the ends, tick by tick.
#[test]
fn runs_at_the_ends_of_their_ranges() {
    let mut generator = Generator::new(312);
    let mut verdicts = [0; 4];
    for _ in 0..6000 {
        let mut bus = generator.bus_in_range();
        let left = bus.numbers()[ORDER] - bus.numbers()[NEXT] + 1;
        let first = carry_out(&mut bus.clone(), &Operation::Tick).detail;
        assert_ne!(first, Some(Detail::Ticked(Ticked::WithoutRun)));
        for _ in 0..left {
            tick(&mut bus);
        }
        verdicts[usize::from(bus.block[VERDICT])] += 1;
    }
    println!("{verdicts:?} verdicts, the first of them none");
    assert!(verdicts.iter().all(|count| *count > 100), "{verdicts:?}");
}

/// A run that a start has begun, with one number put at the end of a range or past it, before
/// each of its ticks.
#[test]
fn nearly_valid_runs() {
    let mut generator = Generator::new(313);
    let mut counts = [0; 2];
    for _ in 0..1500 {
        let problem = generator.any_problem();
        let mut bus = RawBus::zeros();
        bus.block[6] = problem.order as u8;
        let [low, high] = [&problem.low, &problem.high].map(|table| bytes(table));
        carry_out(&mut bus, &Operation::start(low, high));
        for _ in 0..=problem.order {
            if bus.block[STATUS] != 1 {
                break;
            }
            for _ in 0..4 {
                let mut damaged = bus.clone();
                generator.damage_run(&mut damaged);
                let detail = carry_out(&mut damaged, &Operation::Tick).detail;
                counts[usize::from(detail == Some(Detail::Ticked(Ticked::WithoutRun)))] += 1;
            }
            tick(&mut bus);
        }
    }
    println!("{counts:?} damaged runs went on, and did not");
    assert!(counts.iter().all(|count| *count > 4000), "{counts:?}");
}

/// Any operation on any bytes.
#[test]
fn bytes_by_chance() {
    let mut random = Random::new(314);
    let mut generator = Generator::new(315);
    for _ in 0..3000 {
        let mut bus = RawBus::zeros();
        (bus.block, bus.run) = (random.bytes(32), random.bytes(1560));
        for _ in 0..6 {
            carry_out(&mut bus, &generator.operation());
        }
    }
}
