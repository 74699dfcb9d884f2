//! Runs of a bus whose numbers are at the ends of their ranges (R28.10), or beyond them.

use super::{Generator, RawBus, KINDS};
use crate::bus::{BUSY, STATUS};
use crate::bus_run::{
    column_entry, HIGH, LOW, NEXT, ORDER, RUN_SIZE, STOP, STOPPED_RANGE, SUM_RANGE,
};
use crate::problem::{pairs, ENTRY_RANGE, FACTOR_RANGE, MAX_ORDER};
use crate::summary::{decode, NUMBER_WIDTH};

/// R28.10: numbers of a run that have the same range, a pair of places of a table or one
/// place, and the ends of it that they reach without leaving the range of another rule.
#[derive(Clone, Debug, PartialEq, Eq)]
#[allow(missing_docs)]
pub struct RunRange {
    pub places: Vec<usize>,
    pub low: Option<i64>,
    pub high: Option<i64>,
}

impl RunRange {
    fn one(place: usize, low: Option<i128>, high: i128) -> RunRange {
        RunRange {
            places: vec![place],
            low: low.map(|end| end as i64),
            high: Some(high as i64),
        }
    }

    fn within(place: usize, range: i128) -> RunRange {
        RunRange::one(place, Some(-range), range)
    }
}

/// The ranges of a run with this order, next column and third number, but for those of these
/// three numbers themselves.
pub fn run_ranges(order: usize, next: usize, stop: usize) -> Vec<RunRange> {
    let mut ranges = vec![];
    for k in 0..next {
        let diagonal = column_entry(k, k);
        ranges.push(RunRange::one(diagonal, Some(1), FACTOR_RANGE));
        ranges.extend((0..k).map(|i| RunRange::within(column_entry(i, k), FACTOR_RANGE)));
    }
    let Some(m) = stop.checked_sub(1) else {
        ranges.extend((0..next).map(|i| RunRange::within(column_entry(i, next), SUM_RANGE)));
        let diagonal = column_entry(next, next);
        ranges.push(RunRange::one(diagonal, None, SUM_RANGE));
        return ranges;
    };
    ranges.extend((0..m).map(|i| RunRange::within(column_entry(i, next), STOPPED_RANGE)));
    for (i, j) in pairs(order).filter(|(i, j)| i <= j) {
        let places = |first: usize| vec![first + i * order + j, first + j * order + i];
        let end = ENTRY_RANGE as i64;
        ranges.push(RunRange {
            places: places(LOW),
            low: Some(-end),
            high: None,
        });
        ranges.push(RunRange {
            places: places(HIGH),
            low: None,
            high: Some(end),
        });
    }
    ranges
}

impl Generator {
    /// A busy bus whose run has any numbers in their ranges, mostly at their ends, whether or
    /// not a start leads there; and any bytes where there is no range.
    pub fn bus_in_range(&mut self) -> RawBus {
        let mut bus = RawBus::zeros();
        bus.block[STATUS] = BUSY;
        let order = self.random.between(1, MAX_ORDER) as usize;
        let next = self.random.index(order);
        let stop = self.random.index(next + 2);
        let spare = self.random.bytes(RUN_SIZE);
        let spare = if self.random.one_in(2) {
            spare
        } else {
            bus.run.clone()
        };
        let mut numbers = decode(&spare, NUMBER_WIDTH);
        numbers[ORDER] = order as i64;
        numbers[NEXT] = next as i64;
        numbers[STOP] = stop as i64;
        let (kind, wide) = (self.random.pick(&KINDS), self.random.one_in(2));
        let problem = self.problem(kind, order, wide);
        numbers[LOW..][..order * order].copy_from_slice(&problem.low);
        numbers[HIGH..][..order * order].copy_from_slice(&problem.high);
        for range in run_ranges(order, next, stop) {
            if range.places.len() > 1 {
                continue;
            }
            let (low, high) = (range.low.unwrap_or(-1), range.high.unwrap_or(0));
            let small = self.random.between(low.max(-9), 9);
            let any = self.random.between(low, high);
            numbers[range.places[0]] = self.random.pick(&[low, high, high - 1, small, any, any]);
        }
        bus.put_numbers(&numbers);
        bus
    }

    /// One number of a run at an end of its range, or one past it; or a half of a pair of
    /// places by 1 apart, or L above U; or one of the three numbers in front.
    pub fn damage_run(&mut self, bus: &mut RawBus) {
        let mut numbers = bus.numbers();
        let [order, next, stop] = [ORDER, NEXT, STOP].map(|place| numbers[place]);
        let front = self.random.index(STOP + 1);
        let step = self.random.pick(&[-1, 1]);
        if !(1..=MAX_ORDER).contains(&order) || self.random.one_in(4) {
            numbers[front] += step;
        } else if self.random.one_in(4) {
            let size = (order * order) as usize;
            let place = self.random.pick(&[LOW, HIGH]) + self.random.index(size);
            numbers[place] = numbers[place].wrapping_add(step);
        } else {
            let ranges = run_ranges(order as usize, next as usize, stop as usize);
            let range = &ranges[self.random.index(ranges.len())];
            let past = self.random.between(0, 1);
            let low = range.low.map(|end| end - past);
            let high = range.high.map(|end| end + past);
            let ends: Vec<i64> = [low, high].into_iter().flatten().collect();
            let number = self.random.pick(&ends);
            for place in &range.places {
                numbers[*place] = number;
            }
        }
        bus.put_numbers(&numbers);
    }
}
