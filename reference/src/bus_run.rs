//! The run area of a bus: its numbers (R28.8), a tick of its run (R28.9), and which bytes
//! hold a run (R28.10).

use crate::factoring::{shifted_sum, work_column};
use crate::judge::witness;
use crate::problem::{check_order, pairs, table_size, Bounds, Table, FACTOR_RANGE, MAX_ORDER};
use crate::summary::{decode, encode, NUMBER_WIDTH};

/// The numbers of a table of the greatest order, and of the columns.
const TABLE: usize = table_size(MAX_ORDER as usize);

/// The place of n among the numbers
pub const ORDER: usize = 0;
/// That of the next column, counted from 0
pub const NEXT: usize = 1;
/// That of 0, or of m + 1 after a stop
pub const STOP: usize = 2;
/// That of the first entry of L
pub const LOW: usize = 3;
/// That of the first entry of U
pub const HIGH: usize = LOW + TABLE;
/// That of the first entry of the columns
pub const COLUMNS: usize = HIGH + TABLE;
/// How many numbers there are
pub const RUN_NUMBERS: usize = COLUMNS + TABLE;
/// The bytes of a run area
pub const RUN_SIZE: usize = NUMBER_WIDTH * RUN_NUMBERS;

/// R28.10: entries of the next column above its diagonal, and the most that is on it.
pub const SUM_RANGE: i128 = 1 << 52;
/// R28.10: the entries in front of a column that stopped.
pub const STOPPED_RANGE: i128 = 1 << 55;

/// The verdict of a run, with its number in the register.
#[derive(Clone, Copy, Debug, PartialEq, Eq)]
#[repr(u8)]
#[allow(missing_docs)]
pub enum Finding {
    Definite = 1,
    NotDefinite = 2,
    Undecided = 3,
}

/// The place of entry (i,j) of the columns, both counted from 0.
pub const fn column_entry(i: usize, j: usize) -> usize {
    COLUMNS + MAX_ORDER as usize * j + i
}

/// A run area that holds a run. What the ranges say nothing of is kept as it lies.
#[derive(Clone, Debug, PartialEq, Eq)]
pub struct Run {
    numbers: Vec<i64>,
}

impl Run {
    /// R28.5: a run that has begun, with the mended tables and no column.
    pub fn begun(bounds: &Bounds) -> Run {
        let mut run = Run {
            numbers: vec![0; RUN_NUMBERS],
        };
        run.numbers[ORDER] = bounds.order as i64;
        for (first, table) in [(LOW, &bounds.low), (HIGH, &bounds.high)] {
            run.put(first, &table.concat());
        }
        let h = shifted_sum(bounds);
        for (i, j) in pairs(bounds.order).filter(|(i, j)| i <= j) {
            run.put(column_entry(i, j), &[h[i][j]]);
        }
        run
    }

    /// R28.10: the run that a run area holds, whatever its bytes are.
    pub fn read(bytes: &[u8]) -> Option<Run> {
        let run = Run {
            numbers: decode(bytes, NUMBER_WIDTH),
        };
        let [order, next, stop] = [ORDER, NEXT, STOP].map(|place| run.numbers[place]);
        let counted = check_order(order).is_ok()
            && (0..order).contains(&next)
            && (0..=next + 1).contains(&stop);
        (counted && run.is_in_range()).then_some(run)
    }

    /// The bytes of the run area.
    pub fn bytes(&self) -> Vec<u8> {
        encode(&self.numbers, NUMBER_WIDTH)
    }

    fn order(&self) -> usize {
        self.numbers[ORDER] as usize
    }

    fn next(&self) -> usize {
        self.numbers[NEXT] as usize
    }

    /// m, where the next column has stopped.
    fn last_row(&self) -> Option<usize> {
        (self.numbers[STOP] as usize).checked_sub(1)
    }

    fn entry(&self, i: usize, j: usize) -> i128 {
        i128::from(self.numbers[column_entry(i, j)])
    }

    fn put(&mut self, first: usize, numbers: &[i128]) {
        for (place, number) in self.numbers[first..].iter_mut().zip(numbers) {
            *place = i64::try_from(*number).expect("a number of a run fits 64 bits");
        }
    }

    /// R28.10, where n, the next column and the third number are good.
    fn is_in_range(&self) -> bool {
        let within = |i: usize, j: usize, range: i128| self.entry(i, j).abs() <= range;
        let is_factored =
            |k: usize| (0..=k).all(|i| within(i, k, FACTOR_RANGE)) && self.entry(k, k) >= 1;
        let j = self.next();
        let is_next = match self.last_row() {
            None => (0..j).all(|i| within(i, j, SUM_RANGE)) && self.entry(j, j) <= SUM_RANGE,
            Some(m) => (0..m).all(|i| within(i, j, STOPPED_RANGE)) && self.bounds().is_some(),
        };
        (0..j).all(is_factored) && is_next
    }

    /// L and U, mended, where checks 3, 4 and 5 pass them.
    fn bounds(&self) -> Option<Bounds> {
        let order = self.order();
        let table = |first: usize| &self.numbers[first..first + table_size(order)];
        Bounds::read(order, table(LOW), table(HIGH)).ok()
    }

    /// R28.9: a tick. The verdict, where it gives one.
    pub fn tick(&mut self) -> Option<Finding> {
        match self.last_row() {
            None => self.work_next(),
            Some(m) => Some(self.search(m)),
        }
    }

    /// Works out the next column. A stop leaves its m entries in front of it.
    fn work_next(&mut self) -> Option<Finding> {
        let j = self.next();
        let down_to_diagonal: Vec<i128> = (0..=j).map(|i| self.entry(i, j)).collect();
        let worked = work_column(&self.partial(0), &down_to_diagonal);
        let (Ok(entries) | Err(entries)) = &worked;
        self.put(column_entry(0, j), entries);
        if worked.is_err() {
            self.numbers[STOP] = entries.len() as i64 + 1;
            return None;
        }
        self.numbers[NEXT] += 1;
        (self.next() == self.order()).then_some(Finding::Definite)
    }

    /// Looks for a listed vector that shows 'not definite' (R11.3).
    fn search(&self, m: usize) -> Finding {
        let bounds = self.bounds().expect("the tables of a run that stopped");
        match witness(&bounds, self.next() + 1, m, &self.partial(m)) {
            Some(_) => Finding::NotDefinite,
            None => Finding::Undecided,
        }
    }

    /// The entries of the factor found so far, m of them in the next column; the others are 0.
    fn partial(&self, m: usize) -> Table {
        let (n, next) = (self.order(), self.next());
        let entry = |i: usize, j: usize| {
            let is_found = (j < next && i <= j) || (j == next && i < m);
            if is_found {
                self.entry(i, j)
            } else {
                0
            }
        };
        let row = |i: usize| (0..n).map(|j| entry(i, j)).collect();
        (0..n).map(row).collect()
    }
}
