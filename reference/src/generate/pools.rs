//! Pools, and calls of pooling: every count of problems, sums that are halved, or cannot
//! take a problem, at every place, and faults in the sums and in any problem.

use super::calls::WRONG_ORDERS;
use super::{Generator, RawProblem, KINDS};
use crate::factoring::ceiling_quotient;
use crate::pool::MOST_PROBLEMS;
use crate::problem::{table_size, ENTRY_RANGE, LIMIT_RANGE, LINEAR_RANGE};
use crate::summary::{encode, NUMBER_WIDTH};
use crate::sums::Sums;

/// The arguments of pooling; the sums with their contents before the call.
#[derive(Clone, Debug, PartialEq, Eq)]
#[allow(missing_docs)]
pub struct PoolCall {
    pub n: i64,
    pub low: Vec<u8>,
    pub high: Vec<u8>,
    pub linear_low: Vec<u8>,
    pub linear_high: Vec<u8>,
    pub running_limit: Vec<u8>,
    pub orders: Vec<u8>,
    pub lows: Vec<u8>,
    pub highs: Vec<u8>,
    pub linear_lows: Vec<u8>,
    pub linear_highs: Vec<u8>,
    pub limits: Vec<u8>,
}

/// Running sums and problems of one order, as a caller holds them. No centre plays a part.
#[derive(Clone, Debug, PartialEq, Eq)]
#[allow(missing_docs)]
pub struct RawPool {
    pub sums: RawProblem,
    pub problems: Vec<RawProblem>,
}

/// One call in this many is made faulty, in each of the ways below.
const FAULT_SHARE: usize = 24;

/// Lengths of the list of orders, in bytes: of no, one, 64 and 65 numbers, and beside them.
const LENGTHS: [usize; 7] = [0, 7, 8, 9, 512, 513, 520];

/// The place of a sum: that of an entry, of a linear term, or of the running limit.
#[derive(Clone, Copy)]
enum Slot {
    Entry(usize, usize),
    Term(usize),
    Limit,
}

impl RawPool {
    /// The call that pools these problems.
    pub fn call(&self) -> PoolCall {
        let list = |part: fn(&RawProblem) -> Vec<i64>| {
            let numbers: Vec<i64> = self.problems.iter().flat_map(part).collect();
            encode(&numbers, NUMBER_WIDTH)
        };
        let bytes = |numbers: &[i64]| encode(numbers, NUMBER_WIDTH);
        PoolCall {
            n: self.sums.order as i64,
            low: bytes(&self.sums.low),
            high: bytes(&self.sums.high),
            linear_low: bytes(&self.sums.linear_low),
            linear_high: bytes(&self.sums.linear_high),
            running_limit: bytes(&[self.sums.limit]),
            orders: list(|problem| vec![problem.order as i64]),
            lows: list(|problem| problem.low.clone()),
            highs: list(|problem| problem.high.clone()),
            linear_lows: list(|problem| problem.linear_low.clone()),
            linear_highs: list(|problem| problem.linear_high.clone()),
            limits: list(|problem| vec![problem.limit]),
        }
    }
}

impl Generator {
    /// A call of pooling.
    pub fn pool_call(&mut self) -> PoolCall {
        let mut pool = self.pool();
        self.damage_pool(&mut pool);
        let mut call = pool.call();
        self.damage_orders(&mut call.orders);
        let buffers = &mut [
            &mut call.low,
            &mut call.high,
            &mut call.linear_low,
            &mut call.linear_high,
            &mut call.running_limit,
            &mut call.orders,
            &mut call.lows,
            &mut call.highs,
            &mut call.linear_lows,
            &mut call.linear_highs,
            &mut call.limits,
        ];
        self.damage_sizes(&mut call.n, buffers);
        call
    }

    /// A pool of 1 to 64 problems that all checks but 18 let through, of any order.
    pub fn pool(&mut self) -> RawPool {
        let order = self.random.between(1, 8) as usize;
        let sums = self.pooling_sums(order);
        let few = self.random.between(1, 5);
        let any = self.random.between(1, MOST_PROBLEMS as i64);
        let most = MOST_PROBLEMS as i64;
        let count = match self.random.index(16) {
            0 => self.random.pick(&[most - 1, most]),
            1 => any,
            _ => few,
        };
        self.pool_into(sums, count as usize)
    }

    /// So many problems for sums that are let through. Some of the problems are made so that
    /// they halve the sums: none, the first, the last, one, several in a row, or each; and
    /// now and then one so that 18 refuses it.
    pub fn pool_into(&mut self, sums: RawProblem, count: usize) -> RawPool {
        let mut running = sums.as_sums();
        let (start, length) = match self.random.index(6) {
            0 => (0, 0),
            1 => (0, 1),
            2 => (count - 1, 1),
            3 => (self.random.index(count), 1),
            4 => (self.random.index(count), self.random.index(6) + 2),
            _ => (0, count),
        };
        let full = self.random.one_in(6).then(|| {
            let any = self.random.index(count);
            self.random.pick(&[0, any, count - 1])
        });
        let mut problems = vec![];
        for k in 0..count {
            let halves = (start..start + length).contains(&k);
            let mut problem = self.pooled_problem(sums.order, count);
            if halves || full == Some(k) {
                self.steer(&mut problem, &running, full == Some(k));
            }
            if let Ok((next, _)) = running.with(&problem.as_sums()) {
                running = next;
            }
            problems.push(self.perhaps_apart(problem));
        }
        RawPool { sums, problems }
    }

    /// Sums of an order that are let through: zeros, those of a problem, or some at the ends
    /// of their ranges or near them. Now and then their halves are rounded apart.
    pub fn pooling_sums(&mut self, order: usize) -> RawProblem {
        let mut sums = match self.random.index(3) {
            0 => RawProblem::zeros(order),
            1 => self.little(order),
            _ => {
                let kind = self.random.pick(&KINDS);
                let wide = self.random.one_in(2);
                self.problem(kind, order, wide)
            }
        };
        for _ in 0..self.random.pick(&[0, 0, 1, 1, 3]) {
            self.fill_up(&mut sums);
        }
        self.perhaps_apart(sums)
    }

    /// A problem to be pooled with others: one of small numbers, or now and then of any kind.
    fn pooled_problem(&mut self, order: usize, count: usize) -> RawProblem {
        if self.random.one_in(4 * count) {
            let kind = self.random.pick(&KINDS);
            let wide = self.random.one_in(2);
            return self.problem(kind, order, wide);
        }
        self.little(order)
    }

    /// Small numbers, odd and negative ones too: no 64 of them fill a sum.
    fn little(&mut self, order: usize) -> RawProblem {
        let size = self.random.pick(&[0, 1, 9, 1000]);
        let width = self.random.pick(&[0, 0, 1, 9]);
        let low = self.symmetric(order, |own, _, _| own.random.within(size));
        let high = self.symmetric(order, |own, i, j| {
            low[i * order + j] + own.random.between(0, width)
        });
        let linear_low: Vec<i64> = (0..order).map(|_| self.random.within(size << 8)).collect();
        let mut above = |low: &i64| low + self.random.between(0, width);
        RawProblem {
            order,
            low,
            high,
            linear_high: linear_low.iter().map(&mut above).collect(),
            linear_low,
            limit: self.random.within(size << 16),
            centre: vec![0; order],
        }
    }

    /// Has a problem bring one of these sums out of its range, so that halving makes room for
    /// it, or so that it does not. Where the sum is too near to 0 for that, the problem stays
    /// as it is.
    fn steer(&mut self, problem: &mut RawProblem, running: &Sums, full: bool) {
        let order = problem.order;
        let sign = self.random.pick(&[-1, 1_i64]);
        let (slot, range, sum) = self.fullest(running, order, i128::from(sign));
        let halved = ceiling_quotient(sum, 2);
        let (least, most) = match full {
            true => (range - halved + 1, range),
            false => (range - sum + 1, range - halved),
        };
        if least > most {
            return;
        }
        let (least, most) = (least as i64, most as i64);
        let any = self.random.between(least, most);
        let number = sign * self.random.pick(&[least, any, most]);
        match slot {
            Slot::Entry(i, j) => {
                for place in [i * order + j, j * order + i] {
                    stretch(&mut problem.low[place], &mut problem.high[place], number);
                }
            }
            Slot::Term(k) => stretch(
                &mut problem.linear_low[k],
                &mut problem.linear_high[k],
                number,
            ),
            Slot::Limit => problem.limit = number,
        }
    }

    /// Of the entries, the linear terms or the running limit: the sum that is nearest to the
    /// end of its range on one side, with that range, and how far it is on that side of 0.
    fn fullest(&mut self, sums: &Sums, order: usize, sign: i128) -> (Slot, i128, i128) {
        let (entries, terms) = match sign {
            1 => (&sums.high, &sums.linear_high),
            _ => (&sums.low, &sums.linear_low),
        };
        let greatest = |list: &[i128]| {
            let places = (0..list.len()).map(|k| (sign * list[k], k));
            places.max().expect("an order is 1 or more")
        };
        let kind = self.random.index(3);
        if kind == 0 {
            let (sum, place) = greatest(entries);
            (Slot::Entry(place / order, place % order), ENTRY_RANGE, sum)
        } else if kind == 1 {
            let (sum, place) = greatest(terms);
            (Slot::Term(place), LINEAR_RANGE, sum)
        } else {
            (Slot::Limit, LIMIT_RANGE, sign * sums.running_limit)
        }
    }

    /// Now and then faults in the sums, in the first problem, in the last one or in any; and
    /// now and then 65 problems, or none.
    fn damage_pool(&mut self, pool: &mut RawPool) {
        let last = pool.problems.len() - 1;
        let any = self.random.index(last + 1);
        let places = [self.random.pick(&[0, last]), any];
        if self.random.one_in(3) {
            self.damage_entries(&mut pool.sums);
            self.damage_terms(&mut pool.sums);
        }
        for place in places {
            if self.random.one_in(3) {
                self.damage_entries(&mut pool.problems[place]);
                self.damage_terms(&mut pool.problems[place]);
            }
        }
        let zeros = RawProblem::zeros(pool.sums.order);
        match self.random.index(2 * FAULT_SHARE) {
            0 => pool.problems.clear(),
            1 => pool.problems.resize(MOST_PROBLEMS + 1, zeros),
            _ => {}
        }
    }

    /// Now and then an order in the list that is none, in all places or in one, or one that
    /// is another; or a list of another length.
    fn damage_orders(&mut self, orders: &mut Vec<u8>) {
        let count = orders.len() / NUMBER_WIDTH;
        let wrong = self.random.pick(&WRONG_ORDERS).to_le_bytes();
        if self.random.one_in(FAULT_SHARE) {
            *orders = wrong.repeat(count);
        }
        for number in [wrong, self.random.between(1, 8).to_le_bytes()] {
            if count > 0 && self.random.one_in(FAULT_SHARE) {
                let any = self.random.index(count);
                let place = NUMBER_WIDTH * self.random.pick(&[0, any, count - 1]);
                orders[place..place + NUMBER_WIDTH].copy_from_slice(&number);
            }
        }
        if self.random.one_in(FAULT_SHARE) {
            let length = self.random.pick(&LENGTHS);
            orders.resize(length, 0);
        }
    }

    /// Brings some sum to the end of its range, or near it.
    pub(super) fn fill_up(&mut self, sums: &mut RawProblem) {
        let room = self.random.pick(&[0, 1, 200, 20_000]);
        let room = self.random.between(0, room);
        let sign = self.random.pick(&[-1, 1]);
        let end = |range: i128| sign * (range as i64 - room);
        let order = sums.order;
        let (i, j) = (self.random.index(order), self.random.index(order));
        match self.random.index(3) {
            0 => {
                for place in [i * order + j, j * order + i] {
                    let (low, high) = (&mut sums.low[place], &mut sums.high[place]);
                    stretch(low, high, end(ENTRY_RANGE));
                }
            }
            1 => stretch(
                &mut sums.linear_low[i],
                &mut sums.linear_high[i],
                end(LINEAR_RANGE),
            ),
            _ => sums.limit = end(LIMIT_RANGE),
        }
    }
}

impl RawProblem {
    /// Sums that begin (R23.1), or a problem that adds nothing to them.
    pub fn zeros(order: usize) -> RawProblem {
        RawProblem {
            order,
            low: vec![0; table_size(order)],
            high: vec![0; table_size(order)],
            linear_low: vec![0; order],
            linear_high: vec![0; order],
            limit: 0,
            centre: vec![0; order],
        }
    }

    /// The same as sums, or as what is added to them. It is let through.
    pub fn as_sums(&self) -> Sums {
        let (low, high) = (&self.low, &self.high);
        let (least, most) = (&self.linear_low, &self.linear_high);
        Sums::read(self.order, low, high, least, most, self.limit).expect("it is let through")
    }
}

/// Moves one end to a number, and the other with it where it would be crossed.
fn stretch(low: &mut i64, high: &mut i64, number: i64) {
    if number < 0 {
        *low = number;
        *high = number.max(*high);
    } else {
        *high = number;
        *low = number.min(*low);
    }
}
