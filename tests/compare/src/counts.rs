//! How often each outcome was met at each order.

use std::collections::BTreeMap;
use std::fmt;
use std::iter::Sum;
use std::ops::AddAssign;

use hankboulder_reference::judge::List;

use crate::bus::tick::Ticked;
use crate::bus::write::Written;

/// How an answer came about, where the answer leaves it open.
#[derive(Clone, Copy, Debug, PartialEq, Eq, PartialOrd, Ord)]
pub enum Detail {
    /// The vector written by the judge is from this list.
    From(List),
    /// The call is refused by 3, and only numbers of this kind are beyond their
    /// range.
    Beyond(Kind),
    /// The sums are halved for the sample, since sums of this kind alone would leave their
    /// range.
    Halved(Kind),
    /// The problems are taken, and these of them halve the sums.
    Pooled(Halvings),
    /// The pool is refused by 18 at a problem of this place.
    FullAt(Row),
    /// The pool is refused, and this part of it alone has what refuses.
    In(Part),
    /// The box is given, though t(k) = 0 for some k.
    Stepless,
    /// This row alone has the least over.
    LeastIn(Row),
    /// The bracket gives this; and whether another vector than the one that is shown has
    /// the least fraction.
    Bracketed(Given, bool),
    /// The write of the bus is about this.
    Written(Written),
    /// The tick of the bus does this.
    Ticked(Ticked),
}

/// Places of a row, or of a problem in a pool. The only one is the first.
#[derive(Clone, Copy, Debug, PartialEq, Eq, PartialOrd, Ord)]
#[allow(missing_docs)]
pub enum Row {
    First,
    Middle,
    Last,
}

/// Which problems of a pool halve the sums: none, one at this place, or several, three in a
/// row among them or not. The only problem is the first.
#[derive(Clone, Copy, Debug, PartialEq, Eq, PartialOrd, Ord)]
#[allow(missing_docs)]
pub enum Halvings {
    None,
    One(Row),
    Several,
    InARow,
}

/// The sums, or a problem of a pool at this place.
#[derive(Clone, Copy, Debug, PartialEq, Eq, PartialOrd, Ord)]
#[allow(missing_docs)]
pub enum Part {
    Sums,
    Problem(Row),
}

/// What a bracket gives: a step, or a bound alone.
#[derive(Clone, Copy, Debug, PartialEq, Eq, PartialOrd, Ord)]
#[allow(missing_docs)]
pub enum Given {
    StepOf0,
    StepAbove0,
    BoundBelow0,
    BoundOf0,
    BoundAbove0,
}

impl Row {
    /// The place of one of so many.
    pub fn of(place: usize, count: usize) -> Row {
        match place {
            0 => Row::First,
            last if last + 1 == count => Row::Last,
            _ => Row::Middle,
        }
    }
}

impl Halvings {
    /// Of problems, one after the other, that halve the sums or not.
    pub fn of(halved: &[bool]) -> Halvings {
        let places: Vec<usize> = (0..halved.len()).filter(|k| halved[*k]).collect();
        let in_a_row = halved.windows(3).any(|three| three == [true; 3]);
        match places[..] {
            _ if in_a_row => Halvings::InARow,
            [] => Halvings::None,
            [place] => Halvings::One(Row::of(place, halved.len())),
            _ => Halvings::Several,
        }
    }
}

/// The kinds of numbers that check 3 asks, and that sums are halved for.
#[derive(Clone, Copy, Debug, PartialEq, Eq, PartialOrd, Ord)]
#[allow(missing_docs)]
pub enum Kind {
    Low,
    High,
    LinearLow,
    LinearHigh,
    Limit,
    Centre,
    RunningLimit,
    Allowance,
    Lows,
    Highs,
    LinearLows,
    LinearHighs,
    Limits,
}

/// Numbers of a kind, and their range.
pub type OfKind = (Kind, Vec<i64>, i128);

/// The kind of the numbers that are beyond their range, where it is one alone.
pub fn one_beyond(of_kinds: &[OfKind]) -> Option<Kind> {
    let passes = |number: &i64, range| i128::from(*number).abs() <= range;
    let mut kinds = of_kinds
        .iter()
        .filter(|(_, numbers, range)| !numbers.iter().all(|number| passes(number, *range)))
        .map(|(kind, _, _)| *kind);
    kinds.next().filter(|_| kinds.next().is_none())
}

/// What a call comes to.
#[derive(Clone, Copy, Debug, PartialEq, Eq, PartialOrd, Ord)]
pub struct Outcome {
    /// The answer
    pub answer: i64,
    /// How it came about
    pub detail: Option<Detail>,
}

impl Outcome {
    /// Whether the answer is the number of a refusal.
    pub fn refused(&self) -> bool {
        self.answer > 0
    }
}

impl From<i64> for Outcome {
    fn from(answer: i64) -> Outcome {
        Outcome {
            answer,
            detail: None,
        }
    }
}

impl fmt::Display for Outcome {
    fn fmt(&self, f: &mut fmt::Formatter) -> fmt::Result {
        write!(f, "answer {}", self.answer)?;
        match self.detail {
            None => Ok(()),
            Some(Detail::From(List::Tried)) => write!(f, ", tried vector"),
            Some(Detail::From(List::Solved(s))) => write!(f, ", solved vector with s = {s}"),
            Some(Detail::Beyond(kind)) => write!(f, ", by {kind:?} alone"),
            Some(Detail::Halved(kind)) => write!(f, ", halved for {kind:?} alone"),
            Some(Detail::Pooled(halvings)) => write!(f, ", halvings: {halvings:?}"),
            Some(Detail::FullAt(row)) => write!(f, ", at the problem {row:?}"),
            Some(Detail::In(part)) => write!(f, ", in {part:?} alone"),
            Some(Detail::Stepless) => write!(f, ", t(k) = 0 for some k"),
            Some(Detail::LeastIn(row)) => write!(f, ", {row:?} row the least"),
            Some(Detail::Bracketed(given, false)) => write!(f, ", {given:?}"),
            Some(Detail::Bracketed(given, true)) => {
                write!(f, ", {given:?}, the least fraction elsewhere")
            }
            Some(Detail::Written(written)) => write!(f, ", {written:?}"),
            Some(Detail::Ticked(ticked)) => write!(f, ", {ticked:?}"),
        }
    }
}

/// The orders that check 1 lets through.
pub const ORDERS: std::ops::RangeInclusive<i64> = 1..=8;

/// How many calls there are, and how many of them have a lopsided table.
#[derive(Clone, Copy, Debug, Default, PartialEq, Eq)]
struct Met {
    calls: usize,
    lopsided: usize,
}

impl AddAssign for Met {
    fn add_assign(&mut self, more: Met) {
        self.calls += more.calls;
        self.lopsided += more.lopsided;
    }
}

/// Calls by order and outcome. All orders out of range are counted as one.
#[derive(Clone, Debug, Default, PartialEq, Eq)]
pub struct Counts {
    met: BTreeMap<(Option<i64>, Outcome), Met>,
}

impl Counts {
    /// Counts a call, and whether a table of it is lopsided.
    pub fn add(&mut self, n: i64, outcome: Outcome, lopsided: bool) {
        let order = Some(n).filter(|order| ORDERS.contains(order));
        *self.met.entry((order, outcome)).or_default() += Met {
            calls: 1,
            lopsided: usize::from(lopsided),
        };
    }

    /// Calls that were not refused.
    pub fn answered(&self) -> usize {
        self.of(|_, outcome| !outcome.refused()).calls
    }

    /// Calls of an order; `None` stands for all orders out of range.
    pub fn of_order(&self, order: Option<i64>) -> usize {
        self.of(|n, _| n == order).calls
    }

    /// Calls with an answer.
    pub fn of_answer(&self, answer: i64) -> usize {
        self.of(|_, outcome| outcome.answer == answer).calls
    }

    /// Calls of an order with an answer.
    pub fn of_answer_at(&self, order: Option<i64>, answer: i64) -> usize {
        self.at(order, answer).calls
    }

    /// Those of them that have a lopsided table.
    pub fn of_lopsided_at(&self, order: Option<i64>, answer: i64) -> usize {
        self.at(order, answer).lopsided
    }

    /// Calls of an order with an answer that came about so.
    pub fn of_detail(&self, order: Option<i64>, detail: Detail) -> usize {
        self.of(|n, outcome| n == order && outcome.detail == Some(detail))
            .calls
    }

    /// The same of one answer alone.
    pub fn of_outcome(&self, order: Option<i64>, outcome: Outcome) -> usize {
        self.of(|n, met| n == order && *met == outcome).calls
    }

    fn at(&self, order: Option<i64>, answer: i64) -> Met {
        self.of(|n, outcome| n == order && outcome.answer == answer)
    }

    fn of(&self, counted: impl Fn(Option<i64>, &Outcome) -> bool) -> Met {
        let mut total = Met::default();
        let met = self.met.iter();
        let met = met.filter(|((n, outcome), _)| counted(*n, outcome));
        met.for_each(|(_, more)| total += *more);
        total
    }
}

impl Sum for Counts {
    fn sum<I: Iterator<Item = Counts>>(parts: I) -> Counts {
        let mut total = Counts::default();
        for (key, met) in parts.flat_map(|part| part.met) {
            *total.met.entry(key).or_default() += met;
        }
        total
    }
}

impl fmt::Display for Counts {
    fn fmt(&self, f: &mut fmt::Formatter) -> fmt::Result {
        for ((order, outcome), met) in &self.met {
            let order = order.map_or("out of range".to_string(), |n| n.to_string());
            let Met { calls, lopsided } = met;
            write!(
                f,
                "\n  order {order}, {outcome}: {calls} calls, {lopsided} lopsided"
            )?;
        }
        Ok(())
    }
}
