//! Generated calls, valid and damaged: the same answer as the reference, the
//! same buffers after, and no byte beside a buffer written.

use hankboulder_compare::enclosure::BOX;
use hankboulder_compare::gather::GATHER;
use hankboulder_compare::judge::JUDGE;
use hankboulder_compare::pool::POOL;
use hankboulder_compare::read_summary::READ_SUMMARY;
use hankboulder_compare::read_sums::READ_SUMS;
use hankboulder_compare::stiffness::STIFFNESS;
use hankboulder_compare::test_factor::TEST_FACTOR;
use hankboulder_compare::test_vector::TEST_VECTOR;
use hankboulder_compare::write_summary::WRITE_SUMMARY;
use hankboulder_compare::{Act, Counts, Detail, Given, Halvings, Inputs, Kind, Outcome, Part, Row};
use hankboulder_reference::judge::List;

/// The kinds of numbers that sums share with a problem.
const SUMS: [Kind; 4] = [Kind::Low, Kind::High, Kind::LinearLow, Kind::LinearHigh];

/// How many calls of an act are made that are not refused, and at least how many
/// of them have each answer.
struct Answered {
    calls: usize,
    least: &'static [(i64, usize)],
}

/// At least so many calls are refused by each number that an act has.
const REFUSED: usize = 1500;

/// At least so many calls of each order have each answer, or came about in each
/// way that an answer leaves open.
const AT_AN_ORDER: usize = 200;
const IN_A_WAY: usize = 50;

/// At least so many of them have a lopsided table, and as many have none.
const LOPSIDED: usize = 50;

/// Whether an answer is given once the tables were looked at.
fn after_the_tables(answer: i64) -> bool {
    answer <= 0 || [3, 4, 5, 6, 7, 8, 9, 16, 18].contains(&answer)
}

/// Fails where an answer at an order came of lopsided tables, or of symmetric ones, too
/// seldom. 5 comes of lopsided ones alone.
fn expect_both_shapes(counts: &Counts, order: i64, answer: i64) {
    let lopsided = counts.of_lopsided_at(Some(order), answer);
    let symmetric = counts.of_answer_at(Some(order), answer) - lopsided;
    let place = format!("order {order}: answer {answer}: {lopsided} lopsided, {symmetric} not");
    assert_eq!(lopsided >= LOPSIDED, order > 1, "{place}");
    assert_eq!(symmetric >= LOPSIDED, answer != 5, "{place}");
    assert!(answer != 5 || symmetric == 0, "{place}");
}

fn agrees_on_generated_calls(act: &Act, seed: u64, answered: Answered) -> Counts {
    let counts = act.agree_on_generated(seed, answered.calls);
    println!("{}: {counts}", act.name);
    assert!(counts.answered() >= answered.calls);
    for answer in act.answers {
        let listed = answered.least.iter().find(|(least, _)| least == answer);
        assert_eq!(listed.is_some(), *answer <= 0, "answer {answer}");
        let least = listed.map_or(REFUSED, |(_, calls)| *calls);
        let given = counts.of_answer(*answer);
        assert!(given >= least, "answer {answer}: {given} calls");
        for order in 1..=8 {
            let given = counts.of_answer_at(Some(order), *answer);
            let place = format!("order {order}: answer {answer}: {given} calls");
            // 1 is about n alone, but in a pool about each order in the list too.
            let asked = *answer != 1 || act.inputs == Inputs::Pooled;
            if asked && (act.possible)(order, *answer) {
                assert!(given >= AT_AN_ORDER, "{place}");
                if after_the_tables(*answer) {
                    expect_both_shapes(&counts, order, *answer);
                }
            } else {
                assert_eq!(given, 0, "{place}");
            }
        }
    }
    if act.inputs != Inputs::File {
        // 17 comes before 1, where a sample is handed over.
        let refused = counts.of_answer_at(None, 1) + counts.of_answer_at(None, 17);
        assert_eq!(refused, counts.of_order(None));
    }
    counts
}

/// Fails where an outcome of an order came about in a way too seldom, or though
/// it cannot.
fn expect_way(counts: &Counts, order: i64, detail: Detail, possible: bool) {
    let met = counts.of_detail(Some(order), detail);
    let place = format!("order {order}: {detail:?}: {met} calls");
    if possible {
        assert!(met >= IN_A_WAY, "{place}");
    } else {
        assert_eq!(met, 0, "{place}");
    }
}

/// The least is in the first, a middle and the last row, of accepted factors and others.
#[test]
fn the_factor_test_agrees_with_the_reference_at_every_order() {
    let answered = Answered {
        calls: 200_000,
        least: &[(0, 30_000), (-1, 120_000)],
    };
    let counts = agrees_on_generated_calls(&TEST_FACTOR, 1, answered);
    for (order, answer) in (1..=8).flat_map(|order| [(order, 0), (order, -1)]) {
        let rows = [Row::First, Row::Last, Row::Middle];
        for row in &rows[..(order as usize).min(3)] {
            let detail = Some(Detail::LeastIn(*row));
            let met = counts.of_outcome(Some(order), Outcome { answer, detail });
            assert!(met >= IN_A_WAY, "order {order}, {answer}, {row:?}: {met}");
        }
    }
}

#[test]
fn the_vector_test_agrees_with_the_reference_at_every_order() {
    let answered = Answered {
        calls: 200_000,
        least: &[(0, 40_000), (-1, 120_000)],
    };
    agrees_on_generated_calls(&TEST_VECTOR, 2, answered);
}

#[test]
fn the_judge_agrees_with_the_reference_at_every_order() {
    let answered = Answered {
        calls: 100_000,
        least: &[(0, 30_000), (-1, 40_000), (-2, 5000)],
    };
    let counts = agrees_on_generated_calls(&JUDGE, 3, answered);
    for order in 1..=8 {
        for list in [List::Tried, List::Solved(1), List::Solved(64)] {
            // At order 1 there is none to solve for.
            let possible = order > 1 || list == List::Tried;
            expect_way(&counts, order, Detail::From(list), possible);
        }
    }
}

#[test]
fn the_box_agrees_with_the_reference_at_every_order() {
    let answered = Answered {
        calls: 100_000,
        least: &[(0, 60_000), (-1, 20_000)],
    };
    let counts = agrees_on_generated_calls(&BOX, 4, answered);
    for order in 1..=8 {
        for kind in SUMS.into_iter().chain([Kind::Limit, Kind::Centre]) {
            expect_way(&counts, order, Detail::Beyond(kind), true);
        }
        // At orders 1 and 2, a power of 2 that can be taken off every diagonal
        // entry can be taken off one alone.
        expect_way(&counts, order, Detail::Stepless, order > 2);
    }
}

#[test]
fn gathering_agrees_with_the_reference() {
    let answered = Answered {
        calls: 200_000,
        least: &[(0, 200_000)],
    };
    let counts = agrees_on_generated_calls(&GATHER, 5, answered);
    for kind in SUMS.into_iter().chain([Kind::RunningLimit]) {
        expect_way(&counts, 4, Detail::Beyond(kind), true);
        expect_way(&counts, 4, Detail::Halved(kind), true);
    }
}

/// Sums that are halved for none, one and several of the problems, 18 at each place, numbers
/// of every kind beyond their range, and 4, 5 and 16 in the sums and at each place.
#[test]
fn pooling_agrees_with_the_reference_at_every_order() {
    let answered = Answered {
        calls: 100_000,
        least: &[(0, 100_000)],
    };
    let counts = agrees_on_generated_calls(&POOL, 10, answered);
    let rows = [Row::First, Row::Middle, Row::Last];
    let several = [Halvings::None, Halvings::Several, Halvings::InARow];
    let lists = [
        Kind::RunningLimit,
        Kind::Lows,
        Kind::Highs,
        Kind::LinearLows,
        Kind::LinearHighs,
        Kind::Limits,
    ];
    for order in 1..=8 {
        for halvings in several.into_iter().chain(rows.map(Halvings::One)) {
            expect_way(&counts, order, Detail::Pooled(halvings), true);
        }
        for row in rows {
            expect_way(&counts, order, Detail::FullAt(row), true);
        }
        for kind in SUMS.into_iter().chain(lists) {
            expect_way(&counts, order, Detail::Beyond(kind), true);
        }
        for part in rows.map(Part::Problem).into_iter().chain([Part::Sums]) {
            for answer in [4, 5, 16] {
                let detail = Some(Detail::In(part));
                let met = counts.of_outcome(Some(order), Outcome { answer, detail });
                let enough = if answer == 5 && order == 1 {
                    met == 0
                } else {
                    met >= 10
                };
                assert!(enough, "order {order}, {answer}, {part:?}: {met}");
            }
        }
    }
}

#[test]
fn reading_the_sums_agrees_with_the_reference_at_every_order() {
    let answered = Answered {
        calls: 200_000,
        least: &[(0, 200_000)],
    };
    let counts = agrees_on_generated_calls(&READ_SUMS, 6, answered);
    let others = [Kind::RunningLimit, Kind::Allowance, Kind::Limit];
    for order in 1..=8 {
        for kind in SUMS.into_iter().chain(others) {
            expect_way(&counts, order, Detail::Beyond(kind), true);
        }
    }
}

/// Steps of 0 and above it, and bounds alone below 0, of 0 and above it, each with the
/// least fraction at the vector that is shown and elsewhere. The judge, the vector test and
/// the verdicts on lowered tables are asked of each, too.
#[test]
fn the_bracket_agrees_with_the_reference_at_every_order() {
    let answered = Answered {
        calls: 90_000,
        least: &[(0, 25_000), (-1, 50_000)],
    };
    let counts = agrees_on_generated_calls(&STIFFNESS, 9, answered);
    let all = [
        Given::StepOf0,
        Given::StepAbove0,
        Given::BoundBelow0,
        Given::BoundOf0,
        Given::BoundAbove0,
    ];
    for (order, given) in (1..=8).flat_map(|order| all.map(|given| (order, given))) {
        // At order 1 there is one vector and its opposite, and factoring stops exactly where
        // the bound is 0 or less.
        let possible = order > 1 || given != Given::BoundAbove0;
        expect_way(&counts, order, Detail::Bracketed(given, false), possible);
        expect_way(&counts, order, Detail::Bracketed(given, true), order > 1);
    }
}

/// Each file that is written is read back, too.
#[test]
fn writing_a_summary_agrees_with_the_reference_at_every_order() {
    let answered = Answered {
        calls: 100_000,
        least: &[(0, 100_000)],
    };
    let counts = agrees_on_generated_calls(&WRITE_SUMMARY, 7, answered);
    for order in 1..=8 {
        for kind in SUMS.into_iter().chain([Kind::Limit, Kind::Centre]) {
            expect_way(&counts, order, Detail::Beyond(kind), true);
        }
    }
}

/// Each problem that is read is written again, too.
#[test]
fn reading_a_summary_agrees_with_the_reference_at_every_order() {
    let answered = Answered {
        calls: 100_000,
        least: &[(0, 100_000)],
    };
    agrees_on_generated_calls(&READ_SUMMARY, 8, answered);
}
