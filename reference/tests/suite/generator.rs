//! The generator reaches every answer and every refusal.

use std::collections::{BTreeMap, BTreeSet};

use hankboulder_reference::entries;
use hankboulder_reference::generate::numbers::is_lopsided;
use hankboulder_reference::generate::{Generator, RawProblem, EDGES, KINDS};
use hankboulder_reference::judge::{verdict, List, Verdict};
use hankboulder_reference::pool::add_all;
use hankboulder_reference::problem::Bounds;
use hankboulder_reference::program::output;
use hankboulder_reference::residual::{check_factor, over, rows_over};
use hankboulder_reference::stiffness::{bracket_of, has_smaller_fraction};
use hankboulder_reference::summary::read_problem;
use hankboulder_reference::sums::Sums;
use hankboulder_reference::writer::file_of;

use crate::support::{
    enclose_problem, judge, numbers, run_box, run_factor, run_gather, run_judge, run_pool,
    run_read, run_stiffness, run_sums, run_write,
};

/// How often each answer was met.
type Counts = BTreeMap<i64, usize>;

fn count(rounds: usize, mut answer: impl FnMut() -> i64) -> Counts {
    let mut counts = Counts::new();
    for _ in 0..rounds {
        *counts.entry(answer()).or_default() += 1;
    }
    counts
}

fn assert_met(counts: &Counts, answers: &[i64]) {
    let met: Vec<i64> = counts.keys().copied().collect();
    assert_eq!(met, answers, "{counts:?}");
}

#[test]
fn the_same_seed_gives_the_same_calls() {
    let calls = |seed: u64| {
        let mut generator = Generator::new(seed);
        let problem = generator.any_problem();
        let acts = (generator.factor_call(), generator.vector_call());
        let others = (
            generator.judge_call(),
            generator.box_call(),
            generator.stiffness_call(),
        );
        let rides = (
            generator.gather_call(),
            generator.sums_call(),
            generator.pool_call(),
        );
        let files = (generator.write_call(), generator.read_call());
        let bus = (generator.bus_operations(), generator.bus_call());
        (
            problem,
            acts,
            others,
            rides,
            files,
            bus,
            generator.summary_file(),
        )
    };
    assert_eq!(calls(1), calls(1));
    assert_ne!(calls(1), calls(2));
}

#[test]
fn factor_calls_meet_every_answer() {
    let mut generator = Generator::new(51);
    let counts = count(3000, || run_factor(&mut generator.factor_call()));
    assert_met(&counts, &[-1, 0, 1, 2, 3, 4, 5, 6]);
}

/// How far a factor is from having nothing over: not at all, by less than 2^24, by less
/// than 2^32 or by more, on either side.
fn distance(over: i128) -> i64 {
    let far = match over.abs() {
        0 => 0,
        1..0x100_0000 => 1,
        0x100_0000..0x1_0000_0000 => 2,
        _ => 3,
    };
    over.signum() as i64 * far
}

const FIRST: i64 = 0;
const MIDDLE: i64 = 1;
const LAST: i64 = 2;

/// The place of the row that alone has the least over.
fn least_row(rows: &[i128]) -> Option<i64> {
    let least = rows.iter().min()?;
    let mut found = (0..rows.len()).filter(|i| rows[*i] == *least);
    let place = match found.next()? {
        0 => FIRST,
        last if last + 1 == rows.len() => LAST,
        _ => MIDDLE,
    };
    found.next().is_none().then_some(place)
}

/// At every order factors are accepted and not, just so and by far, and the least is in
/// the first, in a middle and in the last row, on either side.
#[test]
fn offered_factors_are_just_accepted_just_not_and_far_from_it() {
    let mut generator = Generator::new(68);
    let mut distances: BTreeMap<usize, Counts> = BTreeMap::new();
    let mut places: BTreeMap<(usize, bool), Counts> = BTreeMap::new();
    for _ in 0..30_000 {
        let (problem, factor) = generator.offer();
        let n = problem.order;
        let bounds = Bounds::read(n, &problem.low, &problem.high).unwrap();
        let Ok(factor) = check_factor(n, &factor) else {
            continue;
        };
        let rows = rows_over(&bounds, &factor);
        let over = over(&bounds, &factor);
        let met = distances.entry(n).or_default();
        *met.entry(distance(over)).or_default() += 1;
        if let Some(place) = least_row(&rows) {
            let met = places.entry((n, over >= 0)).or_default();
            *met.entry(place).or_default() += 1;
        }
    }
    for n in 1..=8 {
        assert_met(&distances[&n], &[-3, -2, -1, 0, 1, 2, 3]);
        let rows = [&[FIRST][..], &[FIRST, LAST], &[FIRST, MIDDLE, LAST]][n.min(3) - 1];
        for accepted in [false, true] {
            let met = &places[&(n, accepted)];
            assert_met(met, rows);
            assert!(met.values().all(|count| *count >= 40), "{n}: {met:?}");
        }
    }
}

#[test]
fn vector_calls_meet_every_answer() {
    let mut generator = Generator::new(52);
    let counts = count(3000, || {
        let call = generator.vector_call();
        entries::test_vector(call.n, &call.low, &call.high, &call.vector)
    });
    assert_met(&counts, &[-1, 0, 1, 2, 3, 4, 5, 7]);
}

#[test]
fn judge_calls_meet_every_answer() {
    let mut generator = Generator::new(53);
    let counts = count(3000, || run_judge(&mut generator.judge_call()));
    assert_met(&counts, &[-2, -1, 0, 1, 2, 3, 4, 5]);
}

#[test]
fn box_calls_meet_every_answer() {
    let mut generator = Generator::new(54);
    let counts = count(3000, || {
        let mut call = generator.box_call();
        run_box(&mut call)
    });
    assert_met(&counts, &[-1, 0, 1, 2, 3, 4, 5, 8, 9, 16]);
}

#[test]
fn calls_of_the_bracket_meet_every_answer() {
    let mut generator = Generator::new(69);
    let counts = count(3000, || run_stiffness(&mut generator.stiffness_call()));
    assert_met(&counts, &[-1, 0, 1, 2, 3, 4, 5]);
}

const STEP_OF_0: i64 = 0;
const STEP_ABOVE_0: i64 = 1;
const BELOW_0: i64 = 2;
const AT_0: i64 = 3;
const ABOVE_0: i64 = 4;

/// Steps of 0 and above, and bounds alone on either side of 0 and at it, each where the
/// vector that is shown has the least fraction and where another one has it. At order 1
/// factoring stops exactly where the bound is 0 or less, and there is one fraction.
#[test]
fn brackets_of_every_kind_are_met_at_every_order() {
    let mut generator = Generator::new(70);
    let mut met: BTreeMap<(usize, bool), Counts> = BTreeMap::new();
    let mut ends: BTreeMap<usize, BTreeSet<i128>> = BTreeMap::new();
    for _ in 0..6000 {
        let problem = generator.bracket_problem();
        let n = problem.order;
        let bounds = Bounds::read(n, &problem.low, &problem.high).unwrap();
        let bracket = bracket_of(&bounds);
        let kind = match (bracket.step, bracket.bound.signum()) {
            (Some(0), _) => STEP_OF_0,
            (Some(_), _) => STEP_ABOVE_0,
            (None, sign) => AT_0 + sign as i64,
        };
        let elsewhere = has_smaller_fraction(&bounds, &bracket.vector);
        let counts = met.entry((n, elsewhere)).or_default();
        *counts.entry(kind).or_default() += 1;
        ends.entry(n).or_default().insert(bracket.bound);
    }
    assert_met(&met[&(1, false)], &[STEP_OF_0, STEP_ABOVE_0, BELOW_0, AT_0]);
    assert!(!met.contains_key(&(1, true)));
    for (n, elsewhere) in (2..=8).flat_map(|n| [(n, false), (n, true)]) {
        let counts = &met[&(n, elsewhere)];
        assert_met(counts, &[STEP_OF_0, STEP_ABOVE_0, BELOW_0, AT_0, ABOVE_0]);
        let enough = counts.values().all(|count| *count >= 3);
        assert!(enough, "{n} {elsewhere}: {counts:?}");
    }
    for n in 1..=8 {
        let (least, most) = (ends[&n].first(), ends[&n].last());
        assert_eq!(
            (least, most),
            (Some(&(-(n as i128) << 20)), Some(&(1 << 20)))
        );
    }
}

#[test]
fn calls_of_gathering_meet_every_answer() {
    let mut generator = Generator::new(61);
    let counts = count(3000, || run_gather(&mut generator.gather_call()));
    assert_met(&counts, &[0, 1, 2, 3, 4, 5, 16, 17]);
}

#[test]
fn calls_of_reading_the_sums_meet_every_answer() {
    let mut generator = Generator::new(62);
    let counts = count(3000, || run_sums(&mut generator.sums_call()));
    assert_met(&counts, &[0, 1, 2, 3, 4, 5, 16]);
}

/// At every order; at order 1 a table leaves a number.
#[test]
fn calls_of_pooling_meet_every_answer() {
    let mut generator = Generator::new(75);
    let mut met: BTreeMap<i64, Counts> = BTreeMap::new();
    let mut counted: BTreeMap<usize, usize> = BTreeMap::new();
    for _ in 0..20_000 {
        let mut call = generator.pool_call();
        let answer = run_pool(&mut call);
        *met.entry(call.n).or_default().entry(answer).or_default() += 1;
        *counted.entry(call.orders.len()).or_default() += 1;
    }
    for n in 1..=8 {
        let fewer = [0, 1, 2, 3, 4, 16, 18];
        let all = [0, 1, 2, 3, 4, 5, 16, 18];
        assert_met(&met[&n], if n == 1 { &fewer } else { &all });
        assert!(met[&n].values().all(|count| *count >= 10), "{n}: {met:?}");
    }
    for (n, counts) in met.iter().filter(|(n, _)| !(1..=8).contains(*n)) {
        assert_met(counts, &[1]);
        assert!(counts[&1] > 0, "{n}");
    }
    // Lists of no, one, two, 63, 64 and 65 orders, and of bytes beside them
    for length in [0, 7, 8, 9, 16, 504, 512, 513, 520] {
        let count = counted.get(&length).copied().unwrap_or(0);
        assert!(count >= 40, "{count} lists of {length} bytes");
    }
}

/// Which of the problems halve the sums: none, the first alone, a middle one alone, the last
/// alone of several, and three in a row.
fn halving_kind(halved: &[bool]) -> Option<usize> {
    let places: Vec<usize> = (0..halved.len()).filter(|k| halved[*k]).collect();
    if places.windows(3).any(|three| three[0] + 2 == three[2]) {
        return Some(4);
    }
    match (&places[..], halved.len() - 1) {
        ([], _) => Some(0),
        ([0], _) => Some(1),
        ([k], last) if *k == last => Some(3),
        ([_], _) => Some(2),
        _ => None,
    }
}

/// Sums are halved, and 18 refuses, at the first, a middle and the last problem, at every
/// order.
#[test]
fn pools_halve_and_refuse_at_every_place() {
    let mut generator = Generator::new(76);
    let mut halvings: BTreeMap<usize, [usize; 5]> = BTreeMap::new();
    let mut full: BTreeMap<usize, [usize; 3]> = BTreeMap::new();
    for _ in 0..12_000 {
        let raw = generator.pool();
        let problems: Vec<Sums> = raw.problems.iter().map(RawProblem::as_sums).collect();
        let adding = add_all(raw.sums.as_sums(), &problems);
        let order = raw.sums.order;
        if adding.outcome.is_ok() {
            let met = halvings.entry(order).or_default();
            halving_kind(&adding.halved)
                .into_iter()
                .for_each(|kind| met[kind] += 1);
        } else if problems.len() > 1 {
            let place = match adding.halved.len() {
                0 => 0,
                k if k + 1 == problems.len() => 2,
                _ => 1,
            };
            full.entry(order).or_default()[place] += 1;
        }
    }
    for n in 1..=8 {
        let met = (halvings[&n], full[&n]);
        assert!(met.0.iter().all(|count| *count >= 20), "{n}: {met:?}");
        assert!(met.1.iter().all(|count| *count >= 20), "{n}: {met:?}");
    }
}

#[test]
fn calls_of_the_writer_meet_every_answer() {
    let mut generator = Generator::new(64);
    let counts = count(3000, || run_write(&mut generator.write_call()));
    assert_met(&counts, &[0, 1, 2, 3, 4, 5, 16]);
}

#[test]
fn calls_of_reading_a_summary_meet_every_answer() {
    let mut generator = Generator::new(65);
    let counts = count(8000, || run_read(&mut generator.read_call()));
    let answers = [0, 1, 2, 3, 4, 5, 10, 11, 12, 13, 14, 15, 16, 19];
    assert_met(&counts, &answers);
}

/// Whether a table of a call is not symmetric.
fn has_lopsided(low: &[u8], high: &[u8]) -> bool {
    let whole = |table: &[u8]| numbers(&table[..table.len() / 8 * 8]);
    [low, high].iter().any(|table| is_lopsided(&whole(table)))
}

/// The answers of a call that is lopsided, and how often one is in 4000 calls.
fn count_lopsided(mut call: impl FnMut() -> (bool, i64)) -> Counts {
    let mut counts = Counts::new();
    for (_, answer) in (0..4000).map(|_| call()).filter(|(lopsided, _)| *lopsided) {
        *counts.entry(answer).or_default() += 1;
    }
    let all: usize = counts.values().sum();
    assert!((1000..2400).contains(&all), "{all}: {counts:?}");
    counts
}

#[test]
fn lopsided_calls_on_a_problem_meet_every_answer() {
    let mut own = Generator::new(66);
    let counts = count_lopsided(|| {
        let mut call = own.factor_call();
        (has_lopsided(&call.low, &call.high), run_factor(&mut call))
    });
    assert_met(&counts, &[-1, 0, 1, 2, 3, 4, 5, 6]);
    let counts = count_lopsided(|| {
        let call = own.vector_call();
        let answer = entries::test_vector(call.n, &call.low, &call.high, &call.vector);
        (has_lopsided(&call.low, &call.high), answer)
    });
    assert_met(&counts, &[-1, 0, 1, 2, 3, 4, 5, 7]);
    let counts = count_lopsided(|| {
        let mut call = own.judge_call();
        (has_lopsided(&call.low, &call.high), run_judge(&mut call))
    });
    assert_met(&counts, &[-2, -1, 0, 1, 2, 3, 4, 5]);
    let counts = count_lopsided(|| {
        let mut call = own.box_call();
        (has_lopsided(&call.low, &call.high), run_box(&mut call))
    });
    assert_met(&counts, &[-1, 0, 1, 2, 3, 4, 5, 8, 9, 16]);
    let counts = count_lopsided(|| {
        let mut call = own.stiffness_call();
        let lopsided = has_lopsided(&call.low, &call.high);
        (lopsided, run_stiffness(&mut call))
    });
    assert_met(&counts, &[-1, 0, 1, 2, 3, 4, 5]);
}

#[test]
fn lopsided_sums_and_summaries_meet_every_answer() {
    let mut own = Generator::new(67);
    let counts = count_lopsided(|| {
        let mut call = own.gather_call();
        let lopsided = has_lopsided(&call.low, &call.high);
        (lopsided, run_gather(&mut call))
    });
    assert_met(&counts, &[0, 1, 2, 3, 4, 5, 16, 17]);
    let counts = count_lopsided(|| {
        let mut call = own.pool_call();
        let sums = has_lopsided(&call.low, &call.high);
        (sums, run_pool(&mut call))
    });
    assert_met(&counts, &[0, 1, 2, 3, 4, 5, 16, 18]);
    let counts = count_lopsided(|| {
        let mut call = own.sums_call();
        (has_lopsided(&call.low, &call.high), run_sums(&mut call))
    });
    assert_met(&counts, &[0, 1, 2, 3, 4, 5, 16]);
    let counts = count_lopsided(|| {
        let mut call = own.write_call();
        (has_lopsided(&call.low, &call.high), run_write(&mut call))
    });
    assert_met(&counts, &[0, 1, 2, 3, 4, 5, 16]);
    // Of the files that are read, more than one in five is lopsided: not the same again.
    let counts = count(4000, || {
        let file = own.summary_file();
        let read = read_problem(&file).map(|problem| file_of(&problem) == file);
        read.map_or(-1, i64::from)
    });
    assert!(4 * counts[&0] > counts[&1], "{counts:?}");
}

/// Floats of every exponent, on both sides of 0, and all that are edges.
#[test]
fn floats_of_every_exponent_and_every_edge_are_met() {
    let mut generator = Generator::new(63);
    let met: BTreeSet<u32> = (0..40_000).map(|_| generator.float()).collect();
    let exponents: BTreeSet<u32> = met.iter().map(|bits| bits >> 23).collect();
    assert_eq!(exponents.len(), 512);
    for edge in EDGES {
        assert!(met.contains(&edge) && met.contains(&(edge | 1 << 31)));
    }
}

/// The answers of a file: the refusal number, or 0.
#[test]
fn summary_files_meet_every_answer() {
    let mut generator = Generator::new(55);
    let mut texts: BTreeMap<String, usize> = BTreeMap::new();
    let counts = count(6000, || {
        let text = output(&generator.summary_file());
        assert!(text.ends_with('\n'));
        for line in text.lines() {
            let word = line.split(' ').next().unwrap().to_string();
            *texts.entry(word).or_default() += 1;
        }
        let number = text.strip_prefix("refused ");
        number.map_or(0, |number| number.trim_end().parse().unwrap())
    });
    assert_met(&counts, &[0, 1, 3, 4, 5, 10, 11, 12, 13, 14, 15, 16, 19]);
    let words: Vec<&str> = texts.keys().map(String::as_str).collect();
    let expected = [
        "box",
        "definite",
        "empty",
        "not",
        "over",
        "refused",
        "row",
        "side",
        "undecided",
        "vector",
    ];
    assert_eq!(words, expected);
}

#[test]
fn no_file_is_refused_that_was_not_damaged() {
    let mut generator = Generator::new(57);
    let files: Vec<_> = (0..6000).map(|_| generator.drawn_file()).collect();
    let refused = |bytes: &Vec<u8>| output(bytes).starts_with("refused");
    let (damaged, good): (Vec<_>, Vec<_>) = files.iter().partition(|file| file.damaged);
    assert!(good.iter().all(|file| !refused(&file.bytes)));
    let count = damaged.iter().filter(|file| refused(&file.bytes)).count();
    assert!(count > 2500, "{count} of {} are refused", damaged.len());
    // A damaged file can be good all the same.
    assert!(count < damaged.len());
}

#[test]
fn files_reach_the_greatest_size_and_one_more() {
    let mut generator = Generator::new(56);
    let sizes: Vec<usize> = (0..3000).map(|_| generator.summary_file().len()).collect();
    for size in [0, 4096, 4097] {
        assert!(sizes.contains(&size), "no file of {size} bytes");
    }
}

/// The list that a verdict names, as a number: the scale of a solved vector, or
/// 0 for a tried one.
fn named_scale(problem: &RawProblem) -> Option<i128> {
    let bounds = Bounds::read(problem.order, &problem.low, &problem.high);
    match verdict(&bounds.unwrap()) {
        Verdict::NotDefinite(List::Tried, _) => Some(0),
        Verdict::NotDefinite(List::Solved(s), _) => Some(s),
        _ => None,
    }
}

/// The same from the vector: the last nonzero entry of a solved vector is its
/// scale, and a tried vector has no entry beyond ±1.
fn scale(vector: &[i64]) -> i64 {
    if vector.iter().all(|entry| entry.abs() <= 1) {
        return 0;
    }
    *vector.iter().rev().find(|entry| **entry != 0).unwrap()
}

#[test]
fn verdicts_come_from_every_source() {
    let mut generator = Generator::new(57);
    let mut met = [Counts::new(), Counts::new()];
    for round in 0..4000 {
        let wide = round % 2 == 1;
        let (kind, order) = (KINDS[round / 2 % 5], 1 + round / 10 % 8);
        let problem = generator.problem(kind, order, wide);
        let judged = judge(order, &problem.low, &problem.high);
        assert!(judged.code <= 0, "{problem:?}");
        let source = match named_scale(&problem) {
            Some(s) => {
                assert_eq!(s, i128::from(scale(&judged.vector)));
                s as i64
            }
            None => 1000 + judged.code,
        };
        *met[usize::from(wide)].entry(source).or_default() += 1;
    }
    // Tried, both scales, 'undecided' and 'definite'.
    for counts in met {
        assert_met(&counts, &[0, 1, 64, 998, 1000]);
    }
}

#[test]
fn every_order_is_met_and_problems_are_let_through() {
    let mut generator = Generator::new(58);
    let counts = count(500, || {
        let problem = generator.any_problem();
        let n = problem.order;
        assert_eq!(problem.low.len(), n * n);
        assert_eq!(problem.linear_low.len(), n);
        assert_eq!(problem.linear_high.len(), n);
        assert!(judge(n, &problem.low, &problem.high).code <= 0);
        let (code, _) = enclose_problem(&problem);
        assert!([-1, 0, 8, 9].contains(&code), "{code}: {problem:?}");
        n as i64
    });
    assert_met(&counts, &[1, 2, 3, 4, 5, 6, 7, 8]);
}

/// Ends that are equal, a little and much apart, each with boxes that are given.
#[test]
fn ends_of_linear_terms_are_equal_and_apart() {
    let mut generator = Generator::new(60);
    let mut met = [Counts::new(), Counts::new(), Counts::new()];
    for _ in 0..3000 {
        let problem = generator.any_problem();
        let ends = problem.linear_low.iter().zip(&problem.linear_high);
        let kind = match ends.map(|(l, h)| h - l).max().unwrap() {
            0 => 0,
            1..=5 => 1,
            _ => 2,
        };
        let (code, _) = enclose_problem(&problem);
        *met[kind].entry(code).or_default() += 1;
    }
    for counts in met {
        assert_met(&counts, &[-1, 0, 8, 9]);
    }
}

#[test]
fn extreme_numbers_are_lent() {
    let mut generator = Generator::new(59);
    let mut seen = Vec::new();
    for _ in 0..2000 {
        let call = generator.judge_call();
        if call.low.len().is_multiple_of(8) {
            seen.extend(numbers(&call.low));
        }
    }
    let end = 1 << 20;
    for number in [i64::MIN, i64::MAX, -end - 1, -end, end, end + 1] {
        assert!(seen.contains(&number), "{number} is not met");
    }
}
