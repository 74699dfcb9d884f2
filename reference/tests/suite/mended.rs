//! Mended tables: R2.10, R4.5, and every act on lopsided ones. A lopsided problem is
//! mostly made from a symmetric one, which is then what it has to be mended to.

use hankboulder_reference::cases::{bounds, bytes as hexadecimal, numbers as matrix};
use hankboulder_reference::entries;
use hankboulder_reference::generate::{
    GatherCall, Generator, RawProblem, ReadCall, SumsCall, KINDS,
};
use hankboulder_reference::problem::{mended, square, Table};
use hankboulder_reference::program::output;
use hankboulder_reference::random::Random;
use hankboulder_reference::refusal::Refusal;
use hankboulder_reference::residual::residual_tables;
use hankboulder_reference::rides::{gather, Sample};
use hankboulder_reference::summary::{fields, read_problem};
use hankboulder_reference::writer::file_of;

use crate::support::{
    bracket, bytes, enclose_problem, judge, numbers, read_call, run_gather, run_read, run_sums,
    run_write, test_factor, write_call, UNWRITTEN,
};

const ENTRY: i64 = 1 << 20;

/// A table written as in docs/RULES.md.
fn table(text: &str) -> Table {
    square(text.split(';').count(), &matrix(text))
}

#[test]
fn tables_mended_by_hand() {
    let cases = [
        (("[2 0; 1 2]", "[2 1; 2 2]"), ("[2 1; 1 2]", "[2 1; 1 2]")),
        (("[2 1; 0 2]", "[2 1; 2 2]"), ("[2 1; 1 2]", "[2 1; 1 2]")),
        (("[1 2; 3 4]", "[1 2; 3 4]"), ("[1 3; 3 4]", "[1 2; 2 4]")),
        (("[-7]", "[7]"), ("[-7]", "[7]")),
        (
            ("[9 -1 5; 0 8 -3; 4 -4 7]", "[9 1 6; 2 8 -2; 7 -3 7]"),
            ("[9 0 5; 0 8 -3; 5 -3 7]", "[9 1 6; 1 8 -3; 6 -3 7]"),
        ),
    ];
    for ((low, high), (greater, smaller)) in cases {
        let got = mended(&table(low), &table(high));
        assert_eq!(got, (table(greater), table(smaller)), "{low} {high}");
    }
}

#[test]
fn what_is_read_is_mended_or_refused_by_5() {
    let read = bounds("[2 0; 1 2]", "[2 1; 2 2]").unwrap();
    assert_eq!(
        (read.low, read.high),
        (table("[2 1; 1 2]"), table("[2 1; 1 2]"))
    );
    assert_eq!(bounds("[1 2; 3 4]", "[1 2; 3 4]"), Err(Refusal::Lopsided));
    // One number is left, and then none.
    let read = bounds("[1 2; 0 4]", "[1 5; 2 4]").unwrap();
    assert_eq!(
        (read.low, read.high),
        (table("[1 2; 2 4]"), table("[1 2; 2 4]"))
    );
    let none = bounds("[1 2; 0 4]", "[1 5; 1 4]");
    assert_eq!(none, Err(Refusal::Lopsided));
    // The widths of rows are those of the mended tables.
    let read = bounds("[3 -5; 1 3]", "[4 2; 9 3]").unwrap();
    assert_eq!([0, 1].map(|i| read.row_width(i)), [2, 1]);
}

/// Random tables of an order; L may be above U.
fn any_tables(random: &mut Random, order: usize) -> (Table, Table) {
    let range = random.pick(&[1, 3, ENTRY]);
    let mut any = || -> Vec<i64> { (0..order * order).map(|_| random.within(range)).collect() };
    (square(order, &any()), square(order, &any()))
}

#[test]
fn mending_twice_is_mending_once_and_symmetric_tables_stay() {
    let mut random = Random::new(81);
    for round in 0..4000 {
        let (low, high) = any_tables(&mut random, 1 + round % 8);
        let (greater, smaller) = mended(&low, &high);
        let both = (greater.clone(), smaller.clone());
        assert_eq!(mended(&greater, &smaller), both);
        for (i, j) in (0..low.len()).flat_map(|i| (0..low.len()).map(move |j| (i, j))) {
            assert_eq!(greater[i][j], greater[j][i]);
            assert_eq!(smaller[i][j], smaller[j][i]);
            let halves = ([low[i][j], low[j][i]], [high[i][j], high[j][i]]);
            assert!(halves.0.contains(&greater[i][j]) && halves.1.contains(&smaller[i][j]));
            assert!(greater[i][j] >= low[i][j] && smaller[i][j] <= high[i][j]);
        }
    }
    let mut generator = Generator::new(82);
    for round in 0..800 {
        let problem = generator.problem(KINDS[round % 5], 1 + round % 8, round % 2 == 1);
        assert!(problem.is_symmetric());
        assert_eq!(problem.mended(), problem);
        let apart = generator.rounded_apart(&problem);
        assert_eq!(apart.mended(), problem);
        assert_eq!(apart == problem, apart.is_symmetric());
    }
}

/// R3.2: N over q, symmetric, is between the tables exactly if it is between the mended
/// ones.
#[test]
fn members_are_those_of_the_mended_tables() {
    let mut random = Random::new(83);
    let (mut members, mut others) = (0, 0);
    for round in 0..20_000 {
        let order = 1 + round % 3;
        let tables = any_tables(&mut random, order);
        let q = i128::from(random.between(1, 3));
        let entry = |i: usize, j: usize, random: &mut Random| {
            let (i, j) = random.pick(&[(i, j), (j, i)]);
            let at = random.pick(&[q * tables.0[i][j], q * tables.1[i][j]]);
            at + i128::from(random.pick(&[-1, 0, 0, 0, 1]))
        };
        let mut n = tables.0.clone();
        for (i, j) in (0..order).flat_map(|i| (i..order).map(move |j| (i, j))) {
            n[i][j] = entry(i, j, &mut random);
            n[j][i] = n[i][j];
        }
        let is_member = |(low, high): &(Table, Table)| {
            let all = [low.concat(), high.concat(), n.concat()];
            (0..order * order).all(|k| q * all[0][k] <= all[2][k] && all[2][k] <= q * all[1][k])
        };
        let one = is_member(&tables);
        assert_eq!(
            one,
            is_member(&mended(&tables.0, &tables.1)),
            "{tables:?} {n:?}"
        );
        members += usize::from(one);
        others += usize::from(!one);
    }
    assert!(members > 2000 && others > 2000, "{members} {others}");
}

/// What is offered to both tests.
struct Offered {
    factor: Vec<i64>,
    vector: Vec<i64>,
}

/// A factor that the problem's own judge gives, or 2^16 times the identity; a vector that
/// it gives, or ones.
fn offered(problem: &RawProblem) -> Offered {
    let n = problem.order;
    let judged = judge(n, &problem.low, &problem.high);
    let unit = |place: usize| i64::from(place.is_multiple_of(n + 1)) << 16;
    let mut offered = Offered {
        factor: (0..n * n).map(unit).collect(),
        vector: vec![1; n],
    };
    match judged.code {
        0 => offered.factor = judged.factor,
        -1 => offered.vector = judged.vector,
        _ => {}
    }
    offered
}

fn sums_call(problem: &RawProblem) -> SumsCall {
    SumsCall {
        n: problem.order as i64,
        low: bytes(&problem.low),
        high: bytes(&problem.high),
        linear_low: bytes(&problem.linear_low),
        linear_high: bytes(&problem.linear_high),
        running_limit: problem.limit.min(0),
        allowance: 1000,
        limit: bytes(&[UNWRITTEN]),
    }
}

fn gather_call(problem: &RawProblem, sample: Sample) -> GatherCall {
    GatherCall {
        sample,
        n: problem.order as i64,
        low: bytes(&problem.low),
        high: bytes(&problem.high),
        linear_low: bytes(&problem.linear_low),
        linear_high: bytes(&problem.linear_high),
        running_limit: bytes(&[problem.limit]),
    }
}

fn sample(numbers: [f32; 5]) -> Sample {
    Sample::of(numbers.map(f32::to_bits))
}

/// The answer of each act that takes any order, and what it writes; reading the file
/// that has the problem's numbers is among them.
fn answers(problem: &RawProblem, offered: &Offered) -> Vec<(i64, Vec<u8>)> {
    let n = problem.order as i64;
    let (low, high) = (bytes(&problem.low), bytes(&problem.high));
    let judged = judge(problem.order, &problem.low, &problem.high);
    let (tested, over) = test_factor(problem.order, &problem.low, &problem.high, &offered.factor);
    let vector = bytes(&offered.vector);
    let (boxed, sides) = enclose_problem(problem);
    let stiffness = bracket(problem.order, &problem.low, &problem.high);
    let ends = vec![stiffness.step, stiffness.bound];
    let (mut sums, mut write) = (sums_call(problem), write_call(problem));
    let mut read = read_call(&problem.file());
    let (sums_read, written) = (run_sums(&mut sums), run_write(&mut write));
    let (code, tables) = match residual(problem, &offered.factor) {
        Ok(tables) => (0, format!("{tables:?}").into_bytes()),
        Err(refusal) => (refusal.number(), vec![]),
    };
    vec![
        (
            judged.code,
            bytes(&[judged.factor, judged.vector, vec![judged.over]].concat()),
        ),
        (tested, bytes(&[over])),
        (code, tables),
        (entries::test_vector(n, &low, &high, &vector), vec![]),
        (boxed, bytes(&sides)),
        (stiffness.code, bytes(&[ends, stiffness.vector].concat())),
        (sums_read, sums.limit),
        (written, write.file),
        (run_read(&mut read), stored(&read)),
    ]
}

/// All that reading a file leaves.
fn stored(call: &ReadCall) -> Vec<u8> {
    let tables = [&call.order[..], &call.low, &call.high];
    let others = [
        &call.linear_low[..],
        &call.linear_high,
        &call.limit,
        &call.centre,
    ];
    [tables.concat(), others.concat()].concat()
}

fn residual(problem: &RawProblem, factor: &[i64]) -> Result<[Table; 2], Refusal> {
    let n = problem.order;
    let lent = [n * n, n * n];
    residual_tables(n as i64, &problem.low, &problem.high, factor, lent)
}

/// Fails where a lopsided problem is not answered as the one that it is mended to, by
/// any act and by the program.
fn expect_mended(apart: &RawProblem, problem: &RawProblem) {
    let offered = offered(problem);
    assert_eq!(
        answers(apart, &offered),
        answers(problem, &offered),
        "{apart:?}"
    );
    assert_eq!(output(&apart.file()), output(&problem.file()));
    if problem.order == 4 {
        let drawn = sample([0.5, -0.3, 0.0, 7.9, 1.0]);
        let [mut one, mut other] = [apart, problem].map(|sums| gather_call(sums, drawn));
        let answer = run_gather(&mut one);
        assert_eq!(answer, run_gather(&mut other), "{apart:?}");
        let expected = if answer == 0 {
            other
        } else {
            gather_call(apart, drawn)
        };
        assert_eq!(one, expected, "{answer}: {apart:?}");
    }
}

/// Fails where an act, or the program, does not refuse the problem by the number.
fn expect_refused(problem: &RawProblem, number: i64) {
    let offered = offered(problem);
    let codes: Vec<i64> = answers(problem, &offered).iter().map(|a| a.0).collect();
    assert_eq!(codes, [number; 9], "{problem:?}");
    assert_eq!(output(&problem.file()), format!("refused {number}\n"));
    if problem.order == 4 {
        let before = gather_call(problem, sample([1.0; 5]));
        let mut after = before.clone();
        assert_eq!(run_gather(&mut after), number, "{problem:?}");
        assert_eq!(after, before);
    }
}

#[test]
fn halves_rounded_apart_of_every_kind_and_order() {
    let mut generator = Generator::new(84);
    let mut lopsided = 0;
    for (order, kind) in (1..=8).flat_map(|order| KINDS.map(|kind| (order, kind))) {
        for round in 0..24 {
            let problem = generator.problem(kind, order, round % 2 == 1);
            let apart = generator.rounded_apart(&problem);
            expect_mended(&apart, &problem);
            lopsided += usize::from(!apart.is_symmetric());
        }
    }
    assert!(lopsided > 700, "{lopsided}");
}

/// A problem of an order that has a box: L and U are 0 to 2 off the diagonal.
fn good(order: usize) -> RawProblem {
    let entry = |place: usize, others: i64| match place.is_multiple_of(order + 1) {
        true => 60 + place as i64,
        false => others,
    };
    let entries = |others: i64| (0..order * order).map(|k| entry(k, others)).collect();
    RawProblem {
        order,
        low: entries(0),
        high: entries(2),
        linear_low: vec![-3; order],
        linear_high: vec![5; order],
        limit: 700,
        centre: vec![1; order],
    }
}

/// All places (i, j) at every order, i ≠ j.
fn places() -> impl Iterator<Item = (usize, usize, usize)> {
    let rows = (1..=8).flat_map(|order| (0..order).map(move |i| (order, i)));
    let all = rows.flat_map(|(order, i)| (0..order).map(move |j| (order, i, j)));
    all.filter(|(_, i, j)| i != j)
}

/// `good` with these bounds at one place.
fn with(order: usize, place: usize, (low, high): (i64, i64)) -> RawProblem {
    let mut problem = good(order);
    (problem.low[place], problem.high[place]) = (low, high);
    problem
}

#[test]
fn a_half_that_is_mended_away_at_every_place() {
    for (order, i, j) in places() {
        for half in [(-1, 2), (0, 3), (-5, 9), (-ENTRY, ENTRY)] {
            expect_mended(&with(order, i * order + j, half), &good(order));
        }
        // Each half has one bound that counts: 1 is left.
        let mut apart = with(order, i * order + j, (1, 7));
        apart.high[j * order + i] = 1;
        let mut thin = good(order);
        for place in [i * order + j, j * order + i] {
            (thin.low[place], thin.high[place]) = (1, 1);
        }
        expect_mended(&apart, &thin);
    }
}

#[test]
fn refusal_5_at_every_place_where_no_number_is_left() {
    for (order, i, j) in places() {
        let place = i * order + j;
        for half in [
            (3, 3),
            (3, 9),
            (ENTRY, ENTRY),
            (-1, -1),
            (-9, -1),
            (-ENTRY, -ENTRY),
        ] {
            expect_refused(&with(order, place, half), 5);
        }
        // The next number is left.
        for half in [(2, 2), (2, 9), (0, 0), (-9, 0)] {
            let left = with(order, place, half);
            assert_eq!(judge(order, &left.low, &left.high).code, 0);
        }
        // 16 comes after it.
        let mut reversed = with(order, place, (3, 3));
        reversed.linear_low[0] = 6;
        assert_eq!(enclose_problem(&reversed).0, 5);
        (reversed.low[place], reversed.high[place]) = (2, 9);
        assert_eq!(enclose_problem(&reversed).0, 16);
    }
}

#[test]
fn a_half_that_would_be_mended_away_is_refused_by_3_or_4() {
    for (order, i, j) in places() {
        let place = i * order + j;
        // Beyond the range; in 4 bytes of a file too
        for half in [
            (-ENTRY - 1, 2),
            (0, ENTRY + 1),
            (i32::MIN.into(), i32::MAX.into()),
        ] {
            expect_refused(&with(order, place, half), 3);
        }
        // L above U in one half; no number is left either.
        for half in [(2, 1), (1, 0), (ENTRY, -ENTRY), (-1, -2), (4, 3)] {
            expect_refused(&with(order, place, half), 4);
        }
        // And 3 before 4, of another place.
        let mut both = with(order, place, (2, 1));
        both.low[j * order + i] = -ENTRY - 1;
        expect_refused(&both, 3);
    }
}

#[test]
fn a_pair_that_leaves_no_number_of_every_kind_and_order() {
    let mut generator = Generator::new(85);
    let mut met = 0;
    for (order, kind) in (2..=8).flat_map(|order| KINDS.map(|kind| (order, kind))) {
        for round in 0..24 {
            let mut problem = generator.problem(kind, order, round % 2 == 1);
            let i = round % order;
            generator.leave_no_number(&mut problem, (i, (i + 1) % order));
            let mut all = problem.low.iter().chain(&problem.high);
            let beyond = all.any(|entry| entry.abs() > ENTRY);
            let number = if beyond { 3 } else { 5 };
            met += usize::from(number == 5);
            expect_refused(&problem, number);
        }
    }
    assert!(met > 400, "{met}");
}

/// Sums of order 4, zero but for these bounds at (1,2) and (2,1).
fn sums(upper: (i64, i64), lower: (i64, i64)) -> RawProblem {
    let mut sums = RawProblem::zeros(4);
    (sums.low[1], sums.high[1]) = upper;
    (sums.low[4], sums.high[4]) = lower;
    sums
}

/// The answer, and the bounds at (1,2) and (2,1) after it.
fn gathered(upper: (i64, i64), lower: (i64, i64), drawn: [f32; 5]) -> (i64, [(i64, i64); 2]) {
    let before = gather_call(&sums(upper, lower), sample(drawn));
    let mut after = before.clone();
    let answer = run_gather(&mut after);
    assert!(answer == 0 || after == before, "refusal {answer} wrote");
    let (low, high) = (numbers(&after.low), numbers(&after.high));
    (answer, [(low[1], high[1]), (low[4], high[4])])
}

/// 1/16 is 1, so that the pair gains 1, or loses 1 where one factor is negative.
#[test]
fn sums_are_mended_before_a_sample_is_added() {
    let (plus, minus) = (
        [0.0625, 0.0625, 0.0, 0.0, 0.0],
        [0.0625, -0.0625, 0.0, 0.0, 0.0],
    );
    assert_eq!(gathered((-3, 5), (-2, 7), plus), (0, [(-1, 6); 2]));
    assert_eq!(gathered((-3, 5), (-2, 7), minus), (0, [(-3, 4); 2]));
    assert_eq!(gathered((2, 5), (-2, 2), plus), (0, [(3, 3); 2]));
    assert_eq!(gathered((3, 5), (-2, 2), plus), (5, [(3, 5), (-2, 2)]));
    // A sample of zeros mends them, and no more.
    assert_eq!(gathered((-3, 5), (-2, 7), [0.0; 5]), (0, [(-2, 5); 2]));
}

#[test]
fn a_half_that_is_mended_away_halves_nothing() {
    let (plus, minus) = (
        [0.0625, 0.0625, 0.0, 0.0, 0.0],
        [0.0625, -0.0625, 0.0, 0.0, 0.0],
    );
    for (away, other) in [((0, ENTRY), (0, 4)), ((-ENTRY, ENTRY), (0, 4))] {
        for (upper, lower) in [(away, other), (other, away)] {
            assert_eq!(gathered(upper, lower, plus), (0, [(1, 5); 2]));
        }
    }
    for (upper, lower) in [((-ENTRY, 0), (-4, 0)), ((-4, 0), (-ENTRY, 0))] {
        assert_eq!(gathered(upper, lower, minus), (0, [(-5, -1); 2]));
    }
    // Where both halves are at the end there is no room, and the mended sums are halved.
    let full = ((-7, ENTRY), (-9, ENTRY));
    assert_eq!(gathered(full.0, full.1, plus), (0, [(-3, 524_289); 2]));
    let full = ((-ENTRY, 7), (-ENTRY, 9));
    assert_eq!(gathered(full.0, full.1, minus), (0, [(-524_289, 3); 2]));
}

/// Any sample, into sums of any kind: it is taken, and leaves what the mended sums have with
/// it, halved or not.
#[test]
fn gathering_into_lopsided_sums_of_every_kind() {
    let mut generator = Generator::new(86);
    let mut counts = [0; 2];
    for _ in 0..6000 {
        let apart = generator.sums();
        if apart.is_symmetric() {
            continue;
        }
        let drawn = generator.good_sample();
        let [mut one, mut other] = [&apart, &apart.mended()].map(|s| gather_call(s, drawn));
        assert_eq!(run_gather(&mut one), 0);
        assert_eq!(run_gather(&mut other), 0);
        assert_eq!(one, other);
        let halved = gather(&drawn, 4, apart.clone().lend());
        counts[usize::from(halved.unwrap())] += 1;
    }
    assert!(counts[0] > 800 && counts[1] > 100, "{counts:?}");
}

/// Order 2: L = [5 1; 0 6], U = [5 3; 2 6], and its terms 0.
const LOPSIDED_FILE: &str = "01 0100 02, \
    02 1000 05000000 01000000 00000000 06000000, \
    03 1000 05000000 03000000 02000000 06000000, \
    04 1000 0000000000000000 0000000000000000, 05 0800 0000000000000000, \
    06 1000 0000000000000000 0000000000000000, 07 1000 0000000000000000 0000000000000000";

/// The same with L = [5 1; 1 6], U = [5 2; 2 6].
const MENDED_FILE: &str = "01 0100 02, \
    02 1000 05000000 01000000 01000000 06000000, \
    03 1000 05000000 02000000 02000000 06000000, \
    04 1000 0000000000000000 0000000000000000, 05 0800 0000000000000000, \
    06 1000 0000000000000000 0000000000000000, 07 1000 0000000000000000 0000000000000000";

#[test]
fn a_lopsided_file_is_read_and_comes_back_mended() {
    let (lopsided, mended) = (hexadecimal(LOPSIDED_FILE), hexadecimal(MENDED_FILE));
    let problem = read_problem(&lopsided).unwrap();
    assert_eq!(problem.bounds.low, table("[5 1; 1 6]"));
    assert_eq!(problem.bounds.high, table("[5 2; 2 6]"));
    assert_eq!(read_problem(&mended), Ok(problem.clone()));
    assert_eq!(file_of(&problem), mended);
    // What is stored is mended, and zeros stand behind it.
    let mut call = read_call(&lopsided);
    assert_eq!(run_read(&mut call), 0);
    let stored = [numbers(&call.low), numbers(&call.high)];
    assert_eq!(
        [&stored[0][..5], &stored[1][..5]],
        [[5, 1, 1, 6, 0], [5, 2, 2, 6, 0]]
    );
    assert_eq!(call.file, lopsided);
    // The parts of the file are those of the file as it stands.
    let found = fields(&lopsided).unwrap();
    assert!(std::ptr::eq(found[1].content, &lopsided[7..23]));
    assert_eq!(
        found[2].content,
        hexadecimal("05000000 03000000 02000000 06000000")
    );
    assert_eq!(output(&lopsided), output(&mended));
}

#[test]
fn a_lopsided_problem_is_written_as_the_file_of_the_mended_one() {
    let mut generator = Generator::new(87);
    for (order, kind) in (1..=8).flat_map(|order| KINDS.map(|kind| (order, kind))) {
        for round in 0..30 {
            let problem = generator.problem(kind, order, round % 2 == 1);
            let apart = generator.rounded_apart(&problem);
            let mut call = write_call(&apart);
            assert_eq!(run_write(&mut call), 0);
            // The numbers of a symmetric problem stand in its file as they are.
            assert_eq!(call.file, problem.file());
            // A file of the lopsided numbers comes back as that file.
            let read = read_problem(&apart.file()).unwrap();
            assert_eq!(file_of(&read), problem.file());
            assert_eq!(read_problem(&problem.file()), Ok(read));
        }
    }
}

/// The margin (R3.5), w included, is that of the mended tables: the identity, each entry
/// off its diagonal bounded in one half from below and in the other from above, has it,
/// though its rows as handed in are wide.
#[test]
fn the_margin_is_asked_of_the_mended_tables() {
    for order in 1..=8 {
        let mut problem = good(order);
        for (i, j) in (0..order).flat_map(|i| (0..order).map(move |j| (i, j))) {
            let place = i * order + j;
            let half = match i.cmp(&j) {
                std::cmp::Ordering::Equal => (1, 1),
                std::cmp::Ordering::Less => (0, ENTRY),
                std::cmp::Ordering::Greater => (-ENTRY, 0),
            };
            (problem.low[place], problem.high[place]) = half;
        }
        let judged = judge(order, &problem.low, &problem.high);
        let unit = |place: usize| i64::from(place.is_multiple_of(order + 1));
        let factor: Vec<i64> = (0..order * order).map(|k| 61303 * unit(k)).collect();
        assert_eq!((judged.code, judged.factor), (0, factor));
    }
}

/// Points of the ellipsoids of members between both halves are in the box.
#[test]
fn a_box_of_lopsided_tables_holds_the_points_of_every_member() {
    let (mut generator, mut random) = (Generator::new(88), Random::new(89));
    let mut held = 0;
    for round in 0..2400 {
        let order = 2 + round % 7;
        let problem = generator.problem(KINDS[1], order, true);
        let mut apart = generator.rounded_apart(&problem);
        let mut point = generator.point_near(&apart);
        point.lower();
        let limit = point.least_limit();
        if limit.abs() > 1 << 54 {
            continue;
        }
        apart.limit = limit as i64;
        let (code, sides) = enclose_problem(&apart);
        assert_ne!(code, -1, "{apart:?} {point:?}");
        if code == 0 {
            point.go_outward(limit, &mut random);
            assert!(point.is_in(&sides), "{apart:?} {point:?}");
            held += 1;
        }
    }
    assert!(held > 500, "{held}");
}
