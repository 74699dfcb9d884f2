//! What the rows have over, through the two entries that write it (R7.7, R15.6): where it
//! is written and where it is kept, its buffer's size, the least of all rows, both signs,
//! mended tables, and what it means for members (D3.8). Expected numbers and refusals are
//! literals worked from the rules.

use hankboulder_compare::judge::JUDGE;
use hankboulder_compare::test_factor::TEST_FACTOR;
use hankboulder_compare::{bytes, numbers, Act, Call};
use hankboulder_reference::cases;
use hankboulder_reference::generate::{Generator, KINDS};
use hankboulder_reference::random::Random;

use crate::support::{
    factor_call, judge_call, square, FactorTest, ENTRY_RANGE, FACTOR_RANGE, JUDGED_OVER, SCALE,
    TESTED_OVER, UNIT,
};

const ACCEPTED: i64 = 0;
const NOT_ACCEPTED: i64 = -1;
const DEFINITE: i64 = 0;
const NOT_DEFINITE: i64 = -1;
const UNDECIDED: i64 = -2;
const REFUSED_ORDER: i64 = 1;
const REFUSED_LENGTH: i64 = 2;

/// Both entries, with the place of the number among their buffers.
const ENTRIES: [(&Act, usize); 2] = [(&TEST_FACTOR, TESTED_OVER), (&JUDGE, JUDGED_OVER)];

/// A call of either entry on the bounds of a factor test.
fn call_of(act: &Act, test: &FactorTest) -> Call {
    match act.name == TEST_FACTOR.name {
        true => test.call(),
        false => judge_call(&test.low, &test.high),
    }
}

/// The faults of the tables and of the factor, by the refusal that each has.
fn put_fault(test: &mut FactorTest, refusal: i64) {
    let corner = test.at(test.order - 1, 0);
    match refusal {
        3 => test.high[0] = ENTRY_RANGE + 1,
        4 => test.low[0] = test.high[0] + 1,
        // At order 1 nothing is refused by 5.
        5 => (test.low[corner], test.high[corner]) = (1, 1),
        _ => test.factor[0] = 0,
    }
}

/// Every size but 8 bytes is refused by 2, whatever comes after it in the order of checks,
/// and 1 comes before it.
#[test]
fn refusal_2_of_every_other_size_at_every_order() {
    let sizes = (0..=17).chain([24, 64, 512, 4096]);
    for size in sizes.filter(|size| *size != 8) {
        for (order, (act, place)) in (1..=8).flat_map(|n| ENTRIES.map(|entry| (n, entry))) {
            let mut test = FactorTest::accepted(order);
            for later in [0, 6, 5, 4, 3] {
                if later > 0 {
                    put_fault(&mut test, later);
                }
                let mut call = call_of(act, &test);
                call.buffers[place] = Random::new(size as u64).bytes(size);
                act.expect(&call, REFUSED_LENGTH);
                for n in [0, 9, -1, 257] {
                    call.n = n;
                    act.expect(&call, REFUSED_ORDER);
                }
            }
        }
    }
}

/// Contents of the number's buffer before a call.
const CONTENTS: [[u8; 8]; 3] = [[0; 8], [0xFF; 8], [0xA5, 1, 2, 3, 4, 5, 6, 0x5A]];

/// Fails where a call is not answered so, or writes to the number's buffer, whatever that
/// holds before.
fn expect_kept(act: &Act, call: &Call, place: usize, answer: i64) {
    for content in CONTENTS {
        let mut call = call.clone();
        call.buffers[place] = content.to_vec();
        let (given, after) = act.given(&call);
        assert_eq!((given, &after[place][..]), (answer, &content[..]));
        assert_eq!(act.agree(&call, 5).answer, answer);
    }
}

#[test]
fn every_refusal_keeps_it_byte_for_byte() {
    for (order, (act, place)) in (1..=8).flat_map(|n| ENTRIES.map(|entry| (n, entry))) {
        for refusal in act.answers.iter().filter(|answer| **answer > 2) {
            let mut test = FactorTest::accepted(order);
            put_fault(&mut test, *refusal);
            if (act.possible)(order as i64, *refusal) {
                expect_kept(act, &call_of(act, &test), place, *refusal);
            }
        }
        let good = call_of(act, &FactorTest::accepted(order));
        for n in [0, 9, i64::MIN] {
            let call = Call { n, ..good.clone() };
            expect_kept(act, &call, place, REFUSED_ORDER);
        }
        // Another buffer is one byte short.
        for other in 0..place {
            let mut call = good.clone();
            call.buffers[other].pop();
            expect_kept(act, &call, place, REFUSED_LENGTH);
        }
    }
}

#[test]
fn a_verdict_without_a_factor_keeps_it_byte_for_byte() {
    for order in 1..=8 {
        // 0 or less on the diagonal: a vector shows it.
        for entry in [0, -1, -ENTRY_RANGE] {
            let mut table = square(order, 5, 0);
            table[order * order - 1] = entry;
            let call = judge_call(&table, &table);
            expect_kept(&JUDGE, &call, JUDGED_OVER, NOT_DEFINITE);
        }
        if order > 1 {
            // [1 3; 3 10] in the last two rows and columns
            let mut table = square(order, ENTRY_RANGE, 0);
            let last = order * order - 1;
            (table[last - order - 1], table[last]) = (1, 10);
            (table[last - order], table[last - 1]) = (3, 3);
            let call = judge_call(&table, &table);
            expect_kept(&JUDGE, &call, JUDGED_OVER, UNDECIDED);
        }
    }
    // By a solved vector, for s = 1 and for s = 64
    for matrix in ["[1 1000; 1000 10000]", "[100 37; 37 13]"] {
        let table = cases::numbers(matrix);
        let call = judge_call(&table, &table);
        expect_kept(&JUDGE, &call, JUDGED_OVER, NOT_DEFINITE);
    }
}

/// A test whose tables and factor have a diagonal alone.
fn diagonal(entries: &[i64], roots: &[i64]) -> FactorTest {
    let order = entries.len();
    let (mut table, mut factor) = (square(order, 0, 0), square(order, 0, 0));
    for i in 0..order {
        table[i * order + i] = entries[i];
        factor[i * order + i] = roots[i];
    }
    FactorTest {
        order,
        low: table.clone(),
        high: table,
        factor,
    }
}

/// Row k has L(k,k) - 1 over, in units of 2^32. It is the least, of rows that have
/// something over, of rows that have nothing, and of rows that all fall short.
#[test]
fn the_least_counts_whichever_row_it_is_in_at_every_order() {
    for (order, k) in (1..=8).flat_map(|order| (0..order).map(move |k| (order, k))) {
        let roots = vec![SCALE; order];
        let mut entries: Vec<i64> = (0..order as i64).map(|i| 20 + i).collect();
        for (least, answer) in [(5, ACCEPTED), (1, ACCEPTED), (0, NOT_ACCEPTED)] {
            entries[k] = least;
            diagonal(&entries, &roots).expect(answer, (least - 1) * UNIT);
        }
        let mut short = vec![-3; order];
        short[k] = -7;
        diagonal(&short, &roots).expect(NOT_ACCEPTED, -8 * UNIT);
        // The first row falls short, and row k by more.
        entries[0] = -3;
        entries[k] = -7;
        diagonal(&entries, &roots).expect(NOT_ACCEPTED, -8 * UNIT);
    }
}

#[test]
fn nothing_over_is_accepted_and_1_short_is_not_in_every_row() {
    for (order, k) in (1..=8).flat_map(|order| (0..order).map(move |k| (order, k))) {
        let (mut entries, mut roots) = (vec![9; order], vec![SCALE; order]);
        entries[k] = 1;
        diagonal(&entries, &roots).expect(ACCEPTED, 0);
        (entries[k], roots[k]) = (0, 1);
        diagonal(&entries, &roots).expect(NOT_ACCEPTED, -1);
        // 2^32 - 65537² and 2^32 - 65535²
        (entries[k], roots[k]) = (1, SCALE + 1);
        diagonal(&entries, &roots).expect(NOT_ACCEPTED, -131073);
        (entries[k], roots[k]) = (1, SCALE - 1);
        diagonal(&entries, &roots).expect(ACCEPTED, 131071);
    }
}

/// A matrix that is the product of a factor has a residual of 0. With 1 more or less in an
/// entry (i,j) of the factor, i < j, the product at (i,j) is off by r(i,i), and row i falls
/// short by that.
#[test]
fn the_product_of_a_factor_has_nothing_over_and_a_factor_beside_it_falls_short() {
    for order in 1..=8 {
        let root = |i: usize, j: usize| match i.cmp(&j) {
            std::cmp::Ordering::Greater => 0,
            std::cmp::Ordering::Equal => 1 + i as i64,
            std::cmp::Ordering::Less => (i + 2 * j) as i64 % 5 - 2,
        };
        let product = |i, j| (0..order).map(|k| root(k, i) * root(k, j)).sum();
        let places = || (0..order).flat_map(|i| (0..order).map(move |j| (i, j)));
        let table: Vec<i64> = places().map(|(i, j)| product(i, j)).collect();
        let exact = FactorTest {
            order,
            low: table.clone(),
            high: table,
            factor: places().map(|(i, j)| SCALE * root(i, j)).collect(),
        };
        exact.expect(ACCEPTED, 0);
        for (i, j) in places().filter(|(i, j)| i < j) {
            for step in [-1, 1] {
                let mut beside = exact.clone();
                beside.factor[i * order + j] += step;
                assert_eq!(TEST_FACTOR.agree(&beside.call(), i).answer, NOT_ACCEPTED);
                let (_, after) = TEST_FACTOR.given(&beside.call());
                let over = numbers(&after[TESTED_OVER])[0];
                assert!(
                    (-40 * SCALE..=-SCALE * root(i, i)).contains(&over),
                    "{over}"
                );
            }
        }
    }
}

/// The worked factors of docs/RULES.md.
#[test]
fn the_starred_factors() {
    let expect = |low: &str, high: &str, factor: &str, answer: i64, over: i64| {
        let [low, high, factor] = [low, high, factor].map(cases::numbers);
        let order = low.len().isqrt();
        FactorTest {
            order,
            low,
            high,
            factor,
        }
        .expect(answer, over);
    };
    expect("[1]", "[1]", "[65536]", ACCEPTED, 0);
    expect("[1]", "[1]", "[65537]", NOT_ACCEPTED, -131073);
    let steep = "[1 3; 3 10]";
    expect(steep, steep, "[65536 196608; 0 65536]", ACCEPTED, 0);
    expect(
        steep,
        steep,
        "[65536 196607; 0 65536]",
        NOT_ACCEPTED,
        -65536,
    );
    let factor = "[89738 47861; 0 75910]";
    expect("[2 1; 1 2]", "[2 1; 1 2]", factor, ACCEPTED, 536914293);
    expect("[2 0; 1 2]", "[2 1; 2 2]", factor, ACCEPTED, 536914293);
}

/// The most is 2^52 - 1, and the least, in the last row, -(2n + n(n - 1)/2)·2^52: both
/// take more than 32 bits, and more than a float of 64 bits holds.
#[test]
fn the_ends_of_the_range_are_met_at_every_order() {
    let greatest = ENTRY_RANGE * UNIT;
    for order in 1..=8 {
        FactorTest::even(order, ENTRY_RANGE, 0, 1).expect(ACCEPTED, greatest - 1);
        let full = |place: usize| match place / order > place % order {
            true => 0,
            false => FACTOR_RANGE,
        };
        let low = vec![-ENTRY_RANGE; order * order];
        let widest = FactorTest {
            order,
            low: low.clone(),
            high: low,
            factor: (0..order * order).map(full).collect(),
        };
        let units = [2, 5, 9, 14, 20, 27, 35, 44][order - 1];
        widest.expect(NOT_ACCEPTED, -units * greatest);
    }
}

/// The bytes that an entry leaves in the number's buffer, and its answer.
fn given(act: &Act, call: &Call, place: usize) -> (i64, Vec<u8>) {
    let (answer, mut after) = act.given(call);
    (answer, after.swap_remove(place))
}

/// Halves that are rounded apart have the number of the mended tables handed in, in both
/// entries, whichever sign it has.
#[test]
fn halves_rounded_apart_have_the_number_of_the_mended_tables() {
    let mut generator = Generator::new(141);
    let mut met = [[0; 3]; 8];
    for _ in 0..16_000 {
        let (problem, factor) = generator.offer();
        let problem = problem.mended();
        let apart = generator.rounded_apart(&problem);
        let [one, other] = [&apart, &problem].map(|p| factor_call(&p.low, &p.high, &factor));
        let tested = given(&TEST_FACTOR, &one, TESTED_OVER);
        assert_eq!(
            tested,
            given(&TEST_FACTOR, &other, TESTED_OVER),
            "{apart:?}"
        );
        let [one, other] = [&apart, &problem].map(|p| judge_call(&p.low, &p.high));
        let judged = given(&JUDGE, &one, JUDGED_OVER);
        assert_eq!(judged, given(&JUDGE, &other, JUDGED_OVER), "{apart:?}");
        if !apart.is_symmetric() {
            let met = &mut met[problem.order - 1];
            met[0] += usize::from(tested.0 == ACCEPTED);
            met[1] += usize::from(tested.0 == NOT_ACCEPTED);
            met[2] += usize::from(judged.0 == DEFINITE);
        }
    }
    assert!(met[1..].iter().flatten().all(|n| *n > 100), "{met:?}");
}

/// The judge's number is the one that the factor test gives of its factor, 0 or more.
#[test]
fn the_judges_number_is_that_of_its_factor_at_every_order() {
    let mut generator = Generator::new(142);
    for order in 1..=8 {
        let mut definite = 0;
        for round in 0..600 {
            let problem = generator.problem(KINDS[round % 5], order, round % 3 == 1);
            let apart = generator.rounded_apart(&problem);
            let (answer, after) = JUDGE.given(&judge_call(&apart.low, &apart.high));
            if answer != DEFINITE {
                continue;
            }
            definite += 1;
            let (factor, over) = (numbers(&after[2]), &after[JUDGED_OVER]);
            assert!(numbers(over)[0] >= 0, "{apart:?}");
            let call = factor_call(&apart.low, &apart.high, &factor);
            let tested = given(&TEST_FACTOR, &call, TESTED_OVER);
            assert_eq!(tested, (ACCEPTED, over.clone()), "{apart:?}");
        }
        assert!(definite > 150, "order {order}: {definite}");
    }
}

/// D3.8 of the number that the library writes, whichever sign it has, for members of the
/// tables as they are handed in. Where there is no slack, no greater number would hold.
#[test]
fn no_member_has_less_than_the_number_and_the_factor_say() {
    let (mut generator, mut random) = (Generator::new(143), Random::new(144));
    let (mut counts, mut sharp) = ([0; 2], [0; 2]);
    for _ in 0..20_000 {
        let (problem, factor) = generator.offer();
        let call = factor_call(&problem.low, &problem.high, &factor);
        let (answer, over) = given(&TEST_FACTOR, &call, TESTED_OVER);
        if answer > 0 {
            continue;
        }
        let (sign, over) = (usize::from(answer == ACCEPTED), numbers(&over)[0]);
        counts[sign] += 1;
        for range in [1, 1, 1, 2, 30, 1 << 15] {
            let member = generator.member(&problem);
            let x: Vec<i64> = (0..problem.order).map(|_| random.within(range)).collect();
            let slack = member.slack(&factor, over, &x);
            assert!(slack >= 0, "{problem:?} {factor:?} {member:?} {x:?}");
            let nonzero = x.iter().any(|entry| *entry != 0);
            sharp[sign] += usize::from(nonzero && slack == 0);
        }
    }
    println!("{counts:?} factors, {sharp:?} times no slack");
    assert!(counts.iter().all(|count| *count > 5000), "{counts:?}");
    assert!(sharp.iter().all(|count| *count > 1000), "{sharp:?}");
}

/// The number is written whole, 8 bytes with the low one first, whatever the buffer holds
/// before.
#[test]
fn the_number_is_written_whole_over_any_bytes() {
    let low_byte_first = |act: &Act, call: &Call, place: usize, answer, written: [u8; 8]| {
        for content in CONTENTS {
            let mut call = call.clone();
            call.buffers[place] = content.to_vec();
            assert_eq!(given(act, &call, place), (answer, written.to_vec()));
        }
    };
    // 537063135 = 0x2002EEDF, and -262145 = -0x40001
    let definite = judge_call(&[4], &[4]);
    let written = [0xDF, 0xEE, 0x02, 0x20, 0, 0, 0, 0];
    low_byte_first(&JUDGE, &definite, JUDGED_OVER, DEFINITE, written);
    let accepted = factor_call(&[4], &[4], &[129007]);
    low_byte_first(&TEST_FACTOR, &accepted, TESTED_OVER, ACCEPTED, written);
    let short = factor_call(&[4], &[4], &[131073]);
    let written = [0xFF, 0xFF, 0xFB, 0xFF, 0xFF, 0xFF, 0xFF, 0xFF];
    low_byte_first(&TEST_FACTOR, &short, TESTED_OVER, NOT_ACCEPTED, written);
    assert_eq!(bytes(&[-262145]), written);
}
