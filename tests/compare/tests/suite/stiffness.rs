//! The bracket of the stiffness (R26, R15.7): which step, bound and vector are written and
//! which buffers are kept, their sizes, the ends of the range, the other entries beside it,
//! and what it means for members (D3.9). Expected numbers are literals worked from the
//! rules; generated ones agree with the reference too.

use hankboulder_compare::enclosure::BOX;
use hankboulder_compare::stiffness::{
    lowered, step_by_verdicts, tested, verdict, BOUND, STEP, STIFFNESS, VECTOR,
};
use hankboulder_compare::{bytes, numbers, Call};
use hankboulder_reference::cases;
use hankboulder_reference::enclosure::common_step;
use hankboulder_reference::generate::{Fractions, Generator, RawProblem};
use hankboulder_reference::problem::{widen, Bounds};
use hankboulder_reference::random::Random;
use hankboulder_reference::stiffness::{bracket_of, quotient};
use hankboulder_reference::vectors::tried_vectors;

use crate::support::{problem_call, square, stiffness_call, ENTRY_RANGE};

const BETWEEN: i64 = 0;
const AT_MOST: i64 = -1;
const DEFINITE: i64 = 0;
const YES: i64 = 0;
const NO: i64 = -1;
const REFUSED_ORDER: i64 = 1;
const REFUSED_LENGTH: i64 = 2;
const REFUSED_RANGE: i64 = 3;
const REFUSED_CROSSED: i64 = 4;
const REFUSED_LOPSIDED: i64 = 5;
const REFUSED_FLAT: i64 = 8;

const END: i64 = ENTRY_RANGE;

/// Fails where the library gives another step, bound or vector, or keeps or writes another
/// buffer.
fn expect_tables(low: &[i64], high: &[i64], step: Option<i64>, bound: i64, vector: &[i64]) {
    let call = stiffness_call(low, high);
    let mut after = call.buffers.clone();
    if let Some(step) = step {
        after[STEP] = bytes(&[step]);
    }
    after[BOUND] = bytes(&[bound]);
    after[VECTOR] = bytes(vector);
    let answer = if step.is_some() { BETWEEN } else { AT_MOST };
    STIFFNESS.expect_after(&call, answer, &after);
}

/// The same of tables written as in docs/RULES.md.
fn expect_wide(low: &str, high: &str, step: Option<i64>, bound: i64, vector: &[i64]) {
    let [low, high] = [low, high].map(cases::numbers);
    expect_tables(&low, &high, step, bound, vector);
}

/// The same of L = U.
fn expect(matrix: &str, step: Option<i64>, bound: i64, vector: &[i64]) {
    expect_wide(matrix, matrix, step, bound, vector);
}

#[test]
fn the_starred_brackets() {
    expect("[1]", Some(0), 1, &[1]);
    expect("[4]", Some(3), 4, &[1]);
    expect("[0]", None, 0, &[1]);
    expect("[5 2; 2 5]", Some(2), 3, &[1, -1]);
    expect("[1 2; 2 1]", None, -1, &[1, -1]);
    expect("[4 1; 1 3]", Some(2), 3, &[0, 1]);
    expect("[0 1; 1 1]", None, 0, &[1, 0]);
    expect("[1 3; 3 10]", None, 1, &[1, 0]);
    let (low, high) = ("[3 -1; 1 3]", "[4 2; 3 4]");
    expect_wide(low, high, Some(0), 1, &[1, -1]);
    expect_wide("[3 1; 1 3]", "[4 2; 2 4]", Some(0), 1, &[1, -1]);
}

#[test]
fn brackets_worked_by_hand() {
    expect("[-3]", None, -3, &[1]);
    expect_wide("[2]", "[9]", Some(1), 2, &[1]);
    expect_wide("[-7]", "[9]", None, -7, &[1]);
    expect("[9 0 0; 0 5 0; 0 0 7]", Some(4), 5, &[0, 1, 0]);
    expect("[4 -1 -1; -1 4 -1; -1 -1 4]", Some(1), 2, &[1, 1, 1]);
    expect("[4 -1 -1; -1 4 -1; -1 -1 5]", Some(2), 3, &[1, 1, 0]);
    // Low where the product is positive, and high where it is negative
    expect_wide("[5 -3; -3 5]", "[6 4; 4 6]", Some(0), 1, &[1, -1]);
    expect_wide("[5 -4; -4 5]", "[6 3; 3 6]", Some(0), 1, &[1, 1]);
    // The width of row 2 stops factoring, though all members are definite.
    let (low, high) = ("[4 -2 0; -2 4 -2; 0 -2 4]", "[4 2 0; 2 4 2; 0 2 4]");
    expect_wide(low, high, None, 2, &[0, 1, 1]);
    // Not definite by a vector that is not tried
    expect("[4 2; 2 1]", None, 1, &[0, 1]);
    expect("[1 1000; 1000 10000]", None, 1, &[1, 0]);
    expect("[100 37; 37 13]", None, 13, &[0, 1]);
    // The widest of the halves is mended away.
    let (low, high) = ("[5 -1048576; 2 5]", "[5 2; 1048576 5]");
    expect_wide(low, high, Some(2), 3, &[1, -1]);
}

/// The matrix of the remark on R12, whose t(3) is 0
#[test]
fn the_step_of_a_matrix_without_a_step_in_one_place() {
    expect(
        "[609851 712448 1296; 712448 834162 1529; 1296 1529 4]",
        Some(1),
        4,
        &[0, 0, 1],
    );
}

/// The first tried vector: 1 at the end.
fn first_tried(order: usize) -> Vec<i64> {
    (0..order).map(|k| i64::from(k + 1 == order)).collect()
}

#[test]
fn the_ends_of_the_range_are_met_at_every_order() {
    for order in 1..=8 {
        let (least, ones) = (-(order as i64) * END, vec![1; order]);
        let low = square(order, -END, -END);
        expect_tables(&low, &low, None, least, &ones);
        expect_tables(&low, &square(order, END, END), None, least, &ones);
        let (high, first) = (square(order, END, 0), first_tried(order));
        expect_tables(&high, &high, Some(END - 1), END, &first);
        // One entry less of the diagonal, at every place
        for k in 0..order {
            let mut less = high.clone();
            less[k * order + k] -= 1;
            let unit: Vec<i64> = (0..order).map(|i| i64::from(i == k)).collect();
            expect_tables(&less, &less, Some(END - 2), END - 1, &unit);
        }
    }
}

/// Along every vector of signs that begins with 1 the least bound is met, and the vector is
/// the one of these signs.
#[test]
fn the_least_bound_along_every_vector_of_signs() {
    for order in 1..=8 {
        for signs in 0..1 << (order - 1) {
            let sign = |k: usize| if signs << 1 >> k & 1 == 1 { -1 } else { 1 };
            let x: Vec<i64> = (0..order).map(sign).collect();
            let along = |place: usize| -END * x[place / order] * x[place % order];
            let table: Vec<i64> = (0..order * order).map(along).collect();
            expect_tables(&table, &table, None, -(order as i64) * END, &x);
        }
    }
}

/// A diagonal of w + 9k less 9xx', for an x with k nonzero entries, all 1 or -1: x and -x
/// alone have the quotient w.
fn under_alone(x: &[i64], w: i64) -> Vec<i64> {
    let order = x.len();
    let count = x.iter().filter(|entry| **entry != 0).count() as i64;
    let mut table = square(order, w + 9 * count, 0);
    for (place, entry) in table.iter_mut().enumerate() {
        *entry -= 9 * x[place / order] * x[place % order];
    }
    table
}

#[test]
fn every_tried_vector_is_written_where_it_and_its_opposite_alone_are_under_the_bound() {
    for order in 1..=8 {
        let tried = tried_vectors(order).iter();
        let tried = tried.map(|x| x.iter().map(|entry| *entry as i64).collect());
        // Of the two, the one with 1 in front comes first.
        let ahead = |x: &Vec<i64>| x.iter().find(|entry| **entry != 0) == Some(&1);
        for x in tried.filter(ahead) {
            for (w, step) in [(2, Some(1)), (-1, None)] {
                let table = under_alone(&x, w);
                expect_tables(&table, &table, step, w, &x);
            }
        }
    }
}

/// (0, 1, 0, ..) has 8 and (1, 1, 0, ..), which comes later, 15/2: both have the quotient
/// 8. With 15 taken off the diagonal they have -7 and -15/2, and both the quotient -7.
#[test]
fn of_several_vectors_with_one_quotient_the_first_is_written() {
    for order in 2..=8 {
        let mut table = square(order, 9, 0);
        (table[1], table[order], table[order + 1]) = (-1, -1, 8);
        let mut x = vec![0; order];
        x[1] = 1;
        expect_tables(&table, &table, Some(7), 8, &x);
        for entry in table.iter_mut().step_by(order + 1) {
            *entry -= 15;
        }
        expect_tables(&table, &table, None, -7, &x);
        // All vectors have one quotient.
        let even = square(order, 5, 0);
        expect_tables(&even, &even, Some(4), 5, &first_tried(order));
    }
}

/// How often a quotient stands in the list of tried vectors that is less than all before it.
fn falls(bounds: &Bounds) -> usize {
    let mut least = i128::MAX;
    let vectors = tried_vectors(bounds.order).iter();
    let quotients = vectors.map(|x| quotient(bounds, x));
    quotients
        .filter(|next| {
            let before = least;
            least = least.min(*next);
            *next < before
        })
        .count()
}

/// Bounds as wide off the diagonal as its entries are small, and a little wider in the first
/// row, less from one entry to the next: of the vectors that begin with 1 many have a quotient
/// that is less than all before it. So a search that goes from one to the next takes long.
#[test]
fn bounds_whose_quotients_fall_often() {
    let mut most = 0;
    for order in 3..=8 {
        for diagonal in [1000, 300_000] {
            let low = square(order, diagonal, -30_000);
            let mut high = square(order, diagonal, 30_000);
            for k in 1..order {
                high[k] += 8 << (order - 1 - k);
                high[k * order] = high[k];
            }
            let bounds = Bounds::read(order, &low, &high).expect("bounds that are let through");
            let expected = bracket_of(&bounds);
            let found = given(&stiffness_call(&low, &high));
            assert_eq!(found.step.map(i128::from), expected.step);
            assert_eq!(i128::from(found.bound), expected.bound);
            assert_eq!(widen(&found.vector), expected.vector);
            most = most.max(falls(&bounds));
        }
    }
    assert!(most > 100, "{most}");
}

/// [1 3; 3 10] in the last two rows and columns: all members are definite, and factoring
/// stops.
#[test]
fn no_step_where_factoring_stops_though_the_matrix_is_definite() {
    for order in 2..=8 {
        let mut table = square(order, END, 0);
        let last = order * order - 1;
        (table[last - order - 1], table[last]) = (1, 10);
        (table[last - order], table[last - 1]) = (3, 3);
        let mut x = vec![0; order];
        x[order - 2] = 1;
        expect_tables(&table, &table, None, 1, &x);
    }
}

/// Steps of 0 and 1, and none, by one entry of the diagonal.
#[test]
fn a_step_of_0_is_given_where_factoring_ends_with_nothing_to_take_off() {
    for (order, k) in (1..=8).flat_map(|order| (0..order).map(move |k| (order, k))) {
        let mut table = square(order, 500, 0);
        let unit: Vec<i64> = (0..order).map(|i| i64::from(i == k)).collect();
        for (entry, step) in [(2, Some(1)), (1, Some(0)), (0, None), (-1, None)] {
            table[k * order + k] = entry;
            expect_tables(&table, &table, step, entry, &unit);
        }
    }
}

/// Contents of the outputs before a call.
const CONTENTS: [u8; 3] = [0, 0xFF, 0xA5];

/// The call with these contents in its three outputs.
fn filled(call: &Call, content: u8) -> Call {
    let mut call = call.clone();
    call.buffers[STEP..]
        .iter_mut()
        .for_each(|b| b.fill(content));
    call
}

/// A call on good tables: with a step, or with a bound alone.
fn good(order: usize, given: bool) -> Call {
    let table = square(order, if given { 7 } else { 0 }, 0);
    stiffness_call(&table, &table)
}

/// Puts a fault of the tables into a call, by the refusal that it has.
fn put_fault(call: &mut Call, refusal: i64) {
    let corner = 8 * (call.n as usize - 1) * call.n as usize;
    let mut set = |table: usize, place: usize, number: i64| {
        call.buffers[table][place..place + 8].copy_from_slice(&bytes(&[number]));
    };
    match refusal {
        REFUSED_RANGE => set(1, 0, END + 1),
        REFUSED_CROSSED => set(0, 0, 8),
        // At order 1 nothing is refused by 5.
        _ => {
            set(0, corner, 1);
            set(1, corner, 1);
        }
    }
}

/// Fails where a call is not refused by a number, or writes to an output, whatever that
/// holds before.
fn expect_kept(call: &Call, refusal: i64) {
    for content in CONTENTS {
        let call = filled(call, content);
        STIFFNESS.expect(&call, refusal);
        assert_eq!(STIFFNESS.agree(&call, 3).answer, refusal);
    }
}

#[test]
fn every_refusal_keeps_all_three_outputs_byte_for_byte() {
    for (order, given) in (1..=8).flat_map(|order| [(order, true), (order, false)]) {
        let call = good(order, given);
        for n in [0, 9, -1, 257, (1 << 32) + order as i64, i64::MIN, i64::MAX] {
            expect_kept(&Call { n, ..call.clone() }, REFUSED_ORDER);
        }
        for place in 0..call.buffers.len() {
            let mut short = call.clone();
            short.buffers[place].pop();
            expect_kept(&short, REFUSED_LENGTH);
        }
        for refusal in [REFUSED_RANGE, REFUSED_CROSSED, REFUSED_LOPSIDED] {
            let mut faulty = call.clone();
            put_fault(&mut faulty, refusal);
            if (STIFFNESS.possible)(order as i64, refusal) {
                expect_kept(&faulty, refusal);
            }
        }
    }
}

/// Every size of a buffer but its own is refused by 2, whatever comes after it in the order
/// of checks and whether the step would be written or not; 1 comes before it.
#[test]
fn refusal_2_of_every_other_size_of_each_buffer_among_the_checks() {
    for (order, given) in (1..=8).flat_map(|order| [(order, true), (order, false)]) {
        let good = good(order, given);
        for (place, buffer) in good.buffers.iter().enumerate() {
            let own = buffer.len();
            let sizes = (0..=17).chain([24, 64, 512, own - 8, own - 1, own + 1, own + 8, 4096]);
            for size in sizes.filter(|size| *size != own) {
                for later in [0, REFUSED_LOPSIDED, REFUSED_CROSSED, REFUSED_RANGE] {
                    let mut call = good.clone();
                    if later > 0 {
                        put_fault(&mut call, later);
                    }
                    call.buffers[place].resize(size, 0x5A);
                    STIFFNESS.expect(&call, REFUSED_LENGTH);
                    call.n = 9;
                    STIFFNESS.expect(&call, REFUSED_ORDER);
                }
            }
        }
    }
}

/// The numbers are written whole, 8 bytes with the low one first, whatever the buffers hold
/// before, and a step that is not given is kept, whatever it holds.
#[test]
fn outputs_are_written_whole_over_any_bytes() {
    let (zeros, ones) = ([0; 7], [0xFF; 7]);
    let number = |low: u8, rest: &[u8; 7]| [&[low], &rest[..]].concat();
    for content in CONTENTS {
        let call = filled(&stiffness_call(&[4], &[4]), content);
        let mut after = call.buffers.clone();
        after[STEP] = number(3, &zeros);
        after[BOUND] = number(4, &zeros);
        after[VECTOR] = number(1, &zeros);
        STIFFNESS.expect_after(&call, BETWEEN, &after);
        let call = filled(&stiffness_call(&[1, 2, 2, 1], &[1, 2, 2, 1]), content);
        let mut after = call.buffers.clone();
        after[BOUND] = number(0xFF, &ones);
        after[VECTOR] = [number(1, &zeros), number(0xFF, &ones)].concat();
        assert_eq!(after[STEP], [content; 8]);
        STIFFNESS.expect_after(&call, AT_MOST, &after);
    }
    // -8·2^20 and 2^20 - 1 take more than two bytes.
    let low = square(8, -END, -END);
    let (_, after) = STIFFNESS.given(&stiffness_call(&low, &low));
    assert_eq!(after[BOUND], [0, 0, 0x80, 0xFF, 0xFF, 0xFF, 0xFF, 0xFF]);
    let (_, after) = STIFFNESS.given(&stiffness_call(&[END], &[END]));
    assert_eq!(after[STEP], [0xFF, 0xFF, 0x0F, 0, 0, 0, 0, 0]);
}

/// A bracket as the library gives it: the step where it is given, the bound and the vector.
struct Given {
    step: Option<i64>,
    bound: i64,
    vector: Vec<i64>,
}

fn given(call: &Call) -> Given {
    let (answer, after) = STIFFNESS.given(call);
    assert!([BETWEEN, AT_MOST].contains(&answer), "{call:?}");
    Given {
        step: (answer == BETWEEN).then(|| numbers(&after[STEP])[0]),
        bound: numbers(&after[BOUND])[0],
        vector: numbers(&after[VECTOR]),
    }
}

fn call_of(problem: &RawProblem) -> Call {
    stiffness_call(&problem.low, &problem.high)
}

/// Problems for the bracket of the orders asked.
fn problems(seed: u64, orders: std::ops::RangeInclusive<usize>, count: usize) -> Vec<RawProblem> {
    let mut generator = Generator::new(seed);
    let drawn = std::iter::repeat_with(|| generator.bracket_problem());
    drawn
        .filter(|problem| orders.contains(&problem.order))
        .take(count)
        .collect()
}

/// The library's vector test of the tables with the bound taken off: yes of the vector that
/// is shown, no of every tried vector before it, and with one less taken off no of every
/// tried vector at all. So bound and vector are those of R26.3 and R26.4.
#[test]
fn the_vector_test_says_yes_at_the_bound_and_no_below_it() {
    let mut signs = [0; 3];
    let small = problems(151, 1..=4, 2500).into_iter();
    for problem in small.chain(problems(152, 5..=8, 60)) {
        let call = call_of(&problem);
        let Given { bound, vector, .. } = given(&call);
        let (Some(at), Some(below)) = (lowered(&call, bound), lowered(&call, bound - 1)) else {
            continue;
        };
        let tried = tried_vectors(problem.order).iter();
        let tried: Vec<Vec<i64>> = tried
            .map(|x| x.iter().map(|entry| *entry as i64).collect())
            .collect();
        let test = |tables: &[Vec<u8>; 2], x: &Vec<i64>| tested(call.n, tables, &bytes(x));
        let shown = tried
            .iter()
            .position(|x| *x == vector)
            .expect("a tried one");
        assert_eq!(test(&at, &vector), YES, "{problem:?}");
        assert!(tried[..shown].iter().all(|x| test(&at, x) == NO));
        assert!(tried.iter().all(|x| test(&below, x) == NO), "{problem:?}");
        signs[(1 + bound.signum()) as usize] += 1;
    }
    assert!(signs.iter().all(|count| *count > 150), "{signs:?}");
}

/// The step is given exactly with a definite verdict; it is what verdicts on lowered tables
/// find, and what the reference's box works with; and the box is flat exactly where it is 0
/// or not given.
#[test]
fn the_step_is_that_of_the_box_at_every_order() {
    let mut met = [[0; 3]; 8];
    for problem in problems(153, 1..=8, 4000) {
        let call = call_of(&problem);
        let Given { step, bound, .. } = given(&call);
        let tables = [call.buffers[0].clone(), call.buffers[1].clone()];
        assert_eq!(step.is_some(), verdict(call.n, &tables) == DEFINITE);
        let flat = BOX.given(&problem_call(&problem)).0 == REFUSED_FLAT;
        assert_eq!(step.unwrap_or(0) == 0, flat, "{problem:?}");
        if let Some(step) = step {
            let bounds = Bounds::read(problem.order, &problem.low, &problem.high);
            let expected = common_step(&bounds.expect("a problem that is let through"));
            assert_eq!(i128::from(step), expected, "{problem:?}");
            assert_eq!(step, step_by_verdicts(&call), "{problem:?}");
            assert!((0..bound).contains(&step), "{problem:?}");
        }
        let kind = step.map_or(0, |step| 1 + usize::from(step > 0));
        met[problem.order - 1][kind] += 1;
    }
    assert!(met.iter().flatten().all(|count| *count > 15), "{met:?}");
}

/// The member of R8.1 for a vector.
fn least_member(problem: &RawProblem, x: &[i64]) -> Fractions {
    let (order, mended) = (problem.order, problem.mended());
    let entry = |place: usize| {
        let (i, j) = (place / order, place % order);
        let low = i == j || x[i] * x[j] > 0;
        let table = if low { &mended.low } else { &mended.high };
        i128::from(table[place])
    };
    Fractions {
        numbers: (0..order * order).map(entry).collect(),
        denominator: 1,
    }
}

/// D3.9 of what the library writes, for members of the tables as they are handed in and
/// vectors of every size: x'Mx is above t·x'x. For the vector that is shown a member has v·x'x
/// or less, and for no tried vector has one (v - 1)·x'x or less.
#[test]
fn members_are_above_the_step_and_one_is_not_above_the_bound() {
    let (mut generator, mut random) = (Generator::new(154), Random::new(155));
    let (mut steps, mut near) = (0, 0);
    for problem in problems(156, 1..=8, 6000) {
        let bracket = given(&call_of(&problem));
        let least = least_member(&problem, &bracket.vector);
        assert!(least.above(bracket.bound, &bracket.vector) <= 0);
        for range in [1, 1, 1, 2, 30, 1 << 15] {
            let x: Vec<i64> = (0..problem.order).map(|_| random.within(range)).collect();
            if x.iter().all(|entry| *entry == 0) {
                continue;
            }
            for member in [generator.member(&problem), least_member(&problem, &x)] {
                let below = member.above(bracket.bound - 1, &x);
                assert!(range > 1 || below > 0, "{problem:?} {x:?}");
                if let Some(step) = bracket.step {
                    assert!(member.above(step, &x) > 0, "{problem:?} {x:?}");
                    near += usize::from(member.above(step + 1, &x) <= 0);
                }
            }
        }
        steps += usize::from(bracket.step.is_some());
    }
    println!("{steps} steps, {near} times less than 1 above them");
    assert!(steps > 1500 && near > 2500, "{steps} {near}");
}

/// Halves rounded apart have the bracket of the mended tables, whatever they are, and what
/// the outputs hold before plays no part.
#[test]
fn halves_rounded_apart_have_the_bracket_of_the_mended_tables() {
    let mut generator = Generator::new(157);
    let mut met = [[0; 2]; 8];
    for _ in 0..6000 {
        let problem = generator.bracket_problem().mended();
        let apart = generator.rounded_apart(&problem);
        let [one, other] = [&apart, &problem].map(call_of);
        let (answer, after) = STIFFNESS.given(&filled(&one, 0x5A));
        let (expected, mended) = STIFFNESS.given(&filled(&other, 0x5A));
        assert_eq!(answer, expected, "{apart:?}");
        assert_eq!(after[STEP..], mended[STEP..], "{apart:?}");
        let (_, again) = STIFFNESS.given(&filled(&one, 0xA5));
        assert_eq!(after[BOUND..], again[BOUND..], "{apart:?}");
        assert_eq!(after[STEP] == again[STEP], answer == BETWEEN, "{apart:?}");
        if !apart.is_symmetric() {
            met[problem.order - 1][usize::from(answer == BETWEEN)] += 1;
        }
    }
    assert!(met[1..].iter().flatten().all(|n| *n > 80), "{met:?}");
}
