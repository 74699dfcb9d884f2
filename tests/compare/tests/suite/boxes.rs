//! What the box answers and writes. Expected sides and refusals are literals
//! worked from the rules; matrices are written as in docs/RULES.md.

use hankboulder_compare::enclosure::BOX;
use hankboulder_compare::{bytes, numbers, Call, Detail};
use hankboulder_reference::cases;
use hankboulder_reference::random::Random;

use crate::support::{
    beyond, box_call, square, CENTRE, ENTRY_RANGE, LINEAR_HIGH, LINEAR_LOW, SIDES,
};

const BOX_GIVEN: i64 = 0;
const EMPTY: i64 = -1;
const REFUSED_RANGE: i64 = 3;
const REFUSED_FLAT: i64 = 8;
const REFUSED_FAR: i64 = 9;

const LINEAR_RANGE: i64 = 1 << 36;
const LIMIT_RANGE: i64 = 1 << 54;
const CENTRE_RANGE: i64 = 1 << 12;
/// The greatest g(k) that check 9 lets through
const GRADIENT_RANGE: i64 = 1 << 20;

/// A call of the box of L = U.
fn thin(matrix: &str, linear: &[i64], limit: i64, centre: &[i64]) -> Call {
    let table = cases::numbers(matrix);
    box_call(&table, &table, linear, limit, centre)
}

/// A call of the box of one number on the diagonal and 0 elsewhere, with linear
/// terms, limit and centre 0.
fn diagonal(order: usize, number: i64) -> Call {
    let (table, zeros) = (square(order, number, 0), vec![0; order]);
    box_call(&table, &table, &zeros, 0, &zeros)
}

fn set(call: &mut Call, buffer: usize, k: usize, number: i64) {
    call.buffers[buffer][8 * k..][..8].copy_from_slice(&bytes(&[number]));
}

/// Sets both ends of a linear term.
fn set_linear(call: &mut Call, k: usize, number: i64) {
    set(call, LINEAR_LOW, k, number);
    set(call, LINEAR_HIGH, k, number);
}

/// Fails where the library or the reference does not write these sides.
fn expect_sides(call: &Call, sides: &[i64]) {
    let mut after = call.buffers.clone();
    after[SIDES] = bytes(sides);
    BOX.expect_after(call, BOX_GIVEN, &after);
    BOX.agree(call, 1);
}

/// Fails where the library or the reference answers otherwise, or writes.
fn expect(call: &Call, answer: i64) {
    BOX.expect(call, answer);
    BOX.agree(call, 1);
}

#[test]
fn the_listed_boxes() {
    expect(&thin("[4]", &[0], -1, &[0]), EMPTY);
    expect_sides(&thin("[4]", &[0], 0, &[0]), &[0, 0]);
    expect(&thin("[1]", &[0], 0, &[0]), REFUSED_FLAT);
    let call = thin("[4]", &[GRADIENT_RANGE], 0, &[0]);
    expect_sides(&call, &[-699052, 699052]);
    expect(&thin("[4]", &[GRADIENT_RANGE + 1], 0, &[0]), REFUSED_FAR);
    // Case P's numbers
    expect_sides(&thin("[4]", &[-8], 0, &[2]), &[-1, 5]);
}

#[test]
fn rounding_down_loses_a_point_on_the_rim() {
    // x = 3/2 is on the rim of 4x² ≤ 9.
    expect_sides(&thin("[4]", &[0], 9, &[0]), &[-2, 2]);
    // x = -1/2 is on the rim of 4x² + 2x ≤ 0.
    expect_sides(&thin("[4]", &[1], 0, &[0]), &[-2, 2]);
    // B = -1 + 1/3, the quotient rounded up, is 0. Rounded down it is -1: 'empty'.
    expect_sides(&thin("[4]", &[1], -1, &[0]), &[-1, 1]);
}

#[test]
fn what_a_box_of_order_2_is_made_of() {
    // t = 3 and t(k) = 4. g = (6, 2), D = 12 - 2 - 5, B = 5 + 14, s = 3, Y = (5, 4),
    // B2 = 5 + 2 (30 + 8), Z = 5.
    let call = thin("[5 1; 1 5]", &[1, 1], 12, &[1, 0]);
    expect_sides(&call, &[-4, 6, -4, 4]);
    // t = 3 and t(k) = 3, 99. B = B2 = 400, Y = (12, 12), Z = (12, 3).
    let call = thin("[4 0; 0 100]", &[0, 0], 400, &[0, 0]);
    expect_sides(&call, &[-12, 12, -3, 3]);
    // The least value of c takes U off the diagonal: D = 0 + 2 - (2 * 4 - 2 * 1).
    // t = 2 and t(k) = 2. g = (4, 4), B = -4 + 16, s = 3, Y = (5, 5), B2 = -4 + 80,
    // Z = 7.
    let (low, high) = ([4, 0, 0, 4], [4, 1, 1, 4]);
    let call = box_call(&low, &high, &[0, 0], 2, &[1, -1]);
    expect_sides(&call, &[-4, 6, -6, 4]);
}

#[test]
fn where_no_step_can_be_taken_off_one_entry_alone() {
    // t = 1 and t(3) = 0: side 3 is that of Y.
    let matrix = "[609851 712448 1296; 712448 834162 1529; 1296 1529 4]";
    let mut random = Random::new(5);
    for limit in [0, 1, 2, 100, 1 << 30, LIMIT_RANGE] {
        for range in [0, 1, 1000, GRADIENT_RANGE] {
            let linear: Vec<i64> = (0..3).map(|_| random.within(range)).collect();
            let outcome = BOX.agree(&thin(matrix, &linear, limit, &[0; 3]), 0);
            assert_eq!(outcome.answer, BOX_GIVEN);
            assert_eq!(outcome.detail, Some(Detail::Stepless));
        }
    }
}

#[test]
fn where_less_can_be_taken_off_one_entry_than_off_all() {
    // t = 2, t(1) = 2028, t(2) = 2516 and t(3) = 1: 2 taken off entry (3, 3) alone
    // does not end, and taken off every entry it does.
    let matrix = "[452059 504406 916; 504406 565355 1029; 916 1029 4]";
    // g = 0, B = B2 = 100, s = 8, Y = (8, 8, 8), Z = (1, 1, 10).
    let call = thin(matrix, &[0, 0, 0], 100, &[0, 0, 0]);
    expect_sides(&call, &[-1, 1, -1, 1, -8, 8]);
    // g = (0, 0, 1), B = 100 + 1, s = 8, Y = (8, 8, 9), B2 = 100 + 18, Z = (1, 1, 11).
    // With t(3) = 2 it would be Z(3) = 8.
    let call = thin(matrix, &[0, 0, 1], 100, &[0, 0, 0]);
    expect_sides(&call, &[-1, 1, -1, 1, -9, 9]);
}

#[test]
fn refusal_3_at_every_linear_term_centre_entry_and_limit() {
    for order in 1..=8 {
        for (buffer, range) in [
            (LINEAR_LOW, LINEAR_RANGE),
            (LINEAR_HIGH, LINEAR_RANGE),
            (CENTRE, CENTRE_RANGE),
        ] {
            for (k, number) in (0..order).flat_map(|k| beyond(range).map(|number| (k, number))) {
                let mut call = diagonal(order, 4);
                set(&mut call, buffer, k, number);
                expect(&call, REFUSED_RANGE);
            }
        }
        for limit in beyond(LIMIT_RANGE) {
            let call = diagonal(order, 4);
            expect(
                &Call {
                    numbers: vec![limit],
                    ..call
                },
                REFUSED_RANGE,
            );
        }
    }
}

#[test]
fn the_ends_of_their_ranges_pass_3() {
    for (order, sign) in (1..=8).flat_map(|order| [(order, 1), (order, -1)]) {
        for k in 0..order {
            let mut call = diagonal(order, 4);
            set_linear(&mut call, k, sign * LINEAR_RANGE);
            expect(&call, REFUSED_FAR);
            set(&mut call, LINEAR_LOW, k, -LINEAR_RANGE);
            set(&mut call, LINEAR_HIGH, k, LINEAR_RANGE);
            expect(&call, REFUSED_FAR);
            // At the centre 2^12 with a = -4c the gradient is 0, and D = 4c².
            let mut call = diagonal(order, 4);
            set(&mut call, CENTRE, k, sign * CENTRE_RANGE);
            set_linear(&mut call, k, -4 * sign * CENTRE_RANGE);
            assert_eq!(BOX.agree(&call, k).answer, BOX_GIVEN);
        }
        let mut call = diagonal(order, 4);
        call.numbers[0] = sign * LIMIT_RANGE;
        let answer = if sign > 0 { BOX_GIVEN } else { EMPTY };
        assert_eq!(BOX.agree(&call, 0).answer, answer);
    }
}

#[test]
fn refusal_8_at_every_diagonal_entry() {
    for (order, k) in (1..=8).flat_map(|order| (0..order).map(move |k| (order, k))) {
        for entry in [1, 0, -1, -ENTRY_RANGE] {
            let mut call = diagonal(order, 4);
            for table in [0, 1] {
                set(&mut call, table, k * order + k, entry);
            }
            expect(&call, REFUSED_FLAT);
            // 8 comes before 9.
            set_linear(&mut call, k, LINEAR_RANGE);
            expect(&call, REFUSED_FLAT);
        }
    }
}

#[test]
fn refusal_9_at_every_place() {
    for (order, k) in (1..=8).flat_map(|order| (0..order).map(move |k| (order, k))) {
        for (number, answer) in [
            (GRADIENT_RANGE, BOX_GIVEN),
            (-GRADIENT_RANGE, BOX_GIVEN),
            (GRADIENT_RANGE + 1, REFUSED_FAR),
            (-GRADIENT_RANGE - 1, REFUSED_FAR),
        ] {
            let mut call = diagonal(order, 4);
            set_linear(&mut call, k, number);
            assert_eq!(BOX.agree(&call, k).answer, answer);
            // 9 comes before 'empty'.
            call.numbers[0] = -LIMIT_RANGE;
            let answer = if answer == BOX_GIVEN { EMPTY } else { answer };
            assert_eq!(BOX.agree(&call, k).answer, answer);
        }
    }
}

#[test]
fn the_gradient_takes_the_bound_that_makes_it_greatest() {
    // M from 4 to 6 at c = 1: the gradient is 6 + a or 4 + a.
    for (linear, answer) in [
        (GRADIENT_RANGE - 6, BOX_GIVEN),
        (GRADIENT_RANGE - 5, REFUSED_FAR),
        (-GRADIENT_RANGE - 4, BOX_GIVEN),
        (-GRADIENT_RANGE - 5, REFUSED_FAR),
    ] {
        let call = box_call(&[4], &[6], &[linear], LIMIT_RANGE, &[1]);
        assert_eq!(BOX.agree(&call, 0).answer, answer);
        let call = box_call(&[4], &[6], &[-linear], LIMIT_RANGE, &[-1]);
        assert_eq!(BOX.agree(&call, 0).answer, answer);
    }
}

/// A point X/p on the rim of the ellipsoid of a member M of bounds: x'Mx + 2a'x
/// is the limit exactly.
struct Rim {
    low: Vec<i64>,
    high: Vec<i64>,
    linear: Vec<i64>,
    limit: i64,
    p: i64,
    point: Vec<i64>,
}

/// A symmetric table with a greater diagonal, or a diagonal one.
fn member(order: usize, random: &mut Random) -> Vec<i64> {
    let top = random.pick(&[4, 10, 1000, 100_000]);
    let others = random.pick(&[0, 1, 2]);
    let mut table = square(order, 0, 0);
    for i in 0..order {
        for j in 0..i {
            let entry = random.within(others);
            table[i * order + j] = entry;
            table[j * order + i] = entry;
        }
        table[i * order + i] = random.between(4, top) + others * 2 * order as i64;
    }
    table
}

/// A rim point with the denominator p, where one is drawn.
fn rim(order: usize, p: i64, random: &mut Random) -> Option<Rim> {
    let table = member(order, random);
    let (spread, slope) = (random.pick(&[1, 5, 50]), random.pick(&[0, 3, 1000]));
    let point: Vec<i64> = (0..order).map(|_| random.within(spread * p)).collect();
    let linear: Vec<i64> = (0..order).map(|_| random.within(slope)).collect();
    // p² times the limit
    let mut value = 0;
    for i in 0..order {
        value += 2 * p * linear[i] * point[i];
        for j in 0..order {
            value += point[i] * table[i * order + j] * point[j];
        }
    }
    // The first diagonal entry may have bounds apart.
    let (mut low, mut high) = (table.clone(), table);
    low[0] -= random.between(0, 1);
    high[0] += random.between(0, 1);
    (value % (p * p) == 0).then_some(Rim {
        low,
        high,
        linear,
        limit: value / (p * p),
        p,
        point,
    })
}

/// The sides that the library writes from a centre, unless that is too far. A
/// rim is never empty or flat.
fn sides_of(rim: &Rim, centre: &[i64]) -> Option<Vec<i64>> {
    let call = box_call(&rim.low, &rim.high, &rim.linear, rim.limit, centre);
    let (answer, buffers) = BOX.given(&call);
    if answer == REFUSED_FAR {
        return None;
    }
    assert_eq!(answer, BOX_GIVEN, "{call:?}");
    Some(numbers(&buffers[SIDES]))
}

/// Whether a box was given; fails where the point is not in it.
fn holds_point(rim: &Rim, centre: &[i64]) -> bool {
    let Some(sides) = sides_of(rim, centre) else {
        return false;
    };
    for (x, side) in rim.point.iter().zip(sides.chunks(2)) {
        let (low, high) = (rim.p * side[0], rim.p * side[1]);
        let inside = low <= *x && *x <= high;
        assert!(inside, "{x} not from {low} to {high}: {:?}", rim.point);
    }
    true
}

#[test]
fn points_on_the_rim_lie_inside() {
    let mut random = Random::new(6);
    for (order, p) in (1..=8).flat_map(|order| [(order, 1), (order, 2), (order, 3)]) {
        let drawn: Vec<Rim> = (0..1500)
            .filter_map(|_| rim(order, p, &mut random))
            .collect();
        let mut held = 0;
        for rim in &drawn {
            for range in [0, 1, 5, 60, CENTRE_RANGE] {
                let centre: Vec<i64> = (0..order).map(|_| random.within(range)).collect();
                held += usize::from(holds_point(rim, &centre));
            }
        }
        println!("order {order}, p = {p}: {held} boxes around a rim point");
        assert!(held > 300, "order {order}, p = {p}: {held}");
    }
}
