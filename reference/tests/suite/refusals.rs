//! Refusals 1 to 9 and 16: each position, the ends of each range, and the order of
//! checks.

use hankboulder_reference::entries;
use hankboulder_reference::refusal::REFUSALS;

use crate::support::bytes;

/// The arguments of the five acts on a problem.
#[derive(Clone, PartialEq, Eq, Debug)]
struct Call {
    n: i64,
    low: Vec<u8>,
    high: Vec<u8>,
    factor: Vec<u8>,
    vector: Vec<u8>,
    over: Vec<u8>,
    step: Vec<u8>,
    bound: Vec<u8>,
    linear_low: Vec<u8>,
    linear_high: Vec<u8>,
    limit: i64,
    centre: Vec<u8>,
    sides: Vec<u8>,
}

type Act = fn(&mut Call) -> i64;

/// The acts, with the checks that each has besides 1 to 5.
const ACTS: [(Act, &[i64]); 5] = [
    (test_factor, &[6]),
    (test_vector, &[7]),
    (judge, &[]),
    (enclose, &[16, 8, 9]),
    (stiffness, &[]),
];

fn test_factor(call: &mut Call) -> i64 {
    let over = &mut call.over;
    entries::test_factor(call.n, &call.low, &call.high, &call.factor, over)
}

fn test_vector(call: &mut Call) -> i64 {
    entries::test_vector(call.n, &call.low, &call.high, &call.vector)
}

fn judge(call: &mut Call) -> i64 {
    let (factor, vector, over) = (&mut call.factor, &mut call.vector, &mut call.over);
    entries::judge(call.n, &call.low, &call.high, factor, vector, over)
}

fn enclose(call: &mut Call) -> i64 {
    entries::enclose(
        call.n,
        &call.low,
        &call.high,
        &call.linear_low,
        &call.linear_high,
        call.limit,
        &call.centre,
        &mut call.sides,
    )
}

fn stiffness(call: &mut Call) -> i64 {
    let (step, bound, vector) = (&mut call.step, &mut call.bound, &mut call.vector);
    entries::stiffness(call.n, &call.low, &call.high, step, bound, vector)
}

/// A call of order 2 that every act lets through.
fn good_call() -> Call {
    Call {
        n: 2,
        low: bytes(&[4, 1, 1, 5]),
        high: bytes(&[4, 2, 2, 6]),
        factor: bytes(&[1, 2, 0, 3]),
        vector: bytes(&[1, -1]),
        over: bytes(&[7]),
        step: bytes(&[7]),
        bound: bytes(&[7]),
        linear_low: bytes(&[0, 0]),
        linear_high: bytes(&[0, 0]),
        limit: 10,
        centre: bytes(&[0, 0]),
        sides: bytes(&[7, 7, 7, 7]),
    }
}

fn set(buffer: &mut [u8], place: usize, number: i64) {
    buffer[8 * place..8 * place + 8].copy_from_slice(&number.to_le_bytes());
}

/// Sets both ends of a linear term.
fn set_both(call: &mut Call, place: usize, number: i64) {
    set(&mut call.linear_low, place, number);
    set(&mut call.linear_high, place, number);
}

/// Puts the fault with this refusal number in a call. Faults of different
/// numbers leave each other standing.
fn put_fault(call: &mut Call, number: i64) {
    match number {
        1 => call.n = 9,
        2 => {
            for buffer in [&mut call.over, &mut call.vector, &mut call.sides] {
                buffer.push(0);
            }
        }
        3 => set(&mut call.low, 0, -(1 << 20) - 1),
        4 => set(&mut call.low, 3, 7),
        // Both bounds of one place above U of the other
        5 => {
            set(&mut call.low, 1, 3);
            set(&mut call.high, 1, 3);
        }
        6 => set(&mut call.factor, 2, 1),
        7 => call.vector[..16].fill(0),
        // An entry 1 on the diagonal leaves nothing to take off.
        8 => {
            set(&mut call.low, 0, 1);
            set(&mut call.high, 0, 1);
        }
        9 => set(&mut call.linear_high, 1, 1 << 30),
        16 => set(&mut call.linear_low, 0, 1),
        _ => unreachable!(),
    }
}

/// Runs an act, and checks that a refusal keeps every buffer.
fn run(act: Act, call: &Call) -> i64 {
    let mut lent = call.clone();
    let code = act(&mut lent);
    if code > 0 {
        assert_eq!(&lent, call, "refusal {code} wrote to a buffer");
    }
    code
}

#[test]
fn good_calls_are_let_through() {
    let codes = ACTS.map(|(act, _)| run(act, &good_call()));
    assert_eq!(codes, [0, -1, 0, 0, 0]);
}

#[test]
fn of_several_faults_the_first_in_the_order_of_checks_is_given() {
    let mut met = [0; 17];
    for (act, own) in ACTS {
        let checks = [&[1, 2, 3, 4, 5], own].concat();
        for chosen in 1..1_u32 << checks.len() {
            let faults: Vec<i64> = (0..checks.len())
                .filter(|place| chosen >> place & 1 == 1)
                .map(|place| checks[place])
                .collect();
            let mut call = good_call();
            // 8 changes entries that 3 changes too; 3 comes last.
            faults.iter().rev().for_each(|f| put_fault(&mut call, *f));
            assert_eq!(run(act, &call), faults[0], "faults {faults:?}");
            met[faults[0] as usize] += 1;
        }
    }
    let asked = [1, 2, 3, 4, 5, 6, 7, 8, 9, 16];
    assert!(asked.iter().all(|number| met[*number] > 0), "{met:?}");
}

#[test]
fn faults_of_another_act_are_not_asked() {
    for (act, own) in ACTS {
        let mut call = good_call();
        let others = [6, 7, 16, 8, 9].iter().filter(|other| !own.contains(other));
        others.for_each(|other| put_fault(&mut call, *other));
        assert!(run(act, &call) <= 0);
    }
}

#[test]
fn refusal_1_is_asked_of_the_whole_number_before_any_length() {
    let wrong = [
        0,
        -1,
        9,
        10,
        255,
        257,
        264,
        -255,
        (1 << 32) + 1,
        (1 << 32) + 8,
        -(1 << 32) + 2,
        (1 << 56) + 2,
        i64::MIN,
        i64::MIN + 2,
        i64::MAX,
    ];
    for n in wrong {
        for (act, _) in ACTS {
            let mut call = good_call();
            call.n = n;
            assert_eq!(run(act, &call), 1, "n = {n}");
            call.low.clear();
            call.sides.push(1);
            assert_eq!(run(act, &call), 1, "n = {n}");
        }
    }
}

/// The buffers that each act is lent.
fn buffers(act: usize, call: &mut Call) -> Vec<&mut Vec<u8>> {
    let Call {
        low,
        high,
        factor,
        vector,
        over,
        step,
        bound,
        linear_low,
        linear_high,
        centre,
        sides,
        ..
    } = call;
    match act {
        0 => vec![low, high, factor, over],
        1 => vec![low, high, vector],
        2 => vec![low, high, factor, vector, over],
        3 => vec![low, high, linear_low, linear_high, centre, sides],
        _ => vec![low, high, step, bound, vector],
    }
}

#[test]
fn refusal_2_covers_every_lent_buffer() {
    for (place, (act, _)) in ACTS.into_iter().enumerate() {
        let count = buffers(place, &mut good_call()).len();
        for changed in 0..count {
            for change in [-16, -8, -7, -1, 1, 7, 8, 16, 4096] {
                let mut call = good_call();
                let buffer = buffers(place, &mut call).remove(changed);
                let length = buffer.len().saturating_add_signed(change);
                buffer.resize(length, 0);
                assert_eq!(run(act, &call), 2, "act {place}, buffer {changed}");
            }
            let mut call = good_call();
            buffers(place, &mut call).remove(changed).clear();
            assert_eq!(run(act, &call), 2, "act {place}, empty buffer {changed}");
        }
    }
}

#[test]
fn refusal_2_where_the_buffers_fit_another_order() {
    for n in [1, 3, 4, 8] {
        for (act, _) in ACTS {
            let mut call = good_call();
            call.n = n;
            assert_eq!(run(act, &call), 2);
        }
    }
}

#[test]
fn refusal_2_is_not_asked_of_buffers_of_other_acts() {
    let mut call = good_call();
    call.vector.clear();
    call.sides.clear();
    assert_eq!(run(test_factor, &call), 0);
    call = good_call();
    call.linear_low.clear();
    call.linear_high.clear();
    call.sides.clear();
    assert_eq!(run(judge, &call), 0);
    call = good_call();
    call.over.clear();
    assert_eq!(run(test_vector, &call), -1);
    assert_eq!(run(enclose, &call), 0);
    assert_eq!(run(stiffness, &call), 0);
    call = good_call();
    call.step.clear();
    call.bound.clear();
    assert_eq!(run(judge, &call), 0);
}

/// The buffer for what the rows have over has 8 bytes at every order, whatever else is
/// wrong but the order.
#[test]
fn refusal_2_of_every_other_size_for_what_the_rows_have_over() {
    for (act, own) in [(test_factor as Act, &[6][..]), (judge, &[])] {
        for size in (0..=17).chain([32, 64, 512]).filter(|size| *size != 8) {
            let mut call = good_call();
            call.over.resize(size, 0);
            assert_eq!(run(act, &call), 2, "{size} bytes");
            for later in [3, 4, 5].iter().chain(own) {
                put_fault(&mut call, *later);
                assert_eq!(run(act, &call), 2, "{size} bytes, and {later}");
            }
            put_fault(&mut call, 1);
            assert_eq!(run(act, &call), 1, "{size} bytes");
        }
    }
}

/// Step and bound have 8 bytes at every order, whatever else is wrong but the order, and
/// whether the step would be written or not.
#[test]
fn refusal_2_of_every_other_size_for_step_and_bound() {
    for size in (0..=17).chain([32, 64, 512]).filter(|size| *size != 8) {
        for (place, stops) in [(2, false), (2, true), (3, false), (3, true)] {
            let mut call = good_call();
            if stops {
                set(&mut call.low, 0, 0);
            }
            assert_eq!(run(stiffness, &call), -i64::from(stops));
            buffers(4, &mut call).remove(place).resize(size, 0);
            assert_eq!(run(stiffness, &call), 2, "{size} bytes");
            for later in [3, 4, 5] {
                put_fault(&mut call, later);
                assert_eq!(run(stiffness, &call), 2, "{size} bytes, and {later}");
            }
            put_fault(&mut call, 1);
            assert_eq!(run(stiffness, &call), 1, "{size} bytes");
        }
    }
}

/// Numbers beyond ±range, and the ends themselves.
fn beyond(range: i64) -> [i64; 4] {
    [range + 1, -range - 1, i64::MIN, i64::MAX]
}

#[test]
fn refusal_3_at_every_entry_of_the_tables() {
    for number in beyond(1 << 20) {
        for place in 0..4 {
            for (act, _) in ACTS {
                let mut call = good_call();
                set(&mut call.low, place, number);
                assert_eq!(run(act, &call), 3, "L at {place}: {number}");
                call = good_call();
                set(&mut call.high, place, number);
                assert_eq!(run(act, &call), 3, "U at {place}: {number}");
            }
        }
    }
}

#[test]
fn the_ends_of_the_entry_range_pass_3() {
    for (act, _) in ACTS {
        let mut call = good_call();
        for place in 0..4 {
            set(&mut call.low, place, -(1 << 20));
            set(&mut call.high, place, 1 << 20);
        }
        let code = run(act, &call);
        assert!(code <= 0 || code == 8, "{code}");
    }
}

#[test]
fn refusal_3_of_the_box_covers_linear_terms_limit_and_centre() {
    for place in 0..2 {
        for number in beyond(1 << 36) {
            let mut call = good_call();
            set(&mut call.linear_low, place, number);
            assert_eq!(run(enclose, &call), 3);
            call = good_call();
            set(&mut call.linear_high, place, number);
            assert_eq!(run(enclose, &call), 3);
        }
        for number in beyond(1 << 12) {
            let mut call = good_call();
            set(&mut call.centre, place, number);
            assert_eq!(run(enclose, &call), 3);
        }
    }
    for number in beyond(1 << 54) {
        let mut call = good_call();
        call.limit = number;
        assert_eq!(run(enclose, &call), 3);
    }
}

#[test]
fn the_ends_of_the_other_ranges_pass_3() {
    for sign in [-1, 1] {
        let mut call = good_call();
        set(&mut call.linear_low, 0, -1 << 36);
        set(&mut call.linear_high, 0, sign << 36);
        assert_eq!(run(enclose, &call), 9);
        call = good_call();
        call.limit = sign << 54;
        assert_eq!(run(enclose, &call), if sign < 0 { -1 } else { 0 });
        call = good_call();
        set(&mut call.centre, 1, sign << 12);
        assert_eq!(run(enclose, &call), 0);
    }
}

#[test]
fn refusal_4_at_every_entry_and_equal_entries_pass() {
    let high = [4, 2, 2, 6];
    for (act, _) in ACTS {
        for (place, entry) in high.into_iter().enumerate() {
            let mut call = good_call();
            set(&mut call.low, place, entry + 1);
            assert_eq!(run(act, &call), 4, "entry {place}");
        }
        let mut call = good_call();
        call.low = bytes(&high);
        assert!(run(act, &call) <= 0);
    }
}

/// Each half is 1 to 2.
#[test]
fn refusal_5_where_the_other_half_leaves_no_number() {
    for (act, _) in ACTS {
        for (place, entry) in [1, 2]
            .into_iter()
            .flat_map(|place| [(place, 3), (place, 0)])
        {
            let mut call = good_call();
            set(&mut call.low, place, entry);
            set(&mut call.high, place, entry);
            assert_eq!(run(act, &call), 5);
            // With one number in common it is let through.
            set(&mut call.low, place, entry.min(2));
            set(&mut call.high, place, entry.max(1));
            assert!(run(act, &call) <= 0);
        }
    }
}

#[test]
fn a_half_that_is_mended_away_changes_nothing() {
    for (act, _) in ACTS {
        let good = run(act, &good_call());
        for place in [1, 2] {
            let mut call = good_call();
            for (low, high) in [(0, 2), (1, 3), (0, 3), (-(1 << 20), 1 << 20)] {
                set(&mut call.low, place, low);
                set(&mut call.high, place, high);
                assert_eq!(run(act, &call), good);
            }
        }
    }
}

#[test]
fn refusal_6_at_every_entry_of_the_factor() {
    let code = |place: usize, number: i64| {
        let mut call = good_call();
        set(&mut call.factor, place, number);
        run(test_factor, &call)
    };
    let end = 1 << 26;
    for number in [1, -1, i64::MIN, i64::MAX] {
        assert_eq!(code(2, number), 6, "below the diagonal: {number}");
    }
    for number in [0, -1, -end, end + 1, i64::MIN, i64::MAX] {
        assert_eq!(code(0, number), 6, "diagonal: {number}");
        assert_eq!(code(3, number), 6, "diagonal: {number}");
    }
    for number in [end + 1, -end - 1, i64::MIN, i64::MAX] {
        assert_eq!(code(1, number), 6, "above the diagonal: {number}");
    }
    for (place, number) in [(0, 1), (0, end), (3, 1), (3, end), (1, end), (1, -end)] {
        assert!(code(place, number) <= 0);
    }
}

#[test]
fn refusal_7_of_zero_and_of_every_entry_out_of_range() {
    let code = |x: [i64; 2]| {
        let mut call = good_call();
        call.vector = bytes(&x);
        run(test_vector, &call)
    };
    assert_eq!(code([0, 0]), 7);
    for number in beyond(1 << 15) {
        assert_eq!(code([number, 1]), 7);
        assert_eq!(code([0, number]), 7);
    }
    for number in [-(1 << 15), 1 << 15] {
        assert_eq!(code([number, number]), -1);
        assert_eq!(code([0, number]), -1);
    }
}

#[test]
fn refusal_8_where_a_diagonal_entry_is_1_or_less() {
    for place in [0, 3] {
        for entry in [1, 0, -5] {
            let mut call = good_call();
            set(&mut call.low, place, entry);
            assert_eq!(run(enclose, &call), 8);
        }
    }
}

#[test]
fn refusal_9_at_every_place_and_with_the_centre() {
    for place in 0..2 {
        let mut call = good_call();
        set_both(&mut call, place, 1 << 20);
        assert_eq!(run(enclose, &call), 0);
        set_both(&mut call, place, -(1 << 20) - 1);
        assert_eq!(run(enclose, &call), 9);
        // One end is enough, either one.
        set(&mut call.linear_high, place, 1 << 20);
        assert_eq!(run(enclose, &call), 9);
        set(&mut call.linear_low, place, -(1 << 20));
        assert_eq!(run(enclose, &call), 0);
        set(&mut call.linear_high, place, (1 << 20) + 1);
        assert_eq!(run(enclose, &call), 9);
    }
    // At c = (1, 0) row 1 gives 4 and row 2 gives 1 to 2.
    for (linear, code) in [((1 << 20) - 4, 0), ((1 << 20) - 3, 9)] {
        let mut call = good_call();
        set(&mut call.centre, 0, 1);
        set_both(&mut call, 0, linear);
        assert_eq!(run(enclose, &call), code);
    }
    for (linear, code) in [((1 << 20) - 2, 0), ((1 << 20) - 1, 9)] {
        let mut call = good_call();
        set(&mut call.centre, 0, 1);
        set_both(&mut call, 1, linear);
        assert_eq!(run(enclose, &call), code);
    }
}

#[test]
fn refusal_16_at_every_place_and_equal_ends_pass() {
    for place in 0..2 {
        for (least, most, code) in [(1, 0, 16), (0, 0, 0), (-1, 0, 0), (0, -1, 16)] {
            let mut call = good_call();
            set(&mut call.linear_low, place, least);
            set(&mut call.linear_high, place, most);
            assert_eq!(run(enclose, &call), code, "{least} to {most}");
        }
        let mut call = good_call();
        set(&mut call.linear_low, place, 1 << 36);
        set(&mut call.linear_high, place, -1 << 36);
        assert_eq!(run(enclose, &call), 16);
    }
}

#[test]
fn the_table_has_twenty_numbers_and_words() {
    let words = "order length range crossed lopsided factor vector flat far \
                 cut tag again absent size long reversed sample full falling busy";
    assert_eq!(REFUSALS.len(), 20);
    assert_eq!(words.split_whitespace().count(), REFUSALS.len());
    for (place, word) in words.split_whitespace().enumerate() {
        let refusal = REFUSALS[place].0;
        assert_eq!(refusal.number(), place as i64 + 1);
        assert_eq!(refusal.word(), word);
    }
}
