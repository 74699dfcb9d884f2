//! Gathering and reading the sums: every check at every place, floats of every
//! exponent, sums that are halved, allowances at their ends, one buffer lent as
//! both, and rides whose coefficients are known.

use hankboulder_compare::enclosure::BOX;
use hankboulder_compare::gather::GATHER;
use hankboulder_compare::read_sums::{self, READ_SUMS};
use hankboulder_compare::{bytes, numbers, Call, Lent};
use hankboulder_reference::floats::bracket;
use hankboulder_reference::generate::{Generator, RawProblem, Ride, Road, EDGES};
use hankboulder_reference::random::Random;
use hankboulder_reference::rides::Sample;

use crate::support::{beyond, problem_call, ENTRY_RANGE, SIDES};

const TAKEN: i64 = 0;
const WRITTEN: i64 = 0;
const BOX_GIVEN: i64 = 0;
const REFUSED_ORDER: i64 = 1;
const REFUSED_LENGTH: i64 = 2;
const REFUSED_RANGE: i64 = 3;
const REFUSED_CROSSED: i64 = 4;
const REFUSED_LOPSIDED: i64 = 5;
const REFUSED_FLAT: i64 = 8;
const REFUSED_FAR: i64 = 9;
const REFUSED_REVERSED: i64 = 16;
const REFUSED_SAMPLE: i64 = 17;

const ORDER: usize = 4;
const LINEAR_RANGE: i64 = 1 << 36;
const LIMIT_RANGE: i64 = 1 << 54;
const CENTRE_RANGE: i128 = 1 << 12;
const MAX_ALLOWANCE: i64 = 1 << 40;

/// The places of the sums among the buffers
const LOW: usize = 0;
const HIGH: usize = 1;
const LINEAR_LOW: usize = 2;
const LINEAR_HIGH: usize = 3;
const RUNNING_LIMIT: usize = 4;

fn sample(numbers: [f32; 5]) -> Sample {
    Sample::of(numbers.map(f32::to_bits))
}

/// A call of gathering on sums of 0, of any order.
fn on_zeros(order: usize, sample: Sample) -> Call {
    let (table, vector) = (vec![0; 8 * order * order], vec![0; 8 * order]);
    let buffers = vec![table.clone(), table, vector.clone(), vector, bytes(&[0])];
    Call {
        sample,
        ..Call::new(order as i64, buffers)
    }
}

/// A sample that adds something to every sum.
fn ones() -> Call {
    on_zeros(ORDER, sample([1.0, 1.0, 1.0, 1.0, 1.0]))
}

fn set(call: &mut Call, buffer: usize, place: usize, number: i64) {
    call.buffers[buffer][8 * place..8 * place + 8].copy_from_slice(&number.to_le_bytes());
}

/// Fails where the library or the reference answers otherwise, or writes.
fn expect(call: &Call, answer: i64) {
    GATHER.expect(call, answer);
    assert_eq!(GATHER.agree(call, 5).answer, answer);
}

/// One digit past 8 and beyond, infinity, and NaNs of either kind.
const REFUSED: [u32; 8] = [
    0x4100_0001,
    0x4180_0000,
    0x7F7F_FFFF,
    0x7F80_0000,
    0x7F80_0001,
    0x7FBF_FFFF,
    0x7FC0_0000,
    0x7FFF_FFFF,
];

#[test]
fn refusal_17_of_every_number_before_all_others() {
    for place in 0..5 {
        for bits in REFUSED.into_iter().flat_map(|bits| [bits, bits | 1 << 31]) {
            let mut call = ones();
            let mut numbers = call.sample.numbers();
            numbers[place] = bits;
            call.sample = Sample::of(numbers);
            expect(&call, REFUSED_SAMPLE);
            set(&mut call, LOW, 0, i64::MAX);
            expect(&call, REFUSED_SAMPLE);
            call.buffers[HIGH].pop();
            expect(&call, REFUSED_SAMPLE);
            call.n = i64::MIN;
            expect(&call, REFUSED_SAMPLE);
            call.buffers.fill(vec![]);
            expect(&call, REFUSED_SAMPLE);
        }
    }
}

/// The ends of the sum L(1,2) and U(1,2) are those of the first factor where the
/// second is 1/16, and those of the linear term are the draw's, the signs changed.
fn expect_bracket(bits: u32) {
    let one = 0.0625_f32.to_bits();
    let as_factor = Sample::of([bits, one, 0, 0, 0]);
    let as_draw = Sample::of([0, 0, one, 0, bits]);
    let expected = bracket(bits).map(|ends| (ends.low as i64, ends.high as i64));
    let observed = |sample: Sample, low: (usize, usize), high: (usize, usize)| {
        let (answer, buffers) = GATHER.given(&on_zeros(ORDER, sample));
        let number = |(buffer, place): (usize, usize)| numbers(&buffers[buffer])[place];
        (answer == TAKEN).then(|| (number(low), number(high)))
    };
    let factor = observed(as_factor, (LOW, 1), (HIGH, 1));
    assert_eq!(factor, expected, "factor {bits:#x}");
    let draw = observed(as_draw, (LINEAR_HIGH, 2), (LINEAR_LOW, 2));
    let draw = draw.map(|(low, high)| (-low, -high));
    assert_eq!(draw, expected, "draw {bits:#x}");
}

/// `tests/load/floats` has all patterns.
#[test]
fn brackets_of_every_exponent_and_of_edges() {
    for bits in EDGES.into_iter().chain(REFUSED) {
        expect_bracket(bits);
        expect_bracket(bits | 1 << 31);
    }
    let mut random = Random::new(101);
    for head in (0..512).map(|head| head << 23) {
        for digits in [0, 1, 2, 0x40_0000, 0x7F_FFFE, 0x7F_FFFF] {
            expect_bracket(head | digits);
        }
        for _ in 0..100 {
            expect_bracket(head | (random.bits() as u32 & 0x7F_FFFF));
        }
    }
    // Whole numbers of sixteenths, and their neighbours
    for whole in 0..=128 {
        let bits = (whole as f32 / 16.0).to_bits();
        for near in [bits, bits + 1, bits.saturating_sub(1)] {
            expect_bracket(near);
            expect_bracket(near | 1 << 31);
        }
    }
    (0..100_000).for_each(|_| expect_bracket(random.bits() as u32));
}

#[test]
fn refusals_1_and_2_of_orders() {
    let one = ones().sample;
    for n in [0, -1, 9, -4, 260, (1 << 32) + 4, i64::MIN, i64::MAX] {
        let mut call = on_zeros(ORDER, one);
        call.n = n;
        expect(&call, REFUSED_ORDER);
        call.buffers.fill(vec![]);
        expect(&call, REFUSED_ORDER);
    }
    for (order, lent) in (1..=8).flat_map(|order| (1..=8).map(move |lent| (order, lent))) {
        let mut call = on_zeros(lent, one);
        call.n = order as i64;
        let refused = GATHER.agree(&call, 0).answer == REFUSED_LENGTH;
        assert_eq!(refused, (order, lent) != (ORDER, ORDER));
    }
}

#[test]
fn refusal_2_for_every_other_length_of_every_buffer() {
    let good = ones();
    for (place, buffer) in good.buffers.iter().enumerate() {
        let size = buffer.len();
        let of_orders = (1..=8).flat_map(|order| [8 * order, 8 * order * order]);
        let beside = [0, 1, size - 8, size - 1, size + 1, size + 8, 4096];
        for length in of_orders.chain(beside).filter(|length| *length != size) {
            let mut call = good.clone();
            call.buffers[place].resize(length, 0x5A);
            expect(&call, REFUSED_LENGTH);
        }
    }
    // Which of the buffers are empty, at least one
    for empty in 1..32 {
        let mut call = good.clone();
        for place in (0..5).filter(|place| empty >> place & 1 == 1) {
            call.buffers[place].clear();
        }
        expect(&call, REFUSED_LENGTH);
    }
}

/// The lists of the sums, and their ranges.
const LISTS: [(usize, usize, i64); 5] = [
    (LOW, 16, ENTRY_RANGE),
    (HIGH, 16, ENTRY_RANGE),
    (LINEAR_LOW, 4, LINEAR_RANGE),
    (LINEAR_HIGH, 4, LINEAR_RANGE),
    (RUNNING_LIMIT, 1, LIMIT_RANGE),
];

#[test]
fn refusal_3_at_every_sum() {
    for (list, count, range) in LISTS {
        for (place, number) in (0..count).flat_map(|k| beyond(range).map(|number| (k, number))) {
            let mut call = ones();
            set(&mut call, list, place, number);
            expect(&call, REFUSED_RANGE);
        }
    }
}

/// Sums at both ends of their ranges pass 3, and a sample of zeros changes nothing.
#[test]
fn the_ends_of_the_ranges_pass_3() {
    let mut call = on_zeros(ORDER, sample([0.0, -0.0, 0.0, -0.0, 0.0]));
    for (list, count, range) in LISTS {
        let low = [LOW, LINEAR_LOW, RUNNING_LIMIT].contains(&list);
        let end = if low { -range } else { range };
        (0..count).for_each(|place| set(&mut call, list, place, end));
    }
    expect(&call, TAKEN);
    set(&mut call, RUNNING_LIMIT, 0, LIMIT_RANGE);
    expect(&call, TAKEN);
}

#[test]
fn refusals_4_5_and_16_at_every_place() {
    for (i, j) in (0..4).flat_map(|i| (0..4).map(move |j| (i, j))) {
        let (place, mirrored) = (4 * i + j, 4 * j + i);
        for (low, high) in [(1, 0), (0, -1), (ENTRY_RANGE, -ENTRY_RANGE)] {
            let mut call = ones();
            for at in [place, mirrored] {
                set(&mut call, LOW, at, low);
                set(&mut call, HIGH, at, high);
            }
            expect(&call, REFUSED_CROSSED);
        }
        if i != j {
            // The bounds of the mirrored place are 0.
            for (low, high) in [
                (1, 1),
                (1, ENTRY_RANGE),
                (-1, -1),
                (-ENTRY_RANGE, -ENTRY_RANGE),
            ] {
                let mut call = ones();
                set(&mut call, LOW, place, low);
                set(&mut call, HIGH, place, high);
                expect(&call, REFUSED_LOPSIDED);
            }
        }
    }
    for k in 0..4 {
        for (least, most) in [(1, 0), (0, -1), (LINEAR_RANGE, -LINEAR_RANGE)] {
            let mut call = ones();
            set(&mut call, LINEAR_LOW, k, least);
            set(&mut call, LINEAR_HIGH, k, most);
            expect(&call, REFUSED_REVERSED);
        }
    }
}

/// A call of gathering on sums of odd numbers, so that each half is rounded.
fn on_odd(sample: Sample) -> Call {
    let mut call = on_zeros(ORDER, sample);
    let odd = [-7, 5, -9, -3, -11];
    for ((list, count, _), number) in LISTS.into_iter().zip(odd) {
        (0..count).for_each(|place| set(&mut call, list, place, number));
    }
    call
}

/// What the sums of a call have with its sample in them: as they are, or halved. Halves are
/// shifts of bits, which round down, and what the sample adds is what it leaves of zeros.
fn with_sample(call: &Call, halved: bool) -> Vec<Vec<u8>> {
    let (answer, gains) = GATHER.given(&on_zeros(ORDER, call.sample));
    assert_eq!(answer, TAKEN);
    let shift = u32::from(halved);
    let lists = call.buffers.iter().zip(&gains).enumerate();
    lists
        .map(|(list, (sums, gains))| {
            let down = [LOW, LINEAR_LOW].contains(&list);
            let half = |sum: i64| match down {
                true => sum >> shift,
                false => -(-sum >> shift),
            };
            let pairs = numbers(sums).into_iter().zip(numbers(gains));
            let totals: Vec<i64> = pairs.map(|(sum, gain)| half(sum) + gain).collect();
            bytes(&totals)
        })
        .collect()
}

/// A sum that the sample brings on by 1: halved with all others where it is at its end, and
/// added to where it has room for 1.
fn expect_halved(sample: Sample, list: usize, places: &[usize], end: i64) {
    for (number, halved) in [(end, true), (end - end.signum(), false)] {
        let mut call = on_odd(sample);
        for place in places {
            set(&mut call, list, *place, number);
        }
        GATHER.expect_after(&call, TAKEN, &with_sample(&call, halved));
        assert_eq!(GATHER.agree(&call, 1).answer, TAKEN);
    }
}

#[test]
fn every_sum_at_its_end_is_halved_with_all_others() {
    let one = 0.0625;
    for (i, j) in (0..4).flat_map(|i| (0..4).map(move |j| (i, j))) {
        let places = [4 * i + j, 4 * j + i];
        let mut factors = [0.0; 5];
        (factors[i], factors[j]) = (one, one);
        expect_halved(sample(factors), HIGH, &places, ENTRY_RANGE);
        if i != j {
            factors[j] = -one;
            expect_halved(sample(factors), LOW, &places, -ENTRY_RANGE);
        }
    }
    for k in 0..4 {
        let mut factors = [0.0, 0.0, 0.0, 0.0, one];
        factors[k] = one;
        expect_halved(sample(factors), LINEAR_LOW, &[k], -LINEAR_RANGE);
        factors[k] = -one;
        expect_halved(sample(factors), LINEAR_HIGH, &[k], LINEAR_RANGE);
    }
    let drawn = sample([0.0, 0.0, 0.0, 0.0, one]);
    expect_halved(drawn, RUNNING_LIMIT, &[0], -LIMIT_RANGE);
}

/// R23.7: all sums at the ends of their ranges, low ones and high ones alike or apart, and
/// the greatest samples of every sign.
#[test]
fn no_sample_is_refused_by_18() {
    let ends = [(-1, -1), (-1, 1), (1, 1)];
    let kinds = ends
        .iter()
        .flat_map(|tables| ends.map(|terms| (*tables, terms)));
    for ((tables, terms), limit) in kinds.flat_map(|kind| [(kind, -1), (kind, 1)]) {
        for signs in 0..32 {
            let of_sign = |k: usize| if signs >> k & 1 == 1 { -8.0 } else { 8.0 };
            let mut call = on_zeros(ORDER, sample(std::array::from_fn(of_sign)));
            let of_lists = [tables.0, tables.1, terms.0, terms.1, limit];
            for ((list, count, range), sign) in LISTS.into_iter().zip(of_lists) {
                (0..count).for_each(|place| set(&mut call, list, place, sign * range));
            }
            assert_eq!(GATHER.agree(&call, signs).answer, TAKEN);
        }
    }
}

fn put_fault(call: &mut Call, fault: i64) {
    match fault {
        REFUSED_SAMPLE => call.sample.draw = 0x7FC0_0000,
        REFUSED_ORDER => call.n = -4,
        REFUSED_LENGTH => call.buffers[RUNNING_LIMIT].push(0),
        REFUSED_RANGE => set(call, LINEAR_HIGH, 3, LINEAR_RANGE + 1),
        REFUSED_CROSSED => set(call, LOW, 5, 1),
        REFUSED_LOPSIDED => {
            set(call, LOW, 1, 1);
            set(call, HIGH, 1, 1);
        }
        REFUSED_REVERSED => set(call, LINEAR_LOW, 0, 1),
        _ => unreachable!("gathering does not refuse by {fault}"),
    }
}

#[test]
fn of_several_faults_the_first_in_the_order_of_checks_is_given() {
    let checks = [17, 1, 2, 3, 4, 5, 16];
    assert_eq!(GATHER.answers[1..], checks);
    for chosen in 1..1 << checks.len() {
        let faults: Vec<i64> = (0..checks.len())
            .filter(|place| chosen >> place & 1 == 1)
            .map(|place| checks[place])
            .collect();
        let mut call = ones();
        faults.iter().for_each(|fault| put_fault(&mut call, *fault));
        expect(&call, faults[0]);
    }
}

/// Whether the sums of a call are halved for its sample.
fn is_halved(call: &Call) -> bool {
    let lists = with_sample(call, false);
    LISTS.iter().any(|(list, _, range)| {
        let sums = numbers(&lists[*list]);
        sums.iter().any(|sum| sum.abs() > *range)
    })
}

/// Chains of samples from sums of 0, until the sums were halved some times. The library's own
/// sums are handed on.
#[test]
fn chains_of_samples_halve_the_sums() {
    let mut generator = Generator::new(102);
    let mut random = Random::new(103);
    for _ in 0..12 {
        let mut call = on_zeros(ORDER, Sample::default());
        // Alike, and so great that entries are full after some hundred
        let alike = generator.good_sample();
        let (mut taken, mut halved) = (0, 0);
        while halved < 20 {
            let great = sample([8.0, -7.9, 7.3, -8.0, 6.1]);
            let other = generator.good_sample();
            call.sample = random.pick(&[great, great, alike, other]);
            assert_eq!(GATHER.agree(&call, taken % 8).answer, TAKEN);
            let by_halves = is_halved(&call);
            let expected = with_sample(&call, by_halves);
            call.buffers = GATHER.given(&call).1;
            assert_eq!(call.buffers, expected);
            taken += 1;
            halved += usize::from(by_halves);
        }
        assert!(taken >= 64 + 20 * 32, "{taken}");
    }
}

/// Fails where reading sums of 0, with these ends of linear term k, is answered
/// otherwise by the library or the reference.
fn expect_read(order: usize, k: usize, least: i64, most: i64, answer: i64) {
    let mut call = on_zeros(order, Sample::default());
    call.buffers[RUNNING_LIMIT].fill(0x5A);
    call.numbers = vec![-7, 1000];
    set(&mut call, LINEAR_LOW, k, least);
    set(&mut call, LINEAR_HIGH, k, most);
    if answer != WRITTEN {
        READ_SUMS.expect(&call, answer);
    }
    assert_eq!(READ_SUMS.agree(&call, k).answer, answer);
}

#[test]
fn reading_refuses_3_and_16_of_every_linear_end_at_every_order() {
    for (order, k) in (1..=8).flat_map(|order| (0..order).map(move |k| (order, k))) {
        for number in beyond(LINEAR_RANGE) {
            expect_read(order, k, number, LINEAR_RANGE, REFUSED_RANGE);
            expect_read(order, k, -LINEAR_RANGE, number, REFUSED_RANGE);
        }
        for (least, most) in [(1, 0), (0, -1), (LINEAR_RANGE, -LINEAR_RANGE)] {
            expect_read(order, k, least, most, REFUSED_REVERSED);
        }
        for (least, most) in [(-LINEAR_RANGE, LINEAR_RANGE), (1, 1), (-1, 0)] {
            expect_read(order, k, least, most, WRITTEN);
        }
    }
}

/// Reading, with a running limit and an allowance.
fn read(running_limit: i64, allowance: i64) -> Result<i64, i64> {
    let zeros = on_zeros(ORDER, Sample::default()).buffers;
    let sums: [Vec<u8>; 4] = zeros[..4].to_vec().try_into().unwrap();
    read_sums::given(ORDER as i64, sums, running_limit, allowance)
}

#[test]
fn allowances_and_running_limits_at_their_ends() {
    let top = LIMIT_RANGE;
    let allowances = [
        i64::MIN,
        i64::MIN + 1,
        -1,
        0,
        1,
        MAX_ALLOWANCE - 1,
        MAX_ALLOWANCE,
        MAX_ALLOWANCE + 1,
        i64::MAX - 1,
        i64::MAX,
    ];
    let near = [top, top - MAX_ALLOWANCE, -top, -top - MAX_ALLOWANCE, 0];
    let beside = near.into_iter().flat_map(|end| [end - 1, end, end + 1]);
    let ends = [i64::MIN, i64::MIN + MAX_ALLOWANCE, i64::MAX];
    let mut written = 0;
    for running in beside.chain(ends) {
        for allowance in allowances {
            let sum = i128::from(running) + i128::from(allowance);
            let good = (0..=MAX_ALLOWANCE).contains(&allowance)
                && (-top..=top).contains(&running)
                && sum.abs() <= i128::from(top);
            let expected = if good {
                Ok(sum as i64)
            } else {
                Err(REFUSED_RANGE)
            };
            let given = read(running, allowance);
            assert_eq!(given, expected, "{running} {allowance}");
            written += usize::from(given.is_ok());
        }
    }
    assert!(written > 30, "{written}");
}

/// What the library answers and writes where one buffer is lent as both tables and
/// one as both ends.
#[test]
fn one_buffer_may_be_both_tables_and_both_ends() {
    let mut generator = Generator::new(104);
    for _ in 0..300 {
        // A lopsided table lent as both leaves no number.
        let problem = generator.any_problem().mended();
        let sums = [
            &problem.low,
            &problem.low,
            &problem.linear_low,
            &problem.linear_low,
        ];
        let mut buffers: Vec<Vec<u8>> = sums.iter().map(|list| bytes(list)).collect();
        buffers.push(vec![0x5A; 8]);
        let call = Call {
            numbers: vec![-7, 1000],
            ..Call::new(problem.order as i64, buffers.clone())
        };
        let lend = |buffer: &mut Vec<u8>| Lent {
            pointer: buffer.as_mut_ptr(),
            length: buffer.len(),
        };
        let mut lent: Vec<Lent> = buffers.iter_mut().map(lend).collect();
        (lent[HIGH], lent[LINEAR_HIGH]) = (lent[LOW], lent[LINEAR_LOW]);
        assert_eq!((READ_SUMS.library)(&call, &lent), WRITTEN);
        assert_eq!(numbers(&buffers[4]), [993]);
        assert_eq!(buffers[..4], call.buffers[..4], "an input was written");
    }
}

/// Feeds a ride to the library, now and then a sample that 17 refuses between; the
/// sums, the squares of the samples, and how often the sums were halved.
fn feed(ride: &Ride, random: &mut Random) -> (Vec<Vec<u8>>, i128, usize) {
    let mut call = on_zeros(ORDER, Sample::default());
    let (mut squares, mut halved) = (0, 0);
    for sample in &ride.samples {
        if random.one_in(10) {
            call.sample = Sample {
                draw: random.pick(&REFUSED),
                ..*sample
            };
            expect(&call, REFUSED_SAMPLE);
        }
        call.sample = *sample;
        halved += usize::from(is_halved(&call));
        let (answer, after) = GATHER.given(&call);
        assert_eq!(answer, TAKEN, "{call:?}");
        squares += ride.square(sample);
        call.buffers = after;
    }
    (call.buffers, squares, halved)
}

/// The box of sums that are read with an allowance, from a centre.
fn boxed(sums: &[Vec<u8>], allowance: i64, centre: &[i64]) -> (i64, Vec<i64>) {
    let lists: Vec<Vec<i64>> = sums.iter().map(|list| numbers(list)).collect();
    let bytes: [Vec<u8>; 4] = sums[..4].to_vec().try_into().unwrap();
    let limit = read_sums::given(ORDER as i64, bytes, lists[RUNNING_LIMIT][0], allowance);
    let problem = RawProblem {
        order: ORDER,
        low: lists[LOW].clone(),
        high: lists[HIGH].clone(),
        linear_low: lists[LINEAR_LOW].clone(),
        linear_high: lists[LINEAR_HIGH].clone(),
        limit: limit.expect("sums of samples are read"),
        centre: centre.to_vec(),
    };
    let call = problem_call(&problem);
    let answer = BOX.agree(&call, 0).answer;
    (answer, numbers(&BOX.given(&call).1[SIDES]))
}

/// Whether the true coefficients are in a box.
fn holds(sides: &[i64], ride: &Ride) -> bool {
    let p = ride.truth.denominator;
    let inside =
        |(x, side): (&i128, &[i64])| p * i128::from(side[0]) <= *x && *x <= p * i128::from(side[1]);
    ride.truth.numbers.iter().zip(sides.chunks(2)).all(inside)
}

/// Whole numbers near the truth, or farther from it.
fn centre_near(ride: &Ride, random: &mut Random) -> Vec<i64> {
    let off = random.pick(&[0, 0, 1, 5, 100]);
    let p = ride.truth.denominator;
    let near = |x: &i128| (2 * x + p).div_euclid(2 * p) + i128::from(random.within(off));
    let clamp = |entry: i128| entry.clamp(-CENTRE_RANGE, CENTRE_RANGE) as i64;
    ride.truth.numbers.iter().map(near).map(clamp).collect()
}

/// Rides whose coefficients are known. The allowance is the least whole number that
/// their squares, worked exactly, allow: the truth is in every box, and no sums
/// are empty.
#[test]
fn the_true_coefficients_are_in_every_box() {
    let (mut generator, mut random) = (Generator::new(105), Random::new(106));
    for (road, least_held) in [(Road::Rounded, 300), (Road::Measured, 150)] {
        let (mut held, mut flat, mut of_halves) = (0, 0, 0);
        for round in 0..700 {
            let noise = random.pick(&[0.0, 0.01, 0.3, 2.0]);
            let count = random.pick(&[5, 12, 40, 150, 1500]);
            let ride = generator.ride(road, count, noise);
            let (sums, squares, halved) = feed(&ride, &mut random);
            let least = ride.least_allowance(squares) as i64;
            let extra = random.pick(&[0, 0, 1, 1000]);
            let centre = centre_near(&ride, &mut random);
            let (answer, sides) = boxed(&sums, least + extra, &centre);
            match answer {
                BOX_GIVEN => {
                    assert!(holds(&sides, &ride), "{round}: {sides:?} {ride:?}");
                    held += 1;
                }
                REFUSED_FLAT => flat += 1,
                REFUSED_FAR => {}
                _ => panic!("{answer} with {least} allowed: {ride:?}"),
            }
            of_halves += usize::from(halved > 0 && answer == BOX_GIVEN);
        }
        println!(
            "{road:?}: {held} boxes hold the truth, {of_halves} of halved sums; {flat} are flat"
        );
        assert!(held >= least_held, "{road:?}: {held}");
        assert!(of_halves > 20, "{road:?}: {of_halves}");
    }
}
