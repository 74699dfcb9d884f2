//! Floats, gathering and reading the sums: R22 and R23.

use hankboulder_reference::entries;
use hankboulder_reference::floats::{bracket, sixteenfold, Exact};
use hankboulder_reference::generate::{Generator, Road, EDGES};
use hankboulder_reference::random::Random;
use hankboulder_reference::rides::{gather, Sample};
use hankboulder_reference::sums::LentSums;

use crate::support::{bytes, numbers};

const ENTRY: i64 = 1 << 20;
const LINEAR: i64 = 1 << 36;
const LIMIT: i64 = 1 << 54;

fn ends(bits: u32) -> Option<(i128, i128)> {
    bracket(bits).map(|bracket| (bracket.low, bracket.high))
}

fn ends_of(number: f32) -> Option<(i128, i128)> {
    ends(number.to_bits())
}

#[test]
fn brackets_of_listed_numbers() {
    let listed = [
        (0.0, (0, 0)),
        (-0.0, (0, 0)),
        (0.0625, (1, 1)),
        (-0.0625, (-1, -1)),
        (0.3, (4, 5)),
        (-0.3, (-5, -4)),
        (1.03125, (16, 17)),
        (-1.03125, (-17, -16)),
        (7.97, (127, 128)),
        (-7.97, (-128, -127)),
        (8.0, (128, 128)),
        (-8.0, (-128, -128)),
        (1e-30, (0, 1)),
        (-1e-30, (-1, 0)),
    ];
    for (number, expected) in listed {
        assert_eq!(ends_of(number), Some(expected), "{number}");
    }
    // The least and the greatest subnormal number, and 1/16 and 8 less a digit
    assert_eq!(ends(1), Some((0, 1)));
    assert_eq!(ends(0x8000_0001), Some((-1, 0)));
    assert_eq!(ends(0x007F_FFFF), Some((0, 1)));
    assert_eq!(ends(0x3D7F_FFFF), Some((0, 1)));
    assert_eq!(ends(0x3D80_0001), Some((1, 2)));
    assert_eq!(ends(0x40FF_FFFF), Some((127, 128)));
    assert_eq!(ends(0xC0FF_FFFF), Some((-128, -127)));
}

/// One digit past ±8, greater numbers, infinities, and NaNs of either kind.
const REFUSED: [u32; 9] = [
    0x4100_0001,
    0x4180_0000,
    0x4B00_0000,
    0x7F7F_FFFF,
    0x7F80_0000,
    0x7F80_0001,
    0x7FBF_FFFF,
    0x7FC0_0000,
    0x7FFF_FFFF,
];

fn refused() -> impl Iterator<Item = u32> {
    REFUSED.into_iter().flat_map(|bits| [bits, bits | 1 << 31])
}

#[test]
fn refused_numbers_have_no_bracket() {
    for bits in refused() {
        assert_eq!(ends(bits), None, "{bits:x}");
    }
}

/// By another route: twice as many digits hold 16 times a 32-bit float.
fn ends_in_64_bits(bits: u32) -> Option<(i128, i128)> {
    let product = 16.0 * f64::from(f32::from_bits(bits));
    let inside = product.abs() <= 128.0;
    inside.then(|| (product.floor() as i128, product.ceil() as i128))
}

#[test]
fn brackets_agree_with_floats_of_64_bits() {
    let mut random = Random::new(71);
    let signs = [0, 1 << 31];
    for head in (0..256).flat_map(|exponent| signs.map(|sign| sign | exponent << 23)) {
        for digits in [0, 1, 0x40_0000, 0x7F_FFFE, 0x7F_FFFF] {
            assert_eq!(ends(head | digits), ends_in_64_bits(head | digits));
        }
        for _ in 0..500 {
            let bits = head | (random.bits() as u32 & 0x7F_FFFF);
            assert_eq!(ends(bits), ends_in_64_bits(bits), "{bits:x}");
        }
    }
    for bits in EDGES {
        assert_eq!(ends(bits), ends_in_64_bits(bits), "{bits:x}");
    }
}

/// The sums, as numbers.
#[derive(Clone, Debug, PartialEq, Eq)]
struct Sums {
    n: i64,
    low: Vec<i64>,
    high: Vec<i64>,
    linear_low: Vec<i64>,
    linear_high: Vec<i64>,
    running_limit: Vec<i64>,
}

fn zeros(n: usize) -> Sums {
    Sums {
        n: n as i64,
        low: vec![0; n * n],
        high: vec![0; n * n],
        linear_low: vec![0; n],
        linear_high: vec![0; n],
        running_limit: vec![0],
    }
}

fn sample(numbers: [f32; 5]) -> Sample {
    Sample::of(numbers.map(f32::to_bits))
}

impl Sums {
    fn lend(&mut self) -> LentSums<'_> {
        LentSums {
            low: &mut self.low,
            high: &mut self.high,
            linear_low: &mut self.linear_low,
            linear_high: &mut self.linear_high,
            running_limit: &mut self.running_limit,
        }
    }
}

/// Gathers over bytes, and holds what is answered and left to the numbers' own.
fn take(sums: &mut Sums, sample: &Sample) -> i64 {
    let before = sums.clone();
    let mut lent = [
        &sums.low,
        &sums.high,
        &sums.linear_low,
        &sums.linear_high,
        &sums.running_limit,
    ]
    .map(|list| bytes(list));
    let [low, high, least, most, limit] = &mut lent;
    let code = entries::gather(sample, sums.n, low, high, least, most, limit);
    let answer = gather(sample, sums.n, sums.lend());
    assert_eq!(answer.map_or_else(|r| r.number(), |_| 0), code);
    assert_eq!(lent.map(|list| numbers(&list)).concat(), all(sums));
    assert!(code == 0 || *sums == before, "refusal {code} altered a sum");
    code
}

fn all(sums: &Sums) -> Vec<i64> {
    let tables = [&sums.low[..], &sums.high];
    let others = [&sums.linear_low[..], &sums.linear_high, &sums.running_limit];
    [tables.concat(), others.concat()].concat()
}

#[test]
fn a_sample_worked_by_hand() {
    let mut sums = zeros(4);
    // 16, -8, 4 to 5, 0, and a draw of 32
    let first = sample([1.0, -0.5, 0.3, 0.0, 2.0]);
    assert_eq!(take(&mut sums, &first), 0);
    let expected = Sums {
        n: 4,
        low: vec![
            256, -128, 64, 0, -128, 64, -40, 0, 64, -40, 16, 0, 0, 0, 0, 0,
        ],
        high: vec![
            256, -128, 80, 0, -128, 64, -32, 0, 80, -32, 25, 0, 0, 0, 0, 0,
        ],
        linear_low: vec![-512, 256, -160, 0],
        linear_high: vec![-512, 256, -128, 0],
        running_limit: vec![-1024],
    };
    assert_eq!(sums, expected);
    // 0, -1 to 0, 0 to 1, 0, and a draw of -3 to -2
    let second = sample([0.0, -1e-40, 1e-40, -0.0, -0.15]);
    assert_eq!(take(&mut sums, &second), 0);
    let expected = Sums {
        n: 4,
        low: vec![
            256, -128, 64, 0, -128, 64, -41, 0, 64, -41, 16, 0, 0, 0, 0, 0,
        ],
        high: vec![
            256, -128, 80, 0, -128, 65, -32, 0, 80, -32, 26, 0, 0, 0, 0, 0,
        ],
        linear_low: vec![-512, 253, -160, 0],
        linear_high: vec![-512, 256, -125, 0],
        running_limit: vec![-1028],
    };
    assert_eq!(sums, expected);
}

/// The brackets are from 0 to 1, or from -1 to 0: the least square is 0, and the
/// greatest of each product 1.
#[test]
fn a_sample_next_to_zero() {
    for bits in [1, 0x8000_0001] {
        let mut sums = zeros(4);
        assert_eq!(take(&mut sums, &Sample::of([bits; 5])), 0);
        assert_eq!(sums.low, [0; 16]);
        assert_eq!(sums.high, [1; 16]);
        assert_eq!(sums.linear_low, [-1; 4]);
        assert_eq!(sums.linear_high, [0; 4]);
        assert_eq!(sums.running_limit, [0]);
    }
}

/// A fraction s·2^e, e ≤ 0: the whole numbers at most and at least it.
fn around(significand: i128, exponent: i32) -> (i128, i128) {
    let unit = 1_i128 << (-exponent).min(100);
    let floor = significand.div_euclid(unit);
    (floor, -(-significand).div_euclid(unit))
}

/// Each gain holds the exact product of the floats: what a sample adds has every
/// member and every linear term that the true numbers add, and the limit loses no
/// more than the true square.
#[test]
fn what_is_gained_holds_the_exact_products() {
    let mut generator = Generator::new(72);
    let mut apart = 0;
    for _ in 0..20_000 {
        let drawn = generator.good_sample();
        let mut sums = zeros(4);
        assert_eq!(take(&mut sums, &drawn), 0);
        let exact = drawn.numbers().map(|bits| sixteenfold(bits).unwrap());
        let product = |x: Exact, y: Exact, sign: i128| {
            around(
                sign * x.significand * y.significand,
                x.exponent + y.exponent,
            )
        };
        for place in 0..16 {
            let (at_most, at_least) = product(exact[place / 4], exact[place % 4], 1);
            assert!(i128::from(sums.low[place]) <= at_most, "{drawn:?}");
            assert!(i128::from(sums.high[place]) >= at_least, "{drawn:?}");
        }
        for (i, factor) in exact.iter().take(4).enumerate() {
            let (at_most, at_least) = product(*factor, exact[4], -1);
            assert!(i128::from(sums.linear_low[i]) <= at_most, "{drawn:?}");
            assert!(i128::from(sums.linear_high[i]) >= at_least, "{drawn:?}");
        }
        let (_, least_loss) = product(exact[4], exact[4], -1);
        assert!(i128::from(sums.running_limit[0]) >= least_loss, "{drawn:?}");
        apart += usize::from(sums.low != sums.high);
    }
    assert!(apart > 15_000, "{apart}");
}

const GREATEST: [f32; 5] = [8.0; 5];

/// Each adds 2^14 to every entry, so that 64 fill the tables. The next one halves them, and
/// so does every 32nd behind it.
#[test]
fn a_chain_of_samples_halves_the_sums() {
    let mut sums = zeros(4);
    let mut held = 0;
    for _ in 0..500 {
        assert_eq!(take(&mut sums, &sample(GREATEST)), 0);
        held = if held == 64 { 33 } else { held + 1 };
        assert_eq!(
            (&sums.low, &sums.high),
            (&vec![held << 14; 16], &vec![held << 14; 16])
        );
        assert_eq!(
            (&sums.linear_low, &sums.linear_high),
            (&vec![-held << 14; 4], &vec![-held << 14; 4])
        );
        assert_eq!(sums.running_limit, [-held << 14]);
    }
    while sums.high[0] < ENTRY {
        assert_eq!(take(&mut sums, &sample(GREATEST)), 0);
    }
    // One that adds nothing to what is full halves nothing.
    let full = sums.clone();
    assert_eq!(take(&mut sums, &sample([0.0; 5])), 0);
    assert_eq!(sums, full);
    assert_eq!(take(&mut sums, &sample([0.0, 0.0, 0.0, 0.0, 8.0])), 0);
    assert_eq!(sums.running_limit, [-65 << 14]);
    assert_eq!(sums.high, full.high);
    // The least that adds to it does.
    assert_eq!(take(&mut sums, &sample([0.0, 0.0625, 0.0, 0.0, 0.0])), 0);
    assert_eq!((sums.high[0], sums.high[5]), (ENTRY / 2, ENTRY / 2 + 1));
    assert_eq!(sums.running_limit, [-65 << 13]);
}

/// What a sample leaves of sums, halved for it or not: halves by a shift of bits, which
/// rounds down, and what it adds to sums of 0.
fn after(sums: &Sums, drawn: &Sample, halved: bool) -> Sums {
    let mut gains = zeros(4);
    assert_eq!(take(&mut gains, drawn), 0);
    let shift = u32::from(halved);
    let down = |list: &[i64], more: &[i64]| -> Vec<i64> {
        let pairs = list.iter().zip(more);
        pairs.map(|(sum, gain)| (sum >> shift) + gain).collect()
    };
    let up = |list: &[i64], more: &[i64]| -> Vec<i64> {
        let pairs = list.iter().zip(more);
        pairs.map(|(sum, gain)| gain - (-sum >> shift)).collect()
    };
    Sums {
        n: 4,
        low: down(&sums.low, &gains.low),
        high: up(&sums.high, &gains.high),
        linear_low: down(&sums.linear_low, &gains.linear_low),
        linear_high: up(&sums.linear_high, &gains.linear_high),
        running_limit: up(&sums.running_limit, &gains.running_limit),
    }
}

fn in_range(sums: &Sums) -> bool {
    let within = |list: &[i64], range: i64| list.iter().all(|sum| sum.abs() <= range);
    within(&[&sums.low[..], &sums.high].concat(), ENTRY)
        && within(&[&sums.linear_low[..], &sums.linear_high].concat(), LINEAR)
        && within(&sums.running_limit, LIMIT)
}

/// Sums of odd numbers, all of them far from the ends of their ranges.
fn odd() -> Sums {
    Sums {
        n: 4,
        low: vec![-7; 16],
        high: vec![5; 16],
        linear_low: vec![-9; 4],
        linear_high: vec![-3; 4],
        running_limit: vec![-11],
    }
}

/// A sample that brings a sum on by 1, where the sum is at its end, and where it has room
/// for 1.
fn expect_halved(numbers: [f32; 5], put: impl Fn(&mut Sums, i64), end: i64) {
    let drawn = sample(numbers);
    for (number, halved) in [(end, true), (end - end.signum(), false)] {
        let mut sums = odd();
        put(&mut sums, number);
        let expected = after(&sums, &drawn, halved);
        assert_eq!(take(&mut sums, &drawn), 0);
        assert_eq!(sums, expected, "{number}");
    }
}

#[test]
fn every_sum_at_its_end_is_halved_with_all_others() {
    let one = 0.0625;
    for (i, j) in (0..4).flat_map(|i| (0..4).map(move |j| (i, j))) {
        let places = [4 * i + j, 4 * j + i];
        let mut numbers = [0.0; 5];
        (numbers[i], numbers[j]) = (one, one);
        let high = |sums: &mut Sums, end: i64| places.iter().for_each(|p| sums.high[*p] = end);
        expect_halved(numbers, high, ENTRY);
        if i != j {
            numbers[j] = -one;
            let low = |sums: &mut Sums, end: i64| places.iter().for_each(|p| sums.low[*p] = end);
            expect_halved(numbers, low, -ENTRY);
        }
    }
    for i in 0..4 {
        let mut numbers = [0.0, 0.0, 0.0, 0.0, one];
        numbers[i] = one;
        expect_halved(numbers, |sums, end| sums.linear_low[i] = end, -LINEAR);
        numbers[i] = -one;
        expect_halved(numbers, |sums, end| sums.linear_high[i] = end, LINEAR);
    }
    let drawn = [0.0, 0.0, 0.0, 0.0, one];
    expect_halved(drawn, |sums, end| sums.running_limit[0] = end, -LIMIT);
}

/// R23.7: sums at the ends of all ranges, and the greatest samples of every sign.
#[test]
fn no_sample_is_refused_by_18() {
    let ends = [(-1, -1), (-1, 1), (1, 1)];
    let kinds = ends
        .iter()
        .flat_map(|tables| ends.map(|terms| (*tables, terms)));
    for ((tables, terms), limit) in kinds.flat_map(|kind| [(kind, -LIMIT), (kind, LIMIT)]) {
        for signs in 0..32 {
            let of_sign = |k: usize| if signs >> k & 1 == 1 { -8.0 } else { 8.0 };
            let mut sums = Sums {
                n: 4,
                low: vec![tables.0 * ENTRY; 16],
                high: vec![tables.1 * ENTRY; 16],
                linear_low: vec![terms.0 * LINEAR; 4],
                linear_high: vec![terms.1 * LINEAR; 4],
                running_limit: vec![limit],
            };
            let drawn = sample(std::array::from_fn(of_sign));
            let plain = after(&sums, &drawn, false);
            let halved = after(&sums, &drawn, true);
            assert!(in_range(&halved));
            assert_eq!(take(&mut sums, &drawn), 0);
            let expected = if in_range(&plain) { plain } else { halved };
            assert_eq!(sums, expected);
        }
    }
    let mut generator = Generator::new(74);
    for _ in 0..20_000 {
        let mut sums = generator.sums();
        let drawn = generator.good_sample();
        assert!(gather(&drawn, 4, sums.lend()).is_ok(), "{sums:?} {drawn:?}");
    }
}

#[test]
fn refusal_17_of_every_number_before_all_others() {
    for place in 0..5 {
        for bits in refused() {
            let mut numbers = sample([1.0; 5]).numbers();
            numbers[place] = bits;
            let mut sums = zeros(4);
            assert_eq!(take(&mut sums, &Sample::of(numbers)), 17);
            // With an order, a size and a number that are refused besides
            sums.n = 0;
            sums.low.clear();
            sums.linear_low[0] = i64::MIN;
            assert_eq!(take(&mut sums, &Sample::of(numbers)), 17);
        }
    }
}

#[test]
fn refusal_2_for_orders_other_than_4() {
    let one = sample([1.0; 5]);
    for n in 1..=8 {
        let mut sums = zeros(n);
        assert_eq!(take(&mut sums, &one), if n == 4 { 0 } else { 2 });
        // The sizes of order 4, named as another
        let mut sums = zeros(4);
        sums.n = n as i64;
        assert_eq!(take(&mut sums, &one), if n == 4 { 0 } else { 2 });
    }
    for n in [0, -1, 9, -4, 260, (1 << 32) + 4, i64::MIN, i64::MAX] {
        let mut sums = zeros(4);
        sums.n = n;
        assert_eq!(take(&mut sums, &one), 1);
    }
}

fn put_fault(sums: &mut Sums, drawn: &mut Sample, fault: i64) {
    match fault {
        17 => drawn.draw = 0x7FC0_0000,
        1 => sums.n = -4,
        2 => sums.running_limit.push(0),
        3 => sums.running_limit[0] = -LIMIT - 1,
        4 => sums.low[5] = sums.high[5] + 1,
        5 => (sums.low[1], sums.high[1]) = (1, 1),
        16 => sums.linear_low[3] = 1,
        _ => unreachable!(),
    }
}

#[test]
fn of_several_faults_the_first_in_the_order_of_checks_is_given() {
    let checks = [17, 1, 2, 3, 4, 5, 16];
    for chosen in 1..1_u32 << checks.len() {
        let faults: Vec<i64> = (0..checks.len())
            .filter(|place| chosen >> place & 1 == 1)
            .map(|place| checks[place])
            .collect();
        let (mut sums, mut drawn) = (zeros(4), sample([1.0; 5]));
        let put = |fault: &i64| put_fault(&mut sums, &mut drawn, *fault);
        faults.iter().for_each(put);
        assert_eq!(take(&mut sums, &drawn), faults[0], "faults {faults:?}");
    }
}

/// The answer of reading, and the limit where it is written.
fn read(sums: &Sums, allowance: i64) -> (i64, Option<i64>) {
    let before = [0x5A; 8];
    let mut limit = before;
    let code = entries::read_sums(
        sums.n,
        &bytes(&sums.low),
        &bytes(&sums.high),
        &bytes(&sums.linear_low),
        &bytes(&sums.linear_high),
        sums.running_limit[0],
        allowance,
        &mut limit,
    );
    assert_eq!(code == 0, limit != before);
    (code, (code == 0).then(|| i64::from_le_bytes(limit)))
}

const MOST: i64 = 1 << 40;

#[test]
fn the_limit_is_the_allowance_with_the_running_limit() {
    for n in 1..=8 {
        let mut sums = zeros(n);
        for (running, allowance, limit) in [
            (0, 0, 0),
            (0, 7, 7),
            (-1028, 30, -998),
            (-LIMIT, 0, -LIMIT),
            (-LIMIT, MOST, MOST - LIMIT),
            (LIMIT, 0, LIMIT),
            (LIMIT - MOST, MOST, LIMIT),
        ] {
            sums.running_limit[0] = running;
            assert_eq!(read(&sums, allowance), (0, Some(limit)));
        }
    }
}

#[test]
fn refusal_3_of_allowance_running_limit_and_their_sum() {
    let mut sums = zeros(4);
    for allowance in [-1, MOST + 1, i64::MIN, i64::MIN + 1, i64::MAX] {
        for running in [0, -LIMIT, LIMIT] {
            sums.running_limit[0] = running;
            assert_eq!(read(&sums, allowance), (3, None));
        }
    }
    for (running, allowance) in [
        (LIMIT, 1),
        (LIMIT - MOST + 1, MOST),
        (-LIMIT - 1, 0),
        // In range together, and not alone
        (-LIMIT - 1, 1),
        (LIMIT + 1, 0),
        (i64::MIN, MOST),
        (i64::MAX, MOST),
    ] {
        sums.running_limit[0] = running;
        assert_eq!(read(&sums, allowance), (3, None));
    }
}

#[test]
fn sums_are_checked_as_a_problem_is() {
    let good = zeros(3);
    type Fault = (i64, fn(&mut Sums));
    let faults: [Fault; 8] = [
        (1, |sums| sums.n = 9),
        (2, |sums| sums.linear_high.push(0)),
        (3, |sums| sums.high[8] = ENTRY + 1),
        (3, |sums| sums.linear_low[2] = -LINEAR - 1),
        (3, |sums| sums.linear_high[0] = LINEAR + 1),
        (4, |sums| sums.low[4] = 1),
        (5, |sums| (sums.low[1], sums.high[1]) = (-1, -1)),
        (16, |sums| sums.linear_low[1] = 1),
    ];
    assert_eq!(read(&good, 0), (0, Some(0)));
    for (place, (first, put)) in faults.iter().enumerate() {
        for (_, also) in &faults[place..] {
            let mut sums = good.clone();
            also(&mut sums);
            put(&mut sums);
            assert_eq!(read(&sums, 0), (*first, None));
        }
    }
    // An allowance that is refused comes before 4, and after 2.
    let mut sums = good.clone();
    sums.low[4] = 1;
    assert_eq!(read(&sums, -1), (3, None));
    sums.low.push(0);
    assert_eq!(read(&sums, -1), (2, None));
}

/// A simulated ride's squares, worked in floats of 64 bits, are about those that
/// are worked exactly.
#[test]
fn squares_of_simulated_rides() {
    let mut generator = Generator::new(73);
    for road in [Road::Rounded, Road::Measured] {
        for _ in 0..200 {
            let ride = generator.ride(road, 10, 0.2);
            let p = ride.truth.denominator as f64;
            let mut squares = 0;
            let mut about = 0.0;
            for sample in &ride.samples {
                squares += ride.square(sample);
                let value = |bits: u32| f64::from(f32::from_bits(bits));
                let terms = sample.factors.iter().zip(&ride.truth.numbers);
                let sum: f64 = terms.map(|(f, x)| value(*f) * *x as f64 / p).sum();
                about += (16.0 * (value(sample.draw) - sum)).powi(2);
            }
            let allowance = ride.least_allowance(squares) as f64;
            assert!((allowance - about - 0.5).abs() < 0.51, "{ride:?}");
            assert!(about > 0.1 && about < 10.0 * 11.0, "{about}");
        }
    }
}
