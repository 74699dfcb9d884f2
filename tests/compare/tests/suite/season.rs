//! Seasons of simulated rides whose coefficients are known, fed as samples and pooled ride by
//! ride: every box holds the coefficients, though the sums were halved many times.

use hankboulder_compare::enclosure::BOX;
use hankboulder_compare::gather::GATHER;
use hankboulder_compare::pool::{self, POOL};
use hankboulder_compare::{bytes, numbers, read_sums, Call};
use hankboulder_reference::generate::{Fractions, Generator, RawPool, RawProblem, Ride, Road};
use hankboulder_reference::pool::add_all;
use hankboulder_reference::random::Random;
use hankboulder_reference::rides::{self, Sample};
use hankboulder_reference::sums::Sums;

use crate::support::{problem_call, SIDES};

const TAKEN: i64 = 0;
const BOX_GIVEN: i64 = 0;
const REFUSED_FLAT: i64 = 8;
const REFUSED_FAR: i64 = 9;

const ORDER: usize = 4;
/// Six seasons with one road and one noise each, and one long season with all of them
const ROADS: [Road; 2] = [Road::Rounded, Road::Measured];
const NOISES: [f64; 3] = [0.0, 0.01, 0.1];
const RIDES: usize = 250;
const LONG: usize = 1500;

/// The sums as buffers, in the order of the C entries.
fn buffers(sums: &RawProblem) -> Vec<Vec<u8>> {
    let lists = [&sums.low, &sums.high, &sums.linear_low, &sums.linear_high];
    let lists = lists.iter().map(|list| bytes(list));
    lists.chain([bytes(&[sums.limit])]).collect()
}

/// Gathers a sample by the library, held to the reference; whether the sums were halved.
fn gather(sums: &mut RawProblem, sample: &Sample) -> bool {
    let call = Call {
        sample: *sample,
        ..Call::new(ORDER as i64, buffers(sums))
    };
    let halved = rides::gather(sample, ORDER as i64, sums.lend()).expect("a sample is taken");
    assert_eq!(GATHER.given(&call), (TAKEN, buffers(sums)));
    halved
}

/// Pools rides by the library, held to the reference; how often the sums were halved.
fn pool_rides(sums: &mut RawProblem, problems: &[RawProblem]) -> usize {
    let raw = RawPool {
        sums: sums.clone(),
        problems: problems.to_vec(),
    };
    let call = pool::of(raw.call());
    assert_eq!(POOL.agree(&call, 3).answer, TAKEN);
    let after = POOL.given(&call).1;
    let parts: Vec<Sums> = problems.iter().map(RawProblem::as_sums).collect();
    let adding = add_all(sums.as_sums(), &parts);
    [sums.low, sums.high, sums.linear_low, sums.linear_high] =
        std::array::from_fn(|place| numbers(&after[place]));
    sums.limit = numbers(&after[4])[0];
    assert_eq!(adding.outcome, Ok(sums.as_sums()));
    adding.halved.iter().filter(|halved| **halved).count()
}

/// The problem that sums give with an allowance, by the library, from a centre.
fn read(sums: &RawProblem, allowance: i64, centre: &[i64]) -> RawProblem {
    let lists: [Vec<u8>; 4] = buffers(sums)[..4].to_vec().try_into().expect("four lists");
    let limit = read_sums::given(ORDER as i64, lists, sums.limit, allowance);
    RawProblem {
        limit: limit.expect("the sums are read"),
        centre: centre.to_vec(),
        ..sums.clone()
    }
}

/// Whole numbers next to the coefficients.
fn centre_of(truth: &Fractions) -> Vec<i64> {
    let p = truth.denominator;
    let near = |x: &i128| (2 * x + p).div_euclid(2 * p) as i64;
    truth.numbers.iter().map(near).collect()
}

/// How the boxes of one kind came out.
#[derive(Default)]
struct Boxes {
    given: usize,
    flat: usize,
    far: usize,
    first: Option<i64>,
    last: Option<i64>,
}

impl Boxes {
    /// Boxes a problem that allows the truth, and fails where the box leaves it out or says
    /// that there is no point. The width is that of all sides together.
    fn add(&mut self, problem: &RawProblem, truth: &Fractions) -> bool {
        let call = problem_call(problem);
        let answer = BOX.agree(&call, 0).answer;
        let sides = numbers(&BOX.given(&call).1[SIDES]);
        match answer {
            BOX_GIVEN => {
                let p = truth.denominator;
                for (x, side) in truth.numbers.iter().zip(sides.chunks(2)) {
                    let [low, high] = [side[0], side[1]].map(|end| p * i128::from(end));
                    assert!((low..=high).contains(x), "{truth:?} {problem:?}");
                }
                self.given += 1;
                self.last = Some(sides.chunks(2).map(|side| side[1] - side[0]).sum());
                self.first = self.first.or(self.last);
            }
            REFUSED_FLAT => self.flat += 1,
            REFUSED_FAR => self.far += 1,
            _ => panic!("{answer} though the truth is allowed: {problem:?}"),
        }
        answer == BOX_GIVEN
    }

    fn told(&self) -> String {
        let Boxes {
            given, flat, far, ..
        } = self;
        let width = |end: Option<i64>| end.map_or("none".to_string(), |width| width.to_string());
        let (first, last) = (width(self.first), width(self.last));
        format!("{given} boxes ({flat} flat, {far} far), widths {first} first and {last} last")
    }
}

/// The sums as they were under the rule of before, where 18 refused a sample.
struct Before {
    sums: Sums,
    squares: i128,
    refused: usize,
    first: Option<usize>,
}

impl Before {
    fn feed(&mut self, sample: &Sample, square: i128, number: usize) {
        let read = rides::read(sample, ORDER as i64, &RawProblem::zeros(ORDER).lend());
        let (_, gains) = read.expect("a sample is let through");
        let next = self.sums.plus(&gains);
        if next.in_range() {
            self.sums = next;
            self.squares += square;
        } else {
            self.refused += 1;
            self.first = self.first.or(Some(number));
        }
    }
}

/// What is kept of a season.
struct Season {
    truth: Fractions,
    centre: Vec<i64>,
    rides: usize,
    fed: RawProblem,
    squares: i128,
    samples: usize,
    before: Before,
    pooled: RawProblem,
    waiting: Vec<RawProblem>,
    halved_for_samples: usize,
    halved_for_rides: usize,
    pools: usize,
    alone: Boxes,
    of_samples: Boxes,
    of_pools: Boxes,
}

impl Season {
    fn new(truth: Fractions) -> Season {
        Season {
            centre: centre_of(&truth),
            truth,
            rides: 0,
            fed: RawProblem::zeros(ORDER),
            squares: 0,
            samples: 0,
            before: Before {
                sums: Sums::zeros(ORDER),
                squares: 0,
                refused: 0,
                first: None,
            },
            pooled: RawProblem::zeros(ORDER),
            waiting: vec![],
            halved_for_samples: 0,
            halved_for_rides: 0,
            pools: 0,
            alone: Boxes::default(),
            of_samples: Boxes::default(),
            of_pools: Boxes::default(),
        }
    }

    /// A ride of its own, read with the least allowance that its squares ask for, and its
    /// samples fed to the sums of the season.
    fn ride(&mut self, ride: &Ride) {
        self.rides += 1;
        let mut own = RawProblem::zeros(ORDER);
        let mut squares = 0;
        for sample in &ride.samples {
            self.samples += 1;
            let square = ride.square(sample);
            squares += square;
            assert!(!gather(&mut own, sample), "a ride has room");
            self.before.feed(sample, square, self.samples);
            self.halved_for_samples += usize::from(gather(&mut self.fed, sample));
        }
        let allowance = ride.least_allowance(squares) as i64;
        let problem = read(&own, allowance, &self.centre);
        self.alone.add(&problem, &self.truth);
        self.waiting.push(problem);
        self.squares += squares;
        let allowance = ride.least_allowance(self.squares) as i64;
        let problem = read(&self.fed, allowance, &self.centre);
        self.of_samples.add(&problem, &self.truth);
    }

    /// Pools the rides that wait. Each has its own allowance in its limit, so that the sums
    /// are read with 0, or with more.
    fn pool(&mut self, more: i64) {
        self.halved_for_rides += pool_rides(&mut self.pooled, &self.waiting);
        self.waiting.clear();
        self.pools += 1;
        let problem = read(&self.pooled, more, &self.centre);
        self.of_pools.add(&problem, &self.truth);
    }

    /// The box of the sums as the rule of before leaves them.
    fn box_before(&self) -> Boxes {
        let narrow = |list: &[i128]| list.iter().map(|sum| *sum as i64).collect();
        let sums = &self.before.sums;
        let left = RawProblem {
            order: ORDER,
            low: narrow(&sums.low),
            high: narrow(&sums.high),
            linear_low: narrow(&sums.linear_low),
            linear_high: narrow(&sums.linear_high),
            limit: sums.running_limit as i64,
            centre: self.centre.clone(),
        };
        let ride = Ride {
            samples: vec![],
            truth: self.truth.clone(),
        };
        let allowance = ride.least_allowance(self.before.squares) as i64;
        let mut boxes = Boxes::default();
        boxes.add(&read(&left, allowance, &self.centre), &self.truth);
        boxes
    }

    fn print(&self, name: &str) {
        let (rides, samples) = (self.rides, self.samples);
        println!("{name}: {rides} rides, {samples} samples");
        println!("  rides alone: {}", self.alone.told());
        let (halved, boxes) = (self.halved_for_samples, self.of_samples.told());
        println!("  all samples in one sum: {halved} halvings, {boxes}");
        let (pools, halved) = (self.pools, self.halved_for_rides);
        let boxes = self.of_pools.told();
        println!("  {pools} pools: {halved} halvings, {boxes}");
        let Before { refused, first, .. } = self.before;
        let first = first.map_or("none".to_string(), |number| number.to_string());
        let boxes = self.box_before().told();
        println!(
            "  before: the first sample that 18 refused is {first}, {refused} in all; {boxes}"
        );
    }

    /// Fails where 18 refused little before, or few boxes are given.
    fn expect_long(&self) {
        let Before { refused, first, .. } = self.before;
        assert!(first.is_some_and(|number| 2 * number < self.samples));
        assert!(refused > self.samples / 2);
        assert!(self.of_samples.given > self.rides / 2);
        assert!(self.of_pools.given > self.pools / 2);
        assert!(self.halved_for_samples > 5 && self.halved_for_rides > 5);
        assert!(self.waiting.is_empty());
    }
}

/// A season of so many rides, each of 4 to 20 stretches, on a road and with a noise.
fn season(rides: usize, seed: u64, draw: impl Fn(&mut Random) -> (Road, f64)) -> Season {
    let (mut generator, mut random) = (Generator::new(seed), Random::new(!seed));
    let mut season = Season::new(generator.coefficients(3));
    let mut group = random.between(1, 64) as usize;
    for number in 1..=rides {
        let count = random.between(4, 20) as usize;
        let (road, noise) = draw(&mut random);
        let ride = generator.ride_of(&season.truth, road, count, noise);
        season.ride(&ride);
        if season.waiting.len() == group || number == rides {
            season.pool(random.pick(&[0, 0, 1000]));
            group = random.pick(&[1, 2, 7, 63, 64]);
        }
    }
    season
}

/// 1,500 rides in six seasons, as samples and pooled. Under the rule of before 18 refused most
/// of their samples; now each season is in its sums, and has boxes to its end.
#[test]
fn every_box_of_a_season_holds_the_true_coefficients() {
    let kinds = ROADS
        .iter()
        .flat_map(|road| NOISES.map(|noise| (*road, noise)));
    for (seed, (road, noise)) in (171..).zip(kinds) {
        let season = season(RIDES, seed, |_| (road, noise));
        season.print(&format!("{road:?} road, draws off by up to {noise}"));
        season.expect_long();
    }
}

/// The same of 1,500 rides in a single season, on all roads.
#[test]
fn every_box_of_a_long_season_holds_the_true_coefficients() {
    let season = season(LONG, 177, |random| {
        (random.pick(&ROADS), random.pick(&NOISES))
    });
    season.print("all roads, draws off by up to 0.1");
    season.expect_long();
}
