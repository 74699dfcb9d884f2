//! The time of a run.

use std::time::{Duration, Instant};

use hankboulder_program::problem_file::definite;
use hankboulder_program::Program;
use hankboulder_reference::program::output;

const RUNS: usize = 41;
const LONGEST: Duration = Duration::from_millis(20);

/// The median of some runs, from start to end: other work on the machine makes
/// single runs longer.
fn median(program: &Program, file: &[u8]) -> Duration {
    let expected = output(file);
    let run = |_| {
        let start = Instant::now();
        let text = program.print(file);
        let time = start.elapsed();
        assert_eq!(text, expected);
        time
    };
    let mut times: Vec<Duration> = (0..RUNS).map(run).collect();
    times.sort();
    times[RUNS / 2]
}

#[test]
fn a_file_of_order_8_takes_less_than_20_milliseconds() {
    let program = Program::under_test();
    // 'definite' with sides
    let with_box = definite(8).file();
    // 'undecided': [1 3; 3 10] in the last two rows, and no tried vector shows it.
    let mut problem = definite(8);
    for place in 0..64 {
        let (i, j) = (place / 8, place % 8);
        problem.low[place] = match (i.min(j), i.max(j)) {
            (6, 6) => 1,
            (6, 7) => 3,
            (7, 7) => 10,
            (i, j) if i == j => 1 << 20,
            _ => 0,
        };
    }
    problem.high = problem.low.clone();
    let without = problem.file();
    assert_eq!(output(&without), "undecided\nbox refused 8\n");
    for file in [with_box, without] {
        let time = median(&program, &file);
        println!("order 8: {time:?}, the median of {RUNS} runs");
        assert!(time < LONGEST, "{time:?}");
    }
}
