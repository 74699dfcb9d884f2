//! The script `examples/summary.py` beside the library: what it shows of a file are the
//! numbers that stand there, which the library reads, tables mended; what it mends is what
//! the library writes of them; and what it makes of a text with symmetric tables is what
//! the library writes.

use std::io::Write;
use std::path::Path;
use std::process::{Command, Stdio};

use hankboulder_compare::read_summary::{of_file, unwritten, writing_again, READ_SUMMARY};
use hankboulder_compare::write_summary::WRITE_SUMMARY;
use hankboulder_compare::{numbers, Call};
use hankboulder_reference::generate::{Generator, RawProblem};
use hankboulder_reference::summary::{
    decode, fields, NUMBER_WIDTH, TABLE_WIDTH, TAG_CENTRE, TAG_HIGH, TAG_LIMIT, TAG_LINEAR_HIGH,
    TAG_LINEAR_LOW, TAG_LOW,
};

use crate::support::{write_call, FILE};

/// What a command of the script prints for each input, and whether it ends well: in
/// one process, for starting Python takes long.
fn run_many(command: &str, inputs: &[Vec<u8>]) -> Vec<(bool, Vec<u8>)> {
    let script = Path::new(env!("CARGO_MANIFEST_DIR")).join("../program/tests/suite/many.py");
    let mut child = Command::new("python3")
        .arg(script)
        .arg(command)
        .stdin(Stdio::piped())
        .stdout(Stdio::piped())
        .spawn()
        .expect("python3 is there");
    let length = |part: &[u8]| (part.len() as u32).to_le_bytes();
    let joined = inputs
        .iter()
        .flat_map(|part| [&length(part), &part[..]].concat());
    let joined: Vec<u8> = joined.collect();
    let mut pipe = child.stdin.take().expect("a pipe");
    let writing = std::thread::spawn(move || pipe.write_all(&joined));
    let done = child.wait_with_output().expect("the script ends");
    writing.join().unwrap().expect("the script reads all");
    assert!(done.status.success());
    let mut rest = &done.stdout[..];
    let mut part = || {
        let (length, after) = rest.split_first_chunk().expect("a length");
        let (part, after) = after.split_at(u32::from_le_bytes(*length) as usize);
        rest = after;
        part.to_vec()
    };
    let outputs = inputs.iter().map(|_| {
        let (status, printed, _) = (part(), part(), part());
        (status == [0], printed)
    });
    outputs.collect()
}

fn joined(list: &[i64]) -> String {
    let words: Vec<String> = list.iter().map(i64::to_string).collect();
    words.join(" ")
}

/// The text of the problem that a call of the writer has.
fn text_of(call: &Call) -> String {
    let lists: Vec<Vec<i64>> = call.buffers[..FILE].iter().map(|l| numbers(l)).collect();
    let [low, high, least, most, centre] = &lists[..] else {
        unreachable!("writing a summary has five inputs");
    };
    let table = |word: &str, table: &[i64]| {
        let rows = table.chunks(call.n as usize).map(joined);
        let rows: String = rows.map(|row| format!("{row}\n")).collect();
        format!("{word}\n{rows}")
    };
    let line = |word: &str, list: &[i64]| format!("{word} {}\n", joined(list));
    let mut text = line("order", &[call.n]);
    if low == high {
        text += &table("matrix", low);
    } else {
        text += &(table("low", low) + &table("high", high));
    }
    if least == most {
        text += &line("linear", least);
    } else {
        text += &(line("linear_low", least) + &line("linear_high", most));
    }
    text + &line("limit", &call.numbers) + &line("centre", centre)
}

#[test]
fn a_file_that_the_library_writes_is_shown_and_made_again() {
    let mut generator = Generator::new(121);
    let problems: Vec<RawProblem> = (0..1500).map(|_| generator.any_problem()).collect();
    let written = |problem: &RawProblem| {
        let (answer, mut buffers) = WRITE_SUMMARY.given(&write_call(problem));
        assert_eq!(answer, 0);
        buffers.swap_remove(FILE)
    };
    let text = |problem: &RawProblem| text_of(&write_call(&problem.mended())).into_bytes();
    let files: Vec<Vec<u8>> = problems.iter().map(written).collect();
    let texts: Vec<Vec<u8>> = problems.iter().map(text).collect();
    for (shown, text) in run_many("show", &files).into_iter().zip(&texts) {
        assert_eq!(shown, (true, text.clone()));
    }
    for (made, file) in run_many("make", &texts).into_iter().zip(&files) {
        assert_eq!(made, (true, file.clone()));
    }
}

/// The problem of a file as its numbers stand there.
fn as_it_stands(file: &[u8]) -> RawProblem {
    let found = fields(file).expect("its fields can be told");
    let numbers = |tag: u8, width: usize| decode(found[usize::from(tag) - 1].content, width);
    RawProblem {
        order: found[0].content[0].into(),
        low: numbers(TAG_LOW, TABLE_WIDTH),
        high: numbers(TAG_HIGH, TABLE_WIDTH),
        linear_low: numbers(TAG_LINEAR_LOW, NUMBER_WIDTH),
        linear_high: numbers(TAG_LINEAR_HIGH, NUMBER_WIDTH),
        limit: numbers(TAG_LIMIT, NUMBER_WIDTH)[0],
        centre: numbers(TAG_CENTRE, NUMBER_WIDTH),
    }
}

/// Where the library refuses by 3, 4, 5 or 16 the script shows the problem with a
/// note; where by another number, nothing.
#[test]
fn what_the_library_reads_is_what_is_shown() {
    let mut generator = Generator::new(122);
    let files: Vec<Vec<u8>> = (0..3000).map(|_| generator.summary_file()).collect();
    let (mut read, mut lopsided, mut refused) = (0, 0, 0);
    let mended = run_many("mend", &files);
    let done = run_many("show", &files).into_iter().zip(mended);
    for (file, ((passed, printed), mended)) in files.iter().zip(done) {
        let (answer, buffers) = READ_SUMMARY.given(&of_file(file.clone(), unwritten()));
        if answer == 0 {
            let problem = as_it_stands(file);
            let text = text_of(&write_call(&problem));
            assert_eq!((passed, printed), (true, text.into_bytes()));
            let after = of_file(file.clone(), buffers[1..].to_vec());
            let (again, call) = (writing_again(&after), write_call(&problem.mended()));
            assert_eq!(again.buffers[..FILE], call.buffers[..FILE]);
            assert_eq!((again.n, &again.numbers), (call.n, &call.numbers));
            let (_, mut written) = WRITE_SUMMARY.given(&again);
            assert_eq!(mended, (true, written.swap_remove(FILE)));
            lopsided += usize::from(!problem.is_symmetric());
            read += 1;
        } else {
            assert_eq!(passed, [3, 4, 5, 16].contains(&answer), "{answer}");
            assert_eq!(printed.is_empty(), !passed);
            assert_eq!(mended, (false, vec![]));
            refused += 1;
        }
    }
    assert!(read > 1000 && refused > 800, "{read} {refused}");
    assert!(lopsided > 300, "{lopsided}");
}
