//! The exact output of the program "judge".

use std::io::Write;
use std::process::{Command, Stdio};

use hankboulder_reference::cases::{bytes, numbers};
use hankboulder_reference::generate::{Generator, RawProblem, KINDS};
use hankboulder_reference::program::output;
use hankboulder_reference::summary::{file_of_fields, problem_fields};

use crate::support::{enclose_problem, judge};

/// The file of a thin problem with centre 0.
fn file(matrix: &str, linear: &[i64], limit: i64) -> Vec<u8> {
    let n = linear.len();
    let m = numbers(matrix);
    let centre = vec![0; n];
    let fields = problem_fields(n as u8, &m, &m, linear, linear, limit, &centre);
    file_of_fields(&fields)
}

const CASE_P: &str = "01 0100 01, 02 0400 04000000, 03 0400 04000000, \
                      04 0800 F8FFFFFFFFFFFFFF, 05 0800 0000000000000000, \
                      06 0800 0200000000000000, 07 0800 F8FFFFFFFFFFFFFF";
const CASE_P_OUTPUT: &str = "definite\nrow 129007\nover 537063135\nside -1 5\n";

#[test]
fn case_p() {
    let input = bytes(CASE_P);
    assert_eq!(input.len(), 62);
    assert_eq!(output(&input), CASE_P_OUTPUT);
}

#[test]
fn the_program_reads_standard_input() {
    let mut child = Command::new(env!("CARGO_BIN_EXE_reference_judge"))
        .stdin(Stdio::piped())
        .stdout(Stdio::piped())
        .spawn()
        .unwrap();
    let mut stdin = child.stdin.take().unwrap();
    let input = bytes(CASE_P);
    let (first, second) = input.split_at(20);
    stdin.write_all(first).unwrap();
    stdin.write_all(second).unwrap();
    drop(stdin);
    let done = child.wait_with_output().unwrap();
    assert!(done.status.success());
    assert_eq!(String::from_utf8(done.stdout).unwrap(), CASE_P_OUTPUT);
}

#[test]
fn the_command_cases_counts_every_case() {
    let done = Command::new(env!("CARGO_BIN_EXE_cases")).output().unwrap();
    assert!(done.status.success());
    let text = String::from_utf8(done.stdout).unwrap();
    assert_eq!(text.lines().count(), 103);
    assert!(text.ends_with("\n102 passed, 0 failed\n"));
}

#[test]
fn file_refusals() {
    assert_eq!(output(&[]), "refused 13\n");
    assert_eq!(output(&[1]), "refused 10\n");
    assert_eq!(output(&[0; 4097]), "refused 15\n");
    let crossed = problem_fields(1, &[2], &[1], &[0], &[0], 0, &[0]);
    assert_eq!(output(&file_of_fields(&crossed)), "refused 4\n");
    let reversed = problem_fields(1, &[1], &[1], &[1], &[0], 0, &[0]);
    assert_eq!(output(&file_of_fields(&reversed)), "refused 16\n");
}

#[test]
fn every_verdict_is_followed_by_the_box() {
    let not = file("[1 1000; 1000 10000]", &[0, 0], 0);
    assert_eq!(output(&not), "not\nvector -1143 1\nbox refused 8\n");
    let undecided = file("[1 3; 3 10]", &[0, 0], 0);
    assert_eq!(output(&undecided), "undecided\nbox refused 8\n");
    let flat = file("[2 1; 1 2]", &[0, 0], 0);
    let rows = "definite\nrow 89738 47861\nrow 0 75910\nover 536914293\n";
    assert_eq!(output(&flat), format!("{rows}box refused 8\n"));
    let negative_entry = file("[2 -1; -1 2]", &[0, 0], 0);
    let rows = "definite\nrow 89738 -47862\nrow 0 75909\nover 536914407\n";
    assert_eq!(output(&negative_entry), format!("{rows}box refused 8\n"));
}

#[test]
fn every_answer_of_the_box() {
    let row = "definite\nrow 129007\nover 537063135\n";
    let text = |linear: i64, limit: i64| output(&file("[4]", &[linear], limit));
    assert_eq!(text(0, -1), format!("{row}empty\n"));
    assert_eq!(text(0, 0), format!("{row}side 0 0\n"));
    assert_eq!(text(1, 0), format!("{row}side -2 2\n"));
    assert_eq!(text((1 << 20) + 1, 0), format!("{row}box refused 9\n"));
}

/// The output built from the byte entries' answers.
fn text_of_entries(problem: &RawProblem) -> String {
    let words = |list: &[i64]| list.iter().map(|m| format!(" {m}")).collect::<String>();
    let judged = judge(problem.order, &problem.low, &problem.high);
    let mut text = match judged.code {
        0 => {
            let rows = judged.factor.chunks(problem.order);
            let lines = rows.map(|row| format!("row{}\n", words(row)));
            let lines: String = lines.collect();
            format!("definite\n{lines}over {}\n", judged.over)
        }
        -1 => format!("not\nvector{}\n", words(&judged.vector)),
        _ => "undecided\n".to_string(),
    };
    match enclose_problem(problem) {
        (0, sides) => {
            let lines = sides.chunks(2).map(|side| format!("side{}\n", words(side)));
            text.extend(lines);
        }
        (-1, _) => text.push_str("empty\n"),
        (number, _) => text.push_str(&format!("box refused {number}\n")),
    }
    text
}

#[test]
fn the_program_and_the_byte_entries_agree() {
    let mut generator = Generator::new(21);
    for kind in KINDS {
        for order in 1..=8 {
            let problem = generator.problem(kind, order, order % 2 == 0);
            assert_eq!(output(&problem.file()), text_of_entries(&problem));
        }
    }
}
