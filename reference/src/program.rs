//! The output of the program `judge`: R19.

use crate::enclosure::{enclosure, Enclosure, Side};
use crate::judge::{verdict, Verdict};
use crate::problem::{Bounds, Problem};
use crate::summary::read_problem;

/// R19.2: the whole output for a file's bytes.
pub fn output(file: &[u8]) -> String {
    match read_problem(file) {
        Err(refusal) => format!("refused {}\n", refusal.number()),
        Ok(problem) => verdict_lines(&problem.bounds) + &box_lines(&problem),
    }
}

/// R19.3: the lines of the verdict.
pub fn verdict_lines(bounds: &Bounds) -> String {
    match verdict(bounds) {
        Verdict::Definite(factor, over) => {
            let rows = factor.iter().map(|row| line("row", row));
            "definite\n".to_string() + &rows.collect::<String>() + &line("over", &[over])
        }
        Verdict::NotDefinite(_, x) => "not\n".to_string() + &line("vector", &x),
        Verdict::Undecided => "undecided\n".to_string(),
    }
}

/// R19.4: the lines of the box.
pub fn box_lines(problem: &Problem) -> String {
    match enclosure(problem) {
        Ok(Enclosure::Sides(sides)) => {
            let text = |side: &Side| line("side", &[side.low, side.high]);
            sides.iter().map(text).collect()
        }
        Ok(Enclosure::Empty) => "empty\n".to_string(),
        Err(refusal) => format!("box refused {}\n", refusal.number()),
    }
}

/// R19.5: a word and its numbers, one space between.
fn line(word: &str, numbers: &[i128]) -> String {
    let numbers = numbers.iter().map(|number| format!(" {number}"));
    format!("{word}{}\n", numbers.collect::<String>())
}
