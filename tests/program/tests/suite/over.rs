//! The line `over`: behind the rows of `definite` and nowhere else (R19.3), with the
//! least of what the rows have over. Expected texts are literals worked from the rules.

use hankboulder_program::cases::cases;
use hankboulder_program::problem_file::{bounds, definite, ends, thin};
use hankboulder_program::{on_threads, Program};
use hankboulder_reference::generate::{Generator, RawProblem, KINDS};

use crate::support::expect_over_in_place;

/// The lines of [4].
const FOUR: &str = "definite\nrow 129007\nover 537063135\n";

#[test]
fn it_comes_just_before_the_lines_of_the_box() {
    let program = Program::under_test();
    let four = |a: i64, limit: i64, c: i64| thin("[4]", &[a], limit, &[c]).file();
    let beyond = (1 << 20) + 1;
    for (file, lines) in [
        (four(-8, 0, 2), "side -1 5\n"),
        (four(0, 0, 0), "side 0 0\n"),
        (four(0, -1, 0), "empty\n"),
        (ends("[4]", (-1, 1), -3, 0).file(), "empty\n"),
        (four(beyond, 0, 0), "box refused 9\n"),
    ] {
        program.expect(&file, &format!("{FOUR}{lines}"));
    }
    let one = "definite\nrow 61303\nover 536909487\nbox refused 8\n";
    program.expect(&bounds("[1]", "[1]").file(), one);
    program.expect(&bounds("[1]", "[2]").file(), one);
    let two = "definite\nrow 89738 47861\nrow 0 75910\nover 536914293\nbox refused 8\n";
    program.expect(&bounds("[2 1; 1 2]", "[2 1; 1 2]").file(), two);
    // Halves apart, and the same once mended
    program.expect(&bounds("[2 0; 1 2]", "[2 1; 2 2]").file(), two);
    program.expect(&bounds("[2 -9; 1 2]", "[2 1; 9 2]").file(), two);
}

#[test]
fn no_other_verdict_has_it() {
    let program = Program::under_test();
    for (low, high, lines) in [
        ("[0]", "[5]", "not\nvector 1\n"),
        ("[1 2; 2 1]", "[1 2; 2 1]", "not\nvector 1 -1\n"),
        (
            "[1 1000; 1000 10000]",
            "[1 1000; 1000 10000]",
            "not\nvector -1143 1\n",
        ),
        ("[100 37; 37 13]", "[100 37; 37 13]", "not\nvector -24 64\n"),
        ("[1 3; 3 10]", "[1 3; 3 10]", "undecided\n"),
        ("[1 3; 2 10]", "[1 1000; 3 10]", "undecided\n"),
    ] {
        let text = format!("{lines}box refused 8\n");
        program.expect(&bounds(low, high).file(), &text);
    }
    program.expect(&bounds("[5]", "[4]").file(), "refused 4\n");
    program.expect(&[], "refused 13\n");
}

/// A problem with a diagonal alone, limit 0 and centre 0.
fn diagonal(entries: &[i64]) -> RawProblem {
    let order = entries.len();
    let entry = |place: usize| match place.is_multiple_of(order + 1) {
        true => entries[place / order],
        false => 0,
    };
    let table: Vec<i64> = (0..order * order).map(entry).collect();
    RawProblem {
        low: table.clone(),
        high: table,
        linear_low: vec![0; order],
        linear_high: vec![0; order],
        limit: 0,
        centre: vec![0; order],
        ..definite(order)
    }
}

/// The lines of a factor with a diagonal alone.
fn rows(roots: &[i64]) -> String {
    let order = roots.len();
    let row = |i: usize| -> String {
        let entry = |j: usize| if i == j { roots[i] } else { 0 };
        let words = (0..order).map(|j| format!(" {}", entry(j)));
        format!("row{}\n", words.collect::<String>())
    };
    (0..order).map(row).collect()
}

/// A row with 1 alone has 536909487 over, one with 4 alone 537063135, and one with 2^20
/// alone 671088615.
#[test]
fn the_least_is_printed_whichever_row_it_is_in() {
    let program = Program::under_test();
    for (order, k) in (1..=8).flat_map(|order| (0..order).map(move |k| (order, k))) {
        let (mut entries, mut roots) = (vec![4; order], vec![129007; order]);
        (entries[k], roots[k]) = (1, 61303);
        let text = format!("definite\n{}over 536909487\nbox refused 8\n", rows(&roots));
        program.expect(&diagonal(&entries).file(), &text);
        // Every other row has less.
        (entries[k], roots[k]) = (1 << 20, 67108859);
        let over = if order == 1 { 671088615 } else { 537063135 };
        let sides = "side 0 0\n".repeat(order);
        let text = format!("definite\n{}over {over}\n{sides}", rows(&roots));
        program.expect(&diagonal(&entries).file(), &text);
    }
}

#[test]
fn every_text_has_it_in_its_place() {
    let program = Program::under_test();
    let mut generator = Generator::new(63);
    let mut files: Vec<Vec<u8>> = cases().into_iter().map(|case| case.file).collect();
    for (order, kind) in (1..=8).flat_map(|order| KINDS.map(|kind| (order, kind))) {
        for round in 0..12 {
            let problem = generator.problem(kind, order, round % 2 == 1);
            files.push(generator.rounded_apart(&problem).file());
        }
    }
    let texts = on_threads(&files, |file| program.print(file));
    let found = texts.iter().filter(|text| expect_over_in_place(text));
    let found = found.count();
    assert!(found > 150 && texts.len() > found + 150, "{found}");
}
