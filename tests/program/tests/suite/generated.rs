//! Generated files: good ones, and ones with damaged entries, fields and bytes.

use std::collections::BTreeSet;

use hankboulder_program::{on_threads, Counts, Program, KINDS};
use hankboulder_reference::generate::{DrawnFile, Generator};

use crate::support::expect_over_in_place;

/// Files are drawn until so many damaged ones are among them. Of the good ones the
/// first are taken.
const DAMAGED: usize = 20_000;
const GOOD: usize = 5000;
const SEED: u64 = 61;

/// At least so many outputs are of each kind.
const OF_A_KIND: usize = 100;

fn draw() -> Vec<DrawnFile> {
    let mut generator = Generator::new(SEED);
    let (mut files, mut damaged, mut good) = (vec![], 0, 0);
    while damaged < DAMAGED {
        let file = generator.drawn_file();
        damaged += usize::from(file.damaged);
        good += usize::from(!file.damaged);
        if file.damaged || good <= GOOD {
            files.push(file);
        }
    }
    files
}

#[test]
fn the_program_agrees_with_the_reference_on_generated_files() {
    let program = Program::under_test();
    let files = draw();
    let texts = on_threads(&files, |file| program.agree(&file.bytes));
    let mut counts = Counts::default();
    for text in &texts {
        counts.add(text);
    }
    let damaged = files.iter().filter(|file| file.damaged).count();
    println!("{} files, {damaged} damaged: {counts}", files.len());
    assert!(damaged >= DAMAGED, "{damaged} files are damaged");
    // No good file is refused, and most of the damaged ones are.
    let drawn = files.iter().zip(&texts);
    let refused = drawn.filter(|(_, text)| text.starts_with("refused"));
    let (faulty, good): (Vec<_>, Vec<_>) = refused.partition(|(file, _)| file.damaged);
    assert_eq!(good, []);
    assert!(faulty.len() > DAMAGED / 2, "{} are refused", faulty.len());
    assert_eq!(counts.met(), BTreeSet::from(KINDS));
    for kind in KINDS {
        let files = counts.of(kind);
        assert!(files >= OF_A_KIND, "{kind}: {files} files");
    }
    let definite = texts.iter().filter(|text| expect_over_in_place(text));
    assert!(definite.count() >= 4 * OF_A_KIND);
    for word in ["row", "vector", "side"] {
        assert_eq!(orders(&texts, word), (1..=8).collect(), "{word}");
    }
}

/// The orders of the outputs that have lines of a word: the numbers of a `row` or
/// `vector` line, and the count of `side` lines.
fn orders(texts: &[String], word: &str) -> BTreeSet<usize> {
    let lines = |text: &String| -> Vec<usize> {
        let lines = text.lines().map(|line| line.split(' '));
        let lines = lines.filter(|words| words.clone().next() == Some(word));
        lines.map(|words| words.count() - 1).collect()
    };
    let lines = texts.iter().map(lines).filter(|lines| !lines.is_empty());
    let order = |lines: Vec<usize>| {
        if word == "side" {
            lines.len()
        } else {
            lines[0]
        }
    };
    lines.map(order).collect()
}
