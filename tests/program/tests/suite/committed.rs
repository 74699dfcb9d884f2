//! The folder `cases`: files with the committed text of their output.

use std::collections::BTreeSet;
use std::fs::{self, File};

use hankboulder_program::cases::{cases, folder, Case};
use hankboulder_program::{kind, on_threads, Program, KINDS};

fn committed_text(case: &Case) -> String {
    fs::read_to_string(case.expected_path()).expect("a committed text")
}

#[test]
fn the_folder_is_what_write_cases_makes() {
    let mut names = BTreeSet::new();
    for case in cases() {
        let file = fs::read(case.summary_path()).expect("a committed file");
        assert_eq!(file, case.file, "{}", case.name);
        for path in [case.summary_path(), case.expected_path()] {
            let name = path.file_name().expect("a name").to_owned();
            assert!(names.insert(name), "{} stands twice", case.name);
        }
    }
    let entries = fs::read_dir(folder()).expect("the folder");
    let found: BTreeSet<_> = entries
        .map(|entry| entry.expect("an entry").file_name())
        .collect();
    assert_eq!(found, names);
}

#[test]
fn the_program_and_the_reference_print_the_committed_text() {
    let program = Program::under_test();
    on_threads(&cases(), |case| {
        let text = committed_text(case);
        program.expect(&case.file, &text);
        let input = File::open(case.summary_path()).expect("a committed file");
        let printed = program.print_from(input);
        assert_eq!(printed, text, "{}, from the disk", case.name);
    });
}

#[test]
fn the_name_of_a_refused_file_has_its_number() {
    for case in cases() {
        let number = case.name.strip_prefix("refused-").map(|name| &name[..2]);
        let number = number.map(|digits| digits.parse::<u8>().expect("two digits"));
        let text = committed_text(&case);
        match number {
            Some(number) => assert_eq!(text, format!("refused {number}\n")),
            None => assert!(!text.starts_with("refused"), "{}", case.name),
        }
    }
}

/// A lopsided file has the text of the file that it is mended to.
#[test]
fn the_text_of_a_lopsided_file_is_that_of_the_mended_one() {
    let pairs = [
        ("sides-of-order-2-low-lopsided", "sides-of-order-2"),
        ("sides-of-order-2-high-lopsided", "sides-of-order-2"),
        (
            "sides-of-order-3-half-at-the-ends-of-its-range",
            "sides-of-order-3",
        ),
        ("sides-of-order-4-each-pair-lopsided", "sides-of-order-4"),
        ("sides-of-order-8-each-pair-lopsided", "sides-of-order-8"),
        ("not-lopsided", "not-by-tried-vector"),
        ("undecided-lopsided", "undecided"),
    ];
    let all = cases();
    for (lopsided, mended) in pairs {
        let [one, other] = [lopsided, mended].map(|name| {
            let case = all.iter().find(|case| case.name == name);
            case.expect("a case of the name")
        });
        assert_ne!(one.file, other.file);
        assert_eq!(committed_text(one), committed_text(other), "{lopsided}");
    }
}

#[test]
fn the_committed_texts_have_every_kind_of_output_and_every_order() {
    let texts: Vec<String> = cases().iter().map(committed_text).collect();
    let kinds: BTreeSet<String> = texts.iter().map(|text| kind(text)).collect();
    assert!(kinds.iter().eq(BTreeSet::from(KINDS)), "{kinds:?}");
    let sides = |text: &String| text.lines().filter(|line| line.starts_with("side")).count();
    let orders: BTreeSet<usize> = texts.iter().map(sides).collect();
    assert!(orders.into_iter().eq(0..=8));
}
