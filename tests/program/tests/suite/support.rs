//! Refused files, and where the line `over` stands.

use hankboulder_program::{on_threads, Program};

/// A file and the refusal that is expected.
pub type Refused = (Vec<u8>, i64);

/// Fails where the program or the reference does not refuse a file by the number.
pub fn expect_refused(files: &[Refused]) {
    let program = Program::under_test();
    println!("{} files", files.len());
    on_threads(files, |(file, number)| {
        program.expect(file, &format!("refused {number}\n"));
    });
}

/// The same of files with one refusal.
pub fn expect_all_refused(files: impl IntoIterator<Item = Vec<u8>>, number: i64) {
    let files: Vec<Refused> = files.into_iter().map(|file| (file, number)).collect();
    expect_refused(&files);
}

/// Whether a text has a line `over`. Fails where one stands elsewhere than behind the rows
/// of `definite` and before the lines of the box, where it has anything but one number of
/// 0 or more, and where `definite` has none.
pub fn expect_over_in_place(text: &str) -> bool {
    let lines: Vec<&str> = text.lines().collect();
    let has_word = |line: &&&str, word: &str| line.split(' ').next() == Some(word);
    let count = |word: &str| lines.iter().filter(|line| has_word(line, word)).count();
    if lines[0] != "definite" {
        assert_eq!(count("over"), 0, "{text}");
        return false;
    }
    let rows = count("row");
    assert!(lines[1..=rows].iter().all(|line| has_word(&line, "row")));
    let number = lines[1 + rows].strip_prefix("over ").expect("an over line");
    let parsed: u64 = number.parse().expect("a number of 0 or more");
    assert_eq!(parsed.to_string(), number);
    assert_eq!(count("over"), 1, "{text}");
    let behind = &lines[2 + rows..];
    let sides = count("side");
    assert!(behind.len() == sides.max(1) && (sides == 0 || sides == rows));
    let of_box = |line: &&str| ["side", "empty", "box"].contains(&line.split(' ').next().unwrap());
    assert!(behind.iter().all(of_box), "{text}");
    true
}
