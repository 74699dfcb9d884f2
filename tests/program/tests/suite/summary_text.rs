//! The script `examples/summary.py` and the examples: files from text and back.

use std::fs;
use std::io::Write;
use std::path::{Path, PathBuf};
use std::process::{Command, Output, Stdio};

use hankboulder_program::cases::cases;
use hankboulder_program::Program;
use hankboulder_reference::cases::bytes;
use hankboulder_reference::generate::{Generator, KINDS};
use hankboulder_reference::program::output;
use hankboulder_reference::summary::read_problem;
use hankboulder_reference::writer::file_of;

fn example(name: &str) -> PathBuf {
    let folder = PathBuf::from(env!("CARGO_MANIFEST_DIR")).join("../../examples");
    folder.join(name)
}

/// What a command of the script did.
#[derive(Clone, Debug, PartialEq, Eq)]
struct Done {
    passed: bool,
    printed: Vec<u8>,
    message: String,
}

impl Done {
    fn new(status: i32, printed: Vec<u8>, message: Vec<u8>) -> Done {
        assert!([0, 1].contains(&status), "status {status}");
        let message = String::from_utf8(message).expect("a text");
        Done {
            passed: status == 0,
            printed,
            message,
        }
    }

    fn text(&self) -> &str {
        std::str::from_utf8(&self.printed).expect("a text")
    }
}

/// A Python script run on an input.
fn python(script: PathBuf, command: &str, input: &[u8]) -> Output {
    let mut child = Command::new("python3")
        .arg(script)
        .arg(command)
        .stdin(Stdio::piped())
        .stdout(Stdio::piped())
        .stderr(Stdio::piped())
        .spawn()
        .expect("python3 is there");
    let mut pipe = child.stdin.take().expect("a pipe");
    pipe.write_all(input).expect("the script reads all");
    drop(pipe);
    child.wait_with_output().expect("the script ends")
}

/// A command run as a person runs it.
fn run(command: &str, input: &[u8]) -> Done {
    let done = python(example("summary.py"), command, input);
    let status = done.status.code().expect("the script ends by itself");
    Done::new(status, done.stdout, done.stderr)
}

/// A command run on many inputs in one process: starting Python takes long.
fn run_many<T: AsRef<[u8]>>(command: &str, inputs: &[T]) -> Vec<Done> {
    let script = Path::new(env!("CARGO_MANIFEST_DIR")).join("tests/suite/many.py");
    let length = |part: &[u8]| u32::try_from(part.len()).expect("4 bytes").to_le_bytes();
    let joined = inputs.iter().map(T::as_ref);
    let joined: Vec<u8> = joined
        .flat_map(|input| [&length(input), input].concat())
        .collect();
    let done = python(script, command, &joined);
    let message = String::from_utf8_lossy(&done.stderr);
    assert!(done.status.success(), "{message}");
    let mut rest = &done.stdout[..];
    let mut part = || {
        let (length, after) = rest.split_first_chunk().expect("a length");
        let (part, after) = after.split_at(u32::from_le_bytes(*length) as usize);
        rest = after;
        part.to_vec()
    };
    let done = |_: &T| Done::new(part()[0].into(), part(), part());
    inputs.iter().map(done).collect()
}

/// The lines of a text without its comments.
fn without_comments(text: &str) -> String {
    let lines = text
        .lines()
        .map(|line| line.split('#').next().expect("a part"));
    let lines = lines.map(str::trim_end).filter(|line| !line.is_empty());
    lines.map(|line| format!("{line}\n")).collect()
}

#[test]
fn the_examples_belong_together() {
    for name in ["ellipse", "saddle", "ride", "halves"] {
        let read = |end: &str| fs::read(example(&format!("{name}.{end}"))).expect("an example");
        let read_text = |end: &str| String::from_utf8(read(end)).expect("a text");
        let summary = read("summary");
        assert_eq!(run("make", &read("txt")).printed, summary, "{name}");
        let shown = run("show", &summary);
        assert_eq!(shown.text(), without_comments(&read_text("txt")));
        assert_eq!(run("hex", &summary).text(), read_text("hex"));
        Program::under_test().expect(&summary, &read_text("expected"));
    }
}

/// The halves of `halves` are mended to those of `ellipse`; the other examples have none to
/// mend.
#[test]
fn the_examples_are_mended() {
    let summary = |name: &str| fs::read(example(&format!("{name}.summary"))).expect("an example");
    for (name, mended) in [
        ("halves", "ellipse"),
        ("ellipse", "ellipse"),
        ("saddle", "saddle"),
        ("ride", "ride"),
    ] {
        let done = run("mend", &summary(name));
        assert!(done.passed && done.message.is_empty(), "{done:?}");
        assert_eq!(done.printed, summary(mended), "{name}");
    }
    let [halves, ellipse] = ["halves", "ellipse"].map(|name| output(&summary(name)));
    assert_eq!(halves, ellipse);
}

/// A file that is named is read as one on standard input is; a name that is none is
/// said.
#[test]
fn a_file_may_be_named() {
    let named = |command: &str, name: &str| {
        let done = Command::new("python3")
            .arg(example("summary.py"))
            .args([command, name])
            .stdin(Stdio::null())
            .output()
            .expect("python3 is there");
        let status = done.status.code().expect("the script ends by itself");
        Done::new(status, done.stdout, done.stderr)
    };
    let path = |end: &str| example(&format!("ellipse.{end}")).display().to_string();
    for (command, end) in [
        ("show", "summary"),
        ("hex", "summary"),
        ("mend", "summary"),
        ("make", "txt"),
    ] {
        let given = fs::read(path(end)).expect("an example");
        assert_eq!(named(command, &path(end)), run(command, &given));
        let missing = named(command, "no such file");
        assert!(!missing.passed && missing.printed.is_empty());
        assert_eq!(missing.message, "no such file: No such file or directory\n");
    }
}

/// The number of a file's refusal.
fn refusal(file: &[u8]) -> Option<u8> {
    let text = output(file);
    let number = text.strip_prefix("refused ")?;
    Some(number.trim_end().parse().expect("a number"))
}

/// Whether a file has a problem, though its numbers may be refused.
fn has_problem(file: &[u8]) -> bool {
    refusal(file).is_none_or(|number| [3, 4, 5, 16].contains(&number))
}

/// Fails where a file is not shown, or listed, as it should be: a damaged file is
/// not shown, and the message has the judge's number. The listing has the bytes
/// of every file.
fn expect_shown(file: &[u8], shown: &Done, listed: &Done) {
    let message = match refusal(file) {
        None => String::new(),
        Some(number) if has_problem(file) => {
            format!("note: the judge will answer refused {number}, ")
        }
        Some(number) => format!("refused {number}, "),
    };
    assert!(shown.message.starts_with(&message), "{shown:?}");
    assert_eq!(shown.message.is_empty(), message.is_empty(), "{shown:?}");
    assert_eq!(shown.passed, has_problem(file), "{shown:?}");
    assert_eq!(shown.printed.is_empty(), !shown.passed, "{shown:?}");
    assert_eq!(listed.passed, shown.passed, "{listed:?}");
    assert_eq!(listed.message, shown.message);
    let columns = listed.text().lines().map(|line| line.split("  ").next());
    let hex: String = columns.map(|column| column.expect("a column")).collect();
    assert_eq!(bytes(&hex), file);
}

/// Fails where a file is not mended as it should be: to the file of its mended problem,
/// and one that the judge refuses not at all, with the judge's number.
fn expect_mended(file: &[u8], mended: &Done) {
    match read_problem(file) {
        Ok(problem) => {
            assert_eq!(mended.printed, file_of(&problem));
            assert!(mended.passed && mended.message.is_empty(), "{mended:?}");
        }
        Err(refusal) => {
            let message = format!("refused {}, {}: ", refusal.number(), refusal.word());
            assert!(mended.message.starts_with(&message), "{mended:?}");
            assert!(!mended.passed && mended.printed.is_empty(), "{mended:?}");
        }
    }
}

/// Shows, lists and mends files, and makes those that have a problem again.
fn expect_round_trips(files: &[Vec<u8>]) {
    let shown = run_many("show", files);
    let listed = run_many("hex", files);
    for (file, (shown, listed)) in files.iter().zip(shown.iter().zip(&listed)) {
        expect_shown(file, shown, listed);
    }
    for (file, mended) in files.iter().zip(run_many("mend", files)) {
        expect_mended(file, &mended);
    }
    let shown: Vec<&Done> = shown.iter().filter(|shown| shown.passed).collect();
    let texts: Vec<&[u8]> = shown.iter().map(|shown| shown.printed.as_slice()).collect();
    let made = run_many("make", &texts);
    let problems = files.iter().filter(|file| has_problem(file));
    for (file, (shown, made)) in problems.zip(shown.iter().zip(&made)) {
        assert!(made.passed);
        assert_eq!(made.message, shown.message);
        assert_eq!(made.printed, **file);
    }
    println!("{} files, {} made again", files.len(), made.len());
}

#[test]
fn committed_files_are_shown_and_made_again() {
    let files: Vec<Vec<u8>> = cases().into_iter().map(|case| case.file).collect();
    expect_round_trips(&files);
}

#[test]
fn generated_files_are_shown_and_made_again() {
    let mut generator = Generator::new(62);
    let mut files: Vec<Vec<u8>> = (0..2000).map(|_| generator.summary_file()).collect();
    for order in 1..=8 {
        for kind in KINDS {
            files.push(generator.problem(kind, order, order % 2 == 0).file());
        }
    }
    // Tables of order 0
    files.push(bytes("01 0100 00, 02 0000, 03 0000"));
    expect_round_trips(&files);
}

#[test]
fn the_parts_of_a_text_may_stand_in_any_order() {
    let text =
        "centre 0 0\nlimit 7 # of the right side\n\n  matrix # both\n 4 1\n\t1 4\nlinear 1 -1";
    let made = run("make", format!("order 2\r\n{text}").as_bytes());
    assert_eq!(made.message, "");
    let shown = run("show", &made.printed);
    let expected = "order 2\nmatrix\n4 1\n1 4\nlinear 1 -1\nlimit 7\ncentre 0 0\n";
    assert_eq!(shown.text(), expected);
    let ends = text.replace("linear 1 -1", "linear_high 1 0\nlinear_low 1 -1");
    let made = run("make", format!("order 2\n{ends}").as_bytes());
    assert_eq!(made.message, "");
    let shown = run("show", &made.printed);
    let expected = expected.replace("linear 1 -1", "linear_low 1 -1\nlinear_high 1 0");
    assert_eq!(shown.text(), expected);
}

/// Texts with a fault, and the message.
const WRONG_TEXTS: [(&str, &str); 22] = [
    ("order 1\nlimit 123456789012345678901\n", "line 2: a number of 21 places fits no field of the file"),
        ("", "line 1: the text ends without 'order' and 'low' and 'high' and 'linear_low' and 'limit' and 'centre' and 'linear_high'"),
        ("order 2\n# nothing\n", "line 2: the text ends without 'low' and 'high' and 'linear_low' and 'limit' and 'centre' and 'linear_high'"),
        ("limit 1\norder 1\n", "line 1: 'order' has to come before 'limit'"),
        ("order 9\n", "line 1: the order is from 1 to 8, not 9"),
        ("order\n", "line 1: 'order' has 1 number, and here are 0"),
        ("order 2 2\n", "line 1: 'order' has 1 number, and here are 2"),
        ("order two\n", "line 1: 'two' is not a whole number"),
        ("order 1\n\nlimit 1.5\n", "line 3: '1.5' is not a whole number"),
        ("order 1\nlimits 1\n", "line 2: 'limits' is none of order, low, high, linear_low, limit, centre, linear_high, matrix and linear"),
        ("order 2\nlow\n4 1\n# here\n1\n", "line 5: row 2 of 'low' has 2 numbers, and here are 1"),
        ("order 2\nlow 4 1\n1 4\n", "line 2: the rows of 'low' start in the next line"),
        ("order 2\nlow\n4 1\nhigh\n4 1\n1 4\n", "line 2: 'low' has 2 rows, but 'high' follows in line 4 after 1"),
        ("order 2\nmatrix\n4 1\n", "line 2: 'matrix' has 2 rows, but the text ends after 1"),
        ("order 1\nlow\n4\nmatrix\n4\n", "line 4: 'low' is given a second time"),
        ("order 1\norder 1\n", "line 2: 'order' is given a second time"),
        ("order 1\nlow\n2147483648\n", "line 3: 2147483648 does not fit the 4 bytes that the file has for it"),
        ("order 1\nlimit -9223372036854775809\n", "line 2: -9223372036854775809 does not fit the 8 bytes that the file has for it"),
        ("order 2\nlinear 1\n", "line 2: 'linear' has 2 numbers, and here are 1"),
        ("order 2\nlinear_high 1 2 3\n", "line 2: 'linear_high' has 2 numbers, and here are 3"),
        ("order 1\nlinear_high 1\nlinear 1\n", "line 3: 'linear_high' is given a second time"),
        ("order 1\nmatrix\n4\nlinear_low 1\nlimit 0\ncentre 0\n", "line 6: the text ends without 'linear_high'"),
];

#[test]
fn what_is_wrong_with_a_text_is_said_with_its_line() {
    let texts = WRONG_TEXTS.map(|(text, _)| text);
    for ((text, message), made) in WRONG_TEXTS.iter().zip(run_many("make", &texts)) {
        assert_eq!(made.message.trim_end(), *message);
        assert!(!made.passed && made.printed.is_empty(), "{text}");
    }
}
