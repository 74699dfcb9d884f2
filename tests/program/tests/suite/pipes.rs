//! Standard input that comes slowly, in pieces, or in greater numbers of bytes
//! than a file may have.

use std::fs::File;
use std::io::Write;
use std::thread::sleep;
use std::time::Duration;

use hankboulder_program::problem_file::{definite, thin};
use hankboulder_program::Program;
use hankboulder_reference::program::output;
use hankboulder_reference::summary::MAX_FILE;

const PAUSE: Duration = Duration::from_millis(1);

/// What the program prints for a file that is written in pieces, with a pause
/// after each. The sizes of the pieces are taken in turn.
fn print_in_pieces(file: &[u8], sizes: &'static [usize], pause: Duration) -> String {
    let file = file.to_vec();
    Program::under_test().print_fed(move |pipe| {
        let mut rest = &file[..];
        for size in sizes.iter().cycle() {
            let (piece, after) = rest.split_at(rest.len().min(*size));
            pipe.write_all(piece)?;
            pipe.flush()?;
            sleep(pause);
            rest = after;
            if rest.is_empty() {
                break;
            }
        }
        Ok(())
    })
}

fn expect_in_pieces(file: &[u8], sizes: &'static [usize], pause: Duration) {
    let printed = print_in_pieces(file, sizes, pause);
    assert_eq!(printed, output(file), "in pieces of {sizes:?} bytes");
}

#[test]
fn a_file_that_comes_in_pieces() {
    let case_p = thin("[4]", &[-8], 0, &[2]).file();
    expect_in_pieces(&case_p, &[1], PAUSE);
    let text = "definite\nrow 129007\nover 537063135\nside -1 5\n";
    assert_eq!(output(&case_p), text);
    let order_8 = definite(8).file();
    expect_in_pieces(&order_8, &[1], Duration::ZERO);
    expect_in_pieces(&order_8, &[1, 2, 3, 5, 7], PAUSE);
    expect_in_pieces(&order_8, &[3, 1], PAUSE);
    expect_in_pieces(&order_8, &[512, 100], 20 * PAUSE);
    // The first byte, a pause, and all the others.
    expect_in_pieces(&order_8, &[1, MAX_FILE], 20 * PAUSE);
}

#[test]
fn a_refused_file_that_comes_in_pieces() {
    let good = definite(3).file();
    for length in [1, 2, 3, 4, good.len() - 1] {
        expect_in_pieces(&good[..length], &[1, 2], PAUSE);
    }
    for length in [MAX_FILE - 1, MAX_FILE, MAX_FILE + 1] {
        let mut long = good.clone();
        long.resize(length, 6);
        expect_in_pieces(&long, &[100], PAUSE);
        expect_in_pieces(&long, &[MAX_FILE - 1, 1, 1], 10 * PAUSE);
        expect_in_pieces(&long, &[MAX_FILE, 1], 10 * PAUSE);
    }
}

#[test]
fn no_bytes_at_all() {
    let program = Program::under_test();
    program.expect(&[], "refused 13\n");
    let late = program.print_fed(|_| {
        sleep(20 * PAUSE);
        Ok(())
    });
    assert_eq!(late, "refused 13\n");
    let nothing = File::open("/dev/null").expect("a Unix system");
    assert_eq!(program.print_from(nothing), "refused 13\n");
}

#[test]
fn bytes_without_end_are_15() {
    let program = Program::under_test();
    let good = definite(8).file();
    for length in [
        MAX_FILE + 1,
        MAX_FILE + 2,
        8192,
        1 << 16,
        (1 << 16) + 1,
        1 << 22,
    ] {
        let mut long = good.clone();
        long.resize(length, 1);
        program.expect(&long, "refused 15\n");
    }
    // A piece after the 4097th byte, when the program may have ended.
    let mut long = good;
    long.resize(3 * MAX_FILE, 1);
    expect_in_pieces(&long, &[MAX_FILE + 1], 20 * PAUSE);
}
