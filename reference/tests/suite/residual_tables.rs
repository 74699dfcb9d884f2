//! The residual by itself (R7.5, R7.6), which C has no entry for: beside what
//! the example in Rattle prints.

use hankboulder_reference::refusal::Refusal;
use hankboulder_reference::residual::residual_tables;

const LOW: [i64; 4] = [2, 1, 1, 2];
const HIGH: [i64; 4] = [3, 1, 1, 3];
const FACTOR: [i64; 4] = [89738, 47861, 0, 75910];
const TURNED: [i64; 4] = [89738, 0, 47861, 75910];

/// What the example prints of a call with these two lent tables: the number of
/// a refusal, which keeps both, or 0 and both tables of the residual.
fn printed(factor: &[i64], lent: [&[i64]; 2]) -> String {
    let called = residual_tables(2, &LOW, &HIGH, factor, lent.map(<[i64]>::len));
    let (number, left) = match called {
        Ok(tables) => (0, tables.map(|table| words(table.iter().flatten()))),
        Err(refusal) => (refusal.number(), lent.map(|table| words(table.iter()))),
    };
    format!("residual {number}\nlow {}\nhigh {}\n", left[0], left[1])
}

fn words(numbers: impl Iterator<Item = impl ToString>) -> String {
    let words: Vec<String> = numbers.map(|number| number.to_string()).collect();
    words.join(" ")
}

/// All that the example prints.
fn stdout() -> String {
    let path = concat!(env!("CARGO_MANIFEST_DIR"), "/../crates/example/stdout");
    std::fs::read_to_string(path).unwrap()
}

#[test]
fn the_example_prints_these_calls() {
    let wanted = [
        printed(&TURNED, [&[5; 4], &[5; 4]]),
        printed(&FACTOR, [&[5; 4], &[5; 4]]),
        printed(&FACTOR, [&[5; 4], &[7; 2]]),
    ]
    .concat();
    assert!(stdout().contains(&wanted), "{wanted}");
}

/// A factor of order 8 whose entries are at the ends of their range, and the
/// widest bounds: the example prints four entries of each table.
#[test]
fn the_example_prints_the_widest_calls() {
    let (low, high) = ([-(1 << 20); 64], [1 << 20; 64]);
    let mut factor = [0; 64];
    for i in 0..8 {
        factor[8 * i + 7] = -(1 << 26);
        factor[9 * i] = 1 << 26;
    }
    let called = |n| residual_tables(n, &low, &high, &factor, [64, 64]);
    assert_eq!(called(9).unwrap_err(), Refusal::Order);
    let [from_low, from_high] = called(8).unwrap().map(|table| {
        words(
            [(0, 0), (0, 7), (7, 6), (7, 7)]
                .iter()
                .map(|&(i, j)| table[i][j]),
        )
    });
    let wanted = format!(
        "residual 1\nlow 5 5 5 5\nhigh 7 7 7 7\nresidual 0\nlow {from_low}\nhigh {from_high}\n"
    );
    assert!(stdout().contains(&wanted), "{wanted}");
}

#[test]
fn refusals_come_in_their_order() {
    let lopsided = [2, 1, 0, 2];
    let refused = |n, (low, high): (&[i64], &[i64]), factor: &[i64], lent| {
        residual_tables(n, low, high, factor, lent).unwrap_err()
    };
    // Nothing is at least 1 and at most 0.
    let parted = (&lopsided[..], &lopsided[..]);
    assert_eq!(refused(9, parted, &TURNED, [3, 4]), Refusal::Order);
    assert_eq!(refused(2, parted, &TURNED, [3, 4]), Refusal::Length);
    assert_eq!(refused(2, parted, &TURNED, [4, 5]), Refusal::Length);
    assert_eq!(refused(2, parted, &TURNED, [4, 4]), Refusal::Lopsided);
    assert_eq!(refused(2, (&LOW, &HIGH), &TURNED, [4, 4]), Refusal::Factor);
    let mended_away = (&lopsided[..], &HIGH[..]);
    assert_eq!(refused(2, mended_away, &TURNED, [4, 4]), Refusal::Factor);
}

#[test]
fn the_residual_of_lopsided_tables_is_that_of_the_mended_ones() {
    let residual = |low: &[i64], high: &[i64]| residual_tables(2, low, high, &FACTOR, [4, 4]);
    let mended = residual(&LOW, &HIGH);
    assert!(mended.is_ok());
    for (low, high) in [
        ([2, 0, 1, 2], HIGH),
        (LOW, [3, 1, 5, 3]),
        ([2, 1, -7, 2], [3, 1, 9, 3]),
        ([2, 1, -7, 2], [3, 9, 1, 3]),
    ] {
        assert_eq!(residual(&low, &high), mended);
    }
}
