//! Edge cases: what docs/RULES.md says of the ends of ranges, of roundings and of
//! the order in which things are asked.

use hankboulder_reference::cases::{bounds, numbers};
use hankboulder_reference::enclosure::{common_step, single_steps};
use hankboulder_reference::factoring::{
    ceiling_quotient, factor, floor_quotient, whole_root, Factoring,
};
use hankboulder_reference::problem::Table;
use hankboulder_reference::vectors::{solved_vector, tried_vectors};

use crate::support::{enclose, judge, quadratic_form};

/// Column, last row and entries of a thin matrix whose factoring stops.
fn stopped(matrix: &str) -> (usize, usize, Table) {
    match factor(&bounds(matrix, matrix).unwrap()) {
        Factoring::Ends(_) => panic!("factoring ends"),
        Factoring::Stops {
            column,
            last_row,
            partial,
        } => (column, last_row, partial),
    }
}

#[test]
fn quotients_are_rounded_down_or_up() {
    let down = [(7, 3), (6, 3), (1, 0), (0, 0), (-1, -1), (-6, -3), (-7, -4)];
    for (numerator, expected) in down {
        assert_eq!(floor_quotient(numerator, 2), expected);
    }
    let up = [(7, 4), (6, 3), (1, 1), (0, 0), (-1, 0), (-6, -3), (-7, -3)];
    for (numerator, expected) in up {
        assert_eq!(ceiling_quotient(numerator, 2), expected);
    }
}

#[test]
fn whole_roots_are_rounded_down() {
    let roots = [
        (0, 0),
        (1, 1),
        (2, 1),
        (3, 1),
        (4, 2),
        (8, 2),
        (9, 3),
        ((1 << 52) - 1, (1 << 26) - 1),
        (1 << 52, 1 << 26),
        ((1 << 52) + 1, 1 << 26),
    ];
    for (number, root) in roots {
        assert_eq!(whole_root(number), root, "root of {number}");
    }
}

#[test]
fn tried_vectors_in_order() {
    let order_1 = vec![vec![1], vec![-1]];
    assert_eq!(tried_vectors(1), order_1);
    let order_2 = [
        [0, 1],
        [0, -1],
        [1, 0],
        [1, 1],
        [1, -1],
        [-1, 0],
        [-1, 1],
        [-1, -1],
    ];
    assert_eq!(tried_vectors(2), order_2.map(|x| x.to_vec()).to_vec());
    // 3^8 − 1 of order 8; the first and the last.
    let order_8 = tried_vectors(8);
    assert_eq!(order_8.len(), 6560);
    assert_eq!(order_8[0], [0, 0, 0, 0, 0, 0, 0, 1]);
    assert_eq!(order_8[6559], [-1; 8]);
}

#[test]
fn the_first_tried_vector_that_shows_is_written() {
    // (0, 1, −1) and (1, −1, 0) both show; the one with 0 in front is first.
    let m = numbers("[1 1 0; 1 1 1; 0 1 1]");
    let judged = judge(3, &m, &m);
    assert_eq!((judged.code, judged.vector), (-1, vec![0, 1, -1]));
    // 0 or less: a least value of exactly 0 shows.
    let m = numbers("[0 0; 0 1]");
    assert_eq!(judge(2, &m, &m).vector, [1, 0]);
}

#[test]
fn a_half_in_a_solved_vector() {
    // r(1,1) = 2; T = 1 = r/2 gives −1, T = −1 = −r/2 gives 0.
    let solved = |r: i128| solved_vector(2, 1, &vec![vec![2, r], vec![0, 0]], 1);
    assert_eq!(solved(1), Some(vec![-1, 1]));
    assert_eq!(solved(-1), Some(vec![0, 1]));
    assert_eq!(solved(-2), Some(vec![1, 1]));
    assert_eq!(solved(0), Some(vec![0, 1]));
}

#[test]
fn solved_entries_of_exactly_two_to_the_15_stay() {
    for (b, x) in [(28672, -32768), (-28672, 32768)] {
        let m = [1, b, b, 1 << 20];
        let judged = judge(2, &m, &m);
        assert_eq!((judged.code, judged.vector), (-1, vec![x, 1]));
        assert!(quadratic_form(&m, &[x, 1]) <= 0);
        // One more passes 2^15, and no vector is left.
        let m = [1, b + b.signum(), b + b.signum(), 1 << 20];
        assert_eq!(judge(2, &m, &m).code, -2);
    }
}

#[test]
fn the_entry_of_the_stopping_row_is_kept_as_computed() {
    // 2^32·1000 = 61303·70061290 + 35130, and 70061290 > 2^26.
    let expected = (2, 1, vec![vec![61303, 70061290], vec![0, 0]]);
    assert_eq!(stopped("[1 1000; 1000 10000]"), expected);
    assert_eq!(61303_i128 * 70061290 + 35130, (1 << 32) * 1000);
}

#[test]
fn a_rest_of_exactly_0_stops() {
    let text = "[180 0 0 114; 0 294 0 30; 0 0 328 928; 114 30 928 2702]";
    let squares: [i128; 3] = [557056, 114688, 3358720].map(|r: i128| r * r);
    assert_eq!(squares.iter().sum::<i128>(), (1 << 32) * 2702 - (1 << 29));
    let (column, last_row, partial) = stopped(text);
    assert_eq!((column, last_row), (4, 3));
    assert_eq!([0, 1, 2].map(|i| partial[i][3]), [557056, 114688, 3358720]);
}

#[test]
fn a_rest_of_exactly_1_does_not_stop() {
    let text = "[50 0 0 0 205; 0 60 0 0 178; 0 0 70 0 331; 0 0 0 80 205; \
                205 178 331 205 3466]";
    let column = [1902361, 1507570, 2595061, 1503241];
    let squares = column.map(|r: i64| i128::from(r * r));
    let h = (1 << 32) * 3466 - (1 << 29);
    assert_eq!(h - squares.iter().sum::<i128>(), 1);
    let m = numbers(text);
    let judged = judge(5, &m, &m);
    assert_eq!(judged.code, 0);
    let last: Vec<i64> = judged.factor.chunks(5).map(|row| row[4]).collect();
    assert_eq!(last, [&column[..], &[1]].concat());
}

#[test]
fn factoring_stops_with_row_0_where_h_is_below_1() {
    let m = "[5 1 0; 1 0 0; 0 0 5]";
    let (column, last_row, partial) = stopped(m);
    assert_eq!((column, last_row), (2, 0));
    assert_eq!(partial[1], [0, 0, 0]);
    assert_eq!(solved_vector(2, 0, &partial, 1), Some(vec![0, 1, 0]));
    assert_eq!(solved_vector(2, 0, &partial, 64), Some(vec![0, 64, 0]));
}

#[test]
fn rows_below_the_last_row_are_0_in_a_solved_vector() {
    let m = "[1 0 1000; 0 1 5; 1000 5 10000]";
    let (column, last_row, partial) = stopped(m);
    assert_eq!((column, last_row), (3, 1));
    let solved = solved_vector(column, last_row, &partial, 1);
    assert_eq!(solved, Some(vec![-1143, 0, 1]));
}

#[test]
fn the_scale_64_shows_where_the_scale_1_does_not() {
    // 100·24² − 2·37·24·64 + 13·64² = −2816; (0, 1) gives 13.
    let m = [100, 37, 37, 13];
    let judged = judge(2, &m, &m);
    assert_eq!((judged.code, judged.vector), (-1, vec![-24, 64]));
    assert_eq!(quadratic_form(&m, &[-24, 64]), -2816);
}

#[test]
fn the_scale_1_giving_none_does_not_stop_the_scale_64() {
    let text = "[2 181 0 0; 181 17473 4 -2; 0 4 4000 -2000; 0 -2 -2000 999]";
    let (column, last_row, partial) = stopped(text);
    assert_eq!((column, last_row), (4, 3));
    assert_eq!(solved_vector(column, last_row, &partial, 1), None);
    let m = numbers(text);
    let judged = judge(4, &m, &m);
    assert_eq!((judged.code, judged.vector), (-1, vec![0, 0, 32, 64]));
    assert_eq!(quadratic_form(&m, &[0, 0, 32, 64]), -4096);
}

#[test]
fn a_single_step_may_be_0_where_the_common_step_is_not() {
    let m = "[609851 712448 1296; 712448 834162 1529; 1296 1529 4]";
    let bounds = bounds(m, m).unwrap();
    assert_eq!(common_step(&bounds), 1);
    assert_eq!(single_steps(&bounds)[2], 0);
    // B = 9, s = 3: Y(3) = 3 is taken for Z(3).
    let m = numbers(m);
    let (code, sides) = enclose(&m, &m, &[0; 3], 9, &[0; 3]);
    assert_eq!((code, &sides[4..]), (0, [-3, 3].as_slice()));
}

#[test]
fn steps_of_small_matrices() {
    let steps = |low: &str, high: &str| {
        let bounds = bounds(low, high).unwrap();
        (common_step(&bounds), single_steps(&bounds))
    };
    assert_eq!(steps("[4]", "[4]"), (3, vec![3]));
    assert_eq!(steps("[1]", "[1]"), (0, vec![0]));
    assert_eq!(steps("[1048576]", "[1048576]"), (1048575, vec![1048575]));
    assert_eq!(steps("[4]", "[6]"), (3, vec![3]));
    assert_eq!(steps("[9 0; 0 5]", "[9 0; 0 5]"), (4, vec![8, 4]));
    assert_eq!(steps("[-1]", "[7]"), (0, vec![0]));
}

#[test]
fn the_gradient_bound_uses_both_bounds_on_the_diagonal() {
    // t = 3, g = 6, D = −4, B = 8, Y = 2 + 2, B2 = 44, Z = 4.
    assert_eq!(enclose(&[4], &[6], &[0], 0, &[1]), (0, vec![-3, 5]));
}

#[test]
fn the_squares_of_the_gradient_have_one_quotient() {
    // t = 3, g = (1, 1), B = D + 1.
    let m = [4, 0, 0, 4];
    let boxed = |limit: i64| enclose(&m, &m, &[1, 1], limit, &[0, 0]);
    // D = −1: B = 0, Y = 1, B2 = 3, Z = 1.
    assert_eq!(boxed(-1), (0, vec![-1, 1, -1, 1]));
    assert_eq!(boxed(-2).0, -1);
}

#[test]
fn the_smaller_of_both_radii_is_taken() {
    // [9 0; 0 5], α = 100: t = 4, Y = 5; t(1) = 8, Z(1) = 4; t(2) = 4, Z(2) = 5.
    let m = [9, 0, 0, 5];
    let boxed = enclose(&m, &m, &[0, 0], 100, &[7, -7]);
    // At c = (7, −7): g = (63, 35), D = 100 − 686, Σg² = 5194.
    // B = −586 + 1299 = 713, s = 14, Y = (30, 23).
    // B2 = −586 + 2·(63·30 + 35·23) = 4804, Z = (25, 35).
    assert_eq!(boxed, (0, vec![-18, 32, -30, 16]));
    let centred = enclose(&m, &m, &[0, 0], 100, &[0, 0]);
    assert_eq!(centred, (0, vec![-4, 4, -5, 5]));
}

#[test]
fn order_1_is_never_undecided() {
    for low in -3..=3 {
        for width in 0..=3 {
            let code = judge(1, &[low], &[low + width]).code;
            assert_eq!(code, if low >= 1 { 0 } else { -1 });
        }
    }
}
