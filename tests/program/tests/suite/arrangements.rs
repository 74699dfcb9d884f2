//! Tags rise through a file, and every other order of its fields is refused by 19
//! (R16.3).

use hankboulder_program::problem_file::{definite, Fields};
use hankboulder_program::Program;
use hankboulder_reference::program::output;
use hankboulder_reference::summary::file_of_fields;

use crate::support::expect_all_refused;

/// Every order of the fields.
fn arrangements(fields: &Fields) -> Vec<Fields> {
    if fields.is_empty() {
        return vec![vec![]];
    }
    let led_by = |place: usize| {
        let mut others = fields.clone();
        let first = others.remove(place);
        let rests = arrangements(&others).into_iter();
        rests.map(move |rest| [vec![first.clone()], rest].concat())
    };
    (0..fields.len()).flat_map(led_by).collect()
}

#[test]
fn one_problem_with_its_fields_in_every_order() {
    let problem = definite(3);
    let text = output(&problem.file());
    let sides = "side -14 12\nside -13 13\nside -12 14\n";
    assert!(
        text.starts_with("definite\n") && text.ends_with(sides),
        "{text}"
    );
    let rising = problem.fields();
    Program::under_test().expect(&file_of_fields(&rising), &text);
    let all = arrangements(&rising).into_iter();
    let others: Vec<Fields> = all.filter(|fields| *fields != rising).collect();
    assert_eq!(others.len(), 5039);
    expect_all_refused(others.iter().map(|fields| file_of_fields(fields)), 19);
}

#[test]
fn each_pair_of_fields_exchanged_at_every_order() {
    let mut files = vec![];
    for order in 1..=8 {
        let rising = definite(order).fields();
        for (first, second) in (1..7).flat_map(|second| (0..second).map(move |f| (f, second))) {
            let mut fields = rising.clone();
            fields.swap(first, second);
            files.push(file_of_fields(&fields));
            // Just the two of them, and the tags alone exchanged
            files.push(file_of_fields(&[
                fields[first].clone(),
                fields[second].clone(),
            ]));
            let mut fields = rising.clone();
            (fields[first].0, fields[second].0) = (rising[second].0, rising[first].0);
            files.push(file_of_fields(&fields));
        }
    }
    expect_all_refused(files, 19);
}
