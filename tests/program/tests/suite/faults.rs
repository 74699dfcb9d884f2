//! Faults in every field and every place of a file, alone and in pairs, so that
//! the order of the file's checks shows.

use std::cmp::Ordering;

use hankboulder_program::problem_file::definite;
use hankboulder_program::Program;
use hankboulder_reference::program::output;
use hankboulder_reference::summary::{
    file_of_fields, MAX_FILE, TAG_HIGH, TAG_LINEAR_HIGH, TAG_LINEAR_LOW, TAG_LOW, TAG_ORDER,
};

use crate::drafts::Fault::{
    self, Absent, Crossed, Cut, Lopsided, Order, PastEnd, Range, Reversed, Size, Tag, Twice,
};
use crate::drafts::{arranged, beyond, faulty, put, written, FieldFault};
use crate::support::{expect_refused, Refused};

/// How many fields a file has.
const FIELDS: usize = 7;

/// Faults of the field of a tag: of each kind one.
fn kinds_of_fault(tag: u8) -> Vec<Fault> {
    let mut faults = vec![Cut(1), PastEnd(1), Tag(8), Twice, Absent, Size(1)];
    if tag == TAG_ORDER {
        faults.push(Order(9));
    } else {
        faults.push(Range(beyond(tag)[1]));
    }
    if [TAG_LOW, TAG_HIGH].contains(&tag) {
        faults.extend([Crossed, Lopsided]);
    }
    if [TAG_LINEAR_LOW, TAG_LINEAR_HIGH].contains(&tag) {
        faults.push(Reversed);
    }
    faults
}

/// Such faults of every tag.
fn faults_of_each_kind() -> impl Iterator<Item = FieldFault> {
    let faults = |tag| {
        kinds_of_fault(tag)
            .into_iter()
            .map(move |fault| (tag, fault))
    };
    (TAG_ORDER..=TAG_LINEAR_HIGH).flat_map(faults)
}

/// Faults of the field of a tag: many of each kind.
fn faults_of(tag: u8) -> Vec<Fault> {
    let mut faults = kinds_of_fault(tag);
    faults.extend([Cut(2), PastEnd(2), PastEnd(256), PastEnd(0xFFFF)]);
    faults.extend([0, 9, 0x10, 0x80 | tag, 0xFF].map(Tag));
    faults.extend([-1, -1000, 2, 4, 8, 256].map(Size));
    if tag == TAG_ORDER {
        faults.extend([0, 10, 0x82, 255].map(Order));
    }
    faults.extend(beyond(tag).into_iter().map(Range));
    faults
}

/// Every tag with every place.
fn tags_and_places() -> impl Iterator<Item = (u8, usize)> {
    (TAG_ORDER..=TAG_LINEAR_HIGH).flat_map(|tag| (0..FIELDS).map(move |place| (tag, place)))
}

#[test]
fn every_fault_of_every_field_in_every_place() {
    let mut files = vec![];
    for ((tag, place), order) in tags_and_places().flat_map(|at| [(at, 2), (at, 8)]) {
        for fault in faults_of(tag) {
            let drafts = arranged(order, &[(tag, place)]);
            files.push(faulty(drafts, &[(tag, fault)]));
        }
    }
    expect_refused(&files);
}

/// Every two faults.
fn pairs() -> impl Iterator<Item = (FieldFault, FieldFault)> {
    faults_of_each_kind().flat_map(|fault| faults_of_each_kind().map(move |other| (fault, other)))
}

#[test]
fn two_faults_of_two_fields_in_both_orders() {
    let mut files = vec![];
    for (first, second) in pairs().filter(|(first, second)| first.0 != second.0) {
        files.push(faulty(arranged(2, &[]), &[first, second]));
        for places in [(0, 1), (1, 4), (5, 6)] {
            let drafts = arranged(2, &[(first.0, places.0), (second.0, places.1)]);
            files.push(faulty(drafts, &[first, second]));
        }
    }
    expect_refused(&files);
}

#[test]
fn two_faults_of_one_field() {
    let mut files = vec![];
    let pairs = pairs().filter(|(first, second)| first.0 == second.0);
    // A field that is left out has no other fault.
    let pairs = pairs.filter(|(first, second)| ![first.1, second.1].contains(&Absent));
    for (first, second) in pairs.filter(|(first, second)| first.1.number() < second.1.number()) {
        for place in 0..FIELDS {
            files.push(faulty(arranged(2, &[(first.0, place)]), &[first, second]));
        }
    }
    expect_refused(&files);
}

#[test]
fn a_field_with_the_tag_of_an_earlier_one_is_12_unless_a_tag_falls_before() {
    let good = definite(2).fields();
    let mut files = vec![];
    for turn in 0..FIELDS {
        for (earlier, later) in (1..FIELDS).flat_map(|later| (0..later).map(move |e| (e, later))) {
            let mut fields = good.clone();
            fields.rotate_left(turn);
            let first = (FIELDS - turn) % FIELDS;
            let falls_before = |place: usize| (1..place).contains(&first);
            fields[later].0 = fields[earlier].0;
            let number = if falls_before(later) { 19 } else { 12 };
            files.push((file_of_fields(&fields), number));
            // A bad tag that stands twice is 11.
            fields[earlier].0 = 0x47;
            fields[later].0 = 0x47;
            let number = if falls_before(earlier) { 19 } else { 11 };
            files.push((file_of_fields(&fields), number));
        }
    }
    expect_refused(&files);
}

#[test]
fn a_length_that_reaches_the_end_is_not_cut() {
    let program = Program::under_test();
    let good = output(&definite(2).file());
    for (tag, place) in tags_and_places() {
        let mut drafts = arranged(2, &[(tag, place)]);
        put(&mut drafts, (tag, PastEnd(0)));
        // The fields after it are taken for its content.
        let own = usize::from(tag - TAG_ORDER);
        let text = match own.cmp(&place) {
            Ordering::Less => "refused 19\n",
            Ordering::Equal if place == FIELDS - 1 => &good,
            _ => "refused 13\n",
        };
        program.expect(&written(&drafts), text);
    }
}

#[test]
fn every_shorter_part_of_a_file_is_10_or_13() {
    let good = definite(2).fields();
    let file = file_of_fields(&good);
    let starts: Vec<usize> = (0..FIELDS)
        .map(|count| file_of_fields(&good[..count]).len())
        .collect();
    let number = |length: &usize| if starts.contains(length) { 13 } else { 10 };
    let lengths = 0..file.len();
    let parts = lengths.map(|length| (file[..length].to_vec(), number(&length)));
    expect_refused(&parts.collect::<Vec<Refused>>());
}

#[test]
fn a_file_of_more_than_4096_bytes_is_15_whatever_its_faults() {
    let mut files = vec![];
    for (tag, fault) in faults_of_each_kind() {
        let last = FIELDS - 1;
        let (file, _) = faulty(arranged(2, &[(tag, last)]), &[(tag, fault)]);
        for size in [MAX_FILE + 1, MAX_FILE + 2, 2 * MAX_FILE, 1 << 16] {
            let mut long = file.clone();
            long.resize(size, tag);
            files.push((long, 15));
        }
        // With 4096 bytes the fault stands, or 14 of the field that was
        // lengthened.
        let other = if tag == TAG_ORDER { TAG_LOW } else { TAG_ORDER };
        let missing = (MAX_FILE - file.len()) as isize;
        for (more, long) in [(missing, None), (missing + 1, Some(15))] {
            let drafts = arranged(2, &[(other, 0), (tag, last)]);
            let (file, number) = faulty(drafts, &[(other, Size(more)), (tag, fault)]);
            assert_eq!(file.len() > MAX_FILE, long.is_some());
            files.push((file, long.unwrap_or(number)));
        }
    }
    expect_refused(&files);
}
