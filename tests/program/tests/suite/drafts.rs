//! Files with faults, and the refusal that is expected: that of the fault which
//! is found first.

use hankboulder_program::problem_file::{definite, Fields};
use hankboulder_reference::summary::{
    encode, file_of_fields, TAG_CENTRE, TAG_HIGH, TAG_LIMIT, TAG_LINEAR_HIGH, TAG_LINEAR_LOW,
    TAG_LOW, TAG_ORDER,
};

use crate::support::Refused;
use Fault::{Absent, Crossed, Cut, Lopsided, Order, PastEnd, Range, Reversed, Size, Tag, Twice};

/// A fault of a field.
#[derive(Clone, Copy, Debug, PartialEq, Eq)]
pub enum Fault {
    /// The file ends after this many bytes of the head.
    Cut(usize),
    /// The length passes the end of the file by this number, or is FFFF.
    PastEnd(usize),
    /// The tag is this one, which no field has.
    Tag(u8),
    /// The field stands twice.
    Twice,
    /// The field is left out.
    Absent,
    /// The content has this many bytes more, or less as far as it has any.
    Size(isize),
    /// n is this number.
    Order(u8),
    /// The first entry is this number, beyond its range.
    Range(i64),
    /// The last entry of L is above that of U.
    Crossed,
    /// The first entry of the second row of both tables is at one end of its range, so
    /// that with its mirror image no number is left.
    Lopsided,
    /// The last term of the low end is above that of the high end.
    Reversed,
}

/// A fault of the field of a tag.
pub type FieldFault = (u8, Fault);

impl Fault {
    /// The refusal.
    pub fn number(self) -> i64 {
        match self {
            Order(_) => 1,
            Range(_) => 3,
            Crossed => 4,
            Lopsided => 5,
            Cut(_) | PastEnd(_) => 10,
            Tag(_) => 11,
            Twice => 12,
            Absent => 13,
            Size(_) => 14,
            Reversed => 16,
        }
    }

    /// Which fault is found first, where this one is in the field of a tag at a
    /// place: the order of R5.11 and R5.12.
    fn turn(self, tag: u8, place: usize) -> (usize, usize, i64) {
        let stage = match self {
            Cut(_) | PastEnd(_) | Tag(_) | Twice => return (0, place, self.number()),
            Absent => 1,
            Size(_) if tag == TAG_ORDER => 2,
            Order(_) => 3,
            Size(_) => 4,
            Range(_) => 5,
            Crossed => 6,
            Lopsided => 7,
            Reversed => 8,
        };
        (stage, 0, self.number())
    }
}

/// How the head of a field is written.
#[derive(Clone, Copy)]
enum Head {
    Whole,
    CutAfter(usize),
    PastEndBy(usize),
}

/// A field on its way into a file.
#[derive(Clone)]
pub struct Draft {
    /// The tag by which it is found
    of: u8,
    /// The tag that is written
    tag: u8,
    content: Vec<u8>,
    head: Head,
}

/// The greatest entry of a table
const ENTRY: i64 = 1 << 20;
/// The greatest linear term
const LINEAR: i64 = 1 << 36;

/// Bytes of an entry in the field of a tag.
fn width(tag: u8) -> usize {
    match tag {
        TAG_ORDER => 1,
        TAG_LOW | TAG_HIGH => 4,
        _ => 8,
    }
}

/// Numbers beyond the range of a tag's entries.
pub fn beyond(tag: u8) -> Vec<i64> {
    let near = |range: i64| [-range - 1, range + 1];
    let (near, ends) = match tag {
        TAG_LOW | TAG_HIGH => (near(ENTRY), [i32::MIN.into(), i32::MAX.into()]),
        TAG_LINEAR_LOW | TAG_LINEAR_HIGH => (near(LINEAR), [i64::MIN, i64::MAX]),
        TAG_LIMIT => (near(1 << 54), [i64::MIN, i64::MAX]),
        TAG_CENTRE => (near(1 << 12), [i64::MIN, i64::MAX]),
        _ => return vec![],
    };
    [near, ends].concat()
}

fn set_entry(draft: &mut Draft, entry: usize, number: i64) {
    let width = width(draft.of);
    draft.content[entry * width..][..width].copy_from_slice(&encode(&[number], width));
}

/// Puts a fault into the field of a tag, the second one where it stands twice.
pub fn put(drafts: &mut Vec<Draft>, (of, fault): FieldFault) {
    let place = drafts.iter().rposition(|draft| draft.of == of);
    let place = place.expect("the field is there");
    let draft = &mut drafts[place];
    let entries = draft.content.len() / width(of);
    let end = if of == TAG_LOW { ENTRY } else { -ENTRY };
    let far = if of == TAG_LINEAR_LOW {
        LINEAR
    } else {
        -LINEAR
    };
    match fault {
        Cut(count) => draft.head = Head::CutAfter(count),
        PastEnd(by) => draft.head = Head::PastEndBy(by),
        Tag(tag) => draft.tag = tag,
        Twice => {
            let copy = draft.clone();
            drafts.insert(place, copy);
        }
        Absent => drop(drafts.remove(place)),
        Size(change) => {
            let length = draft.content.len().saturating_add_signed(change);
            draft.content.resize(length, 0);
        }
        Order(n) => draft.content = vec![n],
        Range(number) => set_entry(draft, 0, number),
        Crossed => set_entry(draft, entries - 1, end),
        Lopsided => {
            let tables = drafts.iter_mut();
            let tables = tables.filter(|draft| [TAG_LOW, TAG_HIGH].contains(&draft.of));
            tables.for_each(|draft| set_entry(draft, entries.isqrt(), end));
        }
        Reversed => set_entry(draft, entries - 1, far),
    }
}

/// The bytes of a file.
pub fn written(drafts: &[Draft]) -> Vec<u8> {
    let mut file = vec![];
    // Where the length of a field stands that passes the end, and by how much.
    let mut past_end = vec![];
    for draft in drafts {
        let start = file.len();
        file.extend(file_of_fields(&[(draft.tag, draft.content.clone())]));
        match draft.head {
            Head::Whole => {}
            Head::CutAfter(count) => {
                file.truncate(start + count);
                break;
            }
            Head::PastEndBy(by) => past_end.push((start + 1, by)),
        }
    }
    for (place, by) in past_end {
        let rest = file.len() - place - 2;
        let length = (rest + by).min(0xFFFF) as u16;
        file[place..place + 2].copy_from_slice(&length.to_le_bytes());
    }
    file
}

/// A good file's fields, of an order, with some tags at places of their own and
/// the other tags rising.
pub fn arranged(order: usize, placed: &[(u8, usize)]) -> Vec<Draft> {
    let good: Fields = definite(order).fields();
    let (mut moved, mut rest): (Fields, Fields) = good
        .into_iter()
        .partition(|(tag, _)| placed.iter().any(|(of, _)| of == tag));
    let place_of = |tag: u8| placed.iter().find(|(of, _)| *of == tag).expect("placed").1;
    moved.sort_by_key(|(tag, _)| place_of(*tag));
    for field in moved {
        rest.insert(place_of(field.0), field);
    }
    let draft = |(tag, content)| Draft {
        of: tag,
        tag,
        content,
        head: Head::Whole,
    };
    rest.into_iter().map(draft).collect()
}

/// When 19 is found, where tags fall: in the first field whose tag is below the
/// one before it, fields that are left out passed over. In that field it comes
/// after 10, 11 and 12; but where the field stands twice, its first copy falls and
/// all faults are in the second.
fn fall(drafts: &[Draft], faults: &[FieldFault]) -> Option<(usize, usize, i64)> {
    let stand = (0..drafts.len()).filter(|place| !faults.contains(&(drafts[*place].of, Absent)));
    let stand: Vec<usize> = stand.collect();
    let falls = |pair: &&[usize]| drafts[pair[1]].of < drafts[pair[0]].of;
    let place = stand.windows(2).find(falls)?[1];
    let first = faults.contains(&(drafts[place].of, Twice));
    Some((0, place, if first { 0 } else { 19 }))
}

/// Fields with faults, and the refusal of the one that is found first: of a fault,
/// or of tags that fall.
pub fn faulty(mut drafts: Vec<Draft>, faults: &[FieldFault]) -> Refused {
    let place = |tag: u8| drafts.iter().position(|draft| draft.of == tag);
    let turn = |(tag, fault): &FieldFault| fault.turn(*tag, place(*tag).expect("a place"));
    let mut turns: Vec<_> = faults.iter().map(|fault| (turn(fault), *fault)).collect();
    turns.sort_by_key(|(turn, _)| *turn);
    let falls_first = fall(&drafts, faults).is_some_and(|fall| fall < turns[0].0);
    let number = if falls_first {
        19
    } else {
        turns[0].1 .1.number()
    };
    // Those that are found first are put last: they leave the others standing.
    for (_, fault) in turns.into_iter().rev() {
        put(&mut drafts, fault);
    }
    (written(&drafts), number)
}
