//! Summary files, faulty ones among them.

use super::{Generator, RawProblem};
use crate::problem::{table_size, MAX_ORDER};
use crate::summary::{file_of_fields, problem_fields, MAX_FILE, TAG_ORDER};

/// A field to be written: tag and content.
pub type Field = (u8, Vec<u8>);

/// A summary file, and whether it was damaged: it is another than was written
/// for its problem, or entries of the problem were damaged before.
#[derive(Clone, Debug, PartialEq, Eq)]
#[allow(missing_docs)]
pub struct DrawnFile {
    pub bytes: Vec<u8>,
    pub damaged: bool,
}

/// The arguments of reading a summary; the outputs with their contents before the
/// call.
#[derive(Clone, Debug, PartialEq, Eq)]
#[allow(missing_docs)]
pub struct ReadCall {
    pub file: Vec<u8>,
    pub order: Vec<u8>,
    pub low: Vec<u8>,
    pub high: Vec<u8>,
    pub linear_low: Vec<u8>,
    pub linear_high: Vec<u8>,
    pub limit: Vec<u8>,
    pub centre: Vec<u8>,
}

/// One call of reading in this many has an output of a wrong size.
const FAULT_SHARE: usize = 12;

impl RawProblem {
    /// The seven fields that have the problem's numbers as they are, tags rising.
    pub fn fields(&self) -> Vec<Field> {
        problem_fields(
            self.order as u8,
            &self.low,
            &self.high,
            &self.linear_low,
            &self.linear_high,
            self.limit,
            &self.centre,
        )
    }

    /// The file of these fields.
    pub fn file(&self) -> Vec<u8> {
        file_of_fields(&self.fields())
    }
}

impl Generator {
    /// A call of reading a summary.
    pub fn read_call(&mut self) -> ReadCall {
        let most = MAX_ORDER as usize;
        let mut call = ReadCall {
            file: self.summary_file(),
            order: self.buffer(1),
            low: self.buffer(table_size(most)),
            high: self.buffer(table_size(most)),
            linear_low: self.buffer(most),
            linear_high: self.buffer(most),
            limit: self.buffer(1),
            centre: self.buffer(most),
        };
        if self.random.one_in(FAULT_SHARE) {
            self.damage_output(&mut call);
        }
        call
    }

    /// Another size of one output: that of another order, or one beside its own.
    fn damage_output(&mut self, call: &mut ReadCall) {
        let outputs = [
            &mut call.order,
            &mut call.low,
            &mut call.high,
            &mut call.linear_low,
            &mut call.linear_high,
            &mut call.limit,
            &mut call.centre,
        ];
        let place = self.random.index(outputs.len());
        let output = outputs.into_iter().nth(place).expect("the place is there");
        let (size, order) = (output.len(), self.random.index(10));
        let choices = [0, size - 8, size - 1, size + 1, size + 8];
        let others = [8 * order, 8 * table_size(order)];
        let size = match self.random.index(3) {
            0 => self.random.pick(&others),
            _ => self.random.pick(&choices),
        };
        *output = self.random.bytes(size);
    }

    /// A summary file: a good one, one with faulty entries, one with a faulty
    /// field, or one with faulty bytes.
    pub fn summary_file(&mut self) -> Vec<u8> {
        self.drawn_file().bytes
    }

    /// The same, with whether it was damaged.
    pub fn drawn_file(&mut self) -> DrawnFile {
        let good = self.any_problem();
        let mut problem = good.clone();
        let choice = self.random.index(10);
        if choice == 0 {
            self.damage_entries(&mut problem);
            self.damage_terms(&mut problem);
        }
        if choice == 6 && self.random.one_in(3) {
            if let Some(pair) = self.mirror_images(problem.order) {
                self.leave_no_number(&mut problem, pair);
            }
        }
        let mut fields = file_fields(&problem);
        let whole = file_of_fields(&fields);
        if (1..=4).contains(&choice) {
            self.damage_fields(&mut fields);
        }
        let mut bytes = file_of_fields(&fields);
        if choice == 5 || choice == 4 {
            self.damage_bytes(&mut bytes);
        }
        let damaged = problem != good || bytes != whole;
        DrawnFile { bytes, damaged }
    }

    /// Damages one field, or the order of two or of all, so that one of 1, 10 to
    /// 14 and 19 refuses.
    fn damage_fields(&mut self, fields: &mut Vec<Field>) {
        let place = self.random.index(fields.len());
        let other = self.random.index(fields.len());
        match self.random.index(10) {
            0 => fields[place].0 = self.random.pick(&[0, 8, 9, 0x10, 0x81, 0xFF]),
            1 => fields[place].0 = fields[other].0,
            2 => fields.insert(place, fields[other].clone()),
            3 => drop(fields.remove(place)),
            4 => {
                let length = self.random.pick(&[0, 1, 2, 4, 7, 8, 9, 12, 600]);
                fields[place].1.resize(length, 0);
            }
            5 => set_content(fields, vec![self.random.pick(&[0, 9, 16, 0x81, 0xFF])]),
            6 => set_content(fields, vec![self.random.between(1, 8) as u8]),
            7 => fields.swap(place, other),
            8 => self.random.shuffle(fields),
            _ => {
                // One field is lengthened until the file has about the greatest
                // size.
                let size = MAX_FILE as i64 + self.random.between(-1, 1);
                let missing = size - file_of_fields(fields).len() as i64;
                let length = fields[place].1.len() + missing.max(0) as usize;
                fields[place].1.resize(length, 0);
            }
        }
    }

    /// Cuts the file, changes one byte, adds bytes, or makes all bytes random.
    fn damage_bytes(&mut self, file: &mut Vec<u8>) {
        match self.random.index(4) {
            0 => {
                let length = self.random.index(file.len() + 1);
                file.truncate(length);
            }
            1 if !file.is_empty() => {
                let place = self.random.index(file.len());
                file[place] = self.random.bits() as u8;
            }
            2 => {
                let count = self.random.pick(&[1, 2, 3, 4, MAX_FILE]);
                file.extend(self.random.bytes(count));
            }
            _ => {
                let count = self
                    .random
                    .pick(&[0, 1, 2, 3, 20, 300, MAX_FILE, MAX_FILE + 1]);
                *file = self.random.bytes(count);
            }
        }
    }
}

/// The fields of a problem; entries of L and U are brought within 4 bytes.
fn file_fields(problem: &RawProblem) -> Vec<Field> {
    let four_bytes = |table: &[i64]| -> Vec<i64> {
        let ends = (i64::from(i32::MIN), i64::from(i32::MAX));
        table.iter().map(|m| *m.clamp(&ends.0, &ends.1)).collect()
    };
    let problem = RawProblem {
        low: four_bytes(&problem.low),
        high: four_bytes(&problem.high),
        ..problem.clone()
    };
    problem.fields()
}

fn set_content(fields: &mut [Field], content: Vec<u8>) {
    for field in fields.iter_mut().filter(|field| field.0 == TAG_ORDER) {
        field.1.clone_from(&content);
    }
}
