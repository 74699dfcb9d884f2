//! The kinds of output.

use std::collections::{BTreeMap, BTreeSet};
use std::fmt;

/// Every kind of output.
pub const KINDS: [&str; 18] = [
    "refused 1",
    "refused 3",
    "refused 4",
    "refused 5",
    "refused 10",
    "refused 11",
    "refused 12",
    "refused 13",
    "refused 14",
    "refused 15",
    "refused 16",
    "refused 19",
    "definite; row; over; side",
    "definite; row; over; empty",
    "definite; row; over; box refused 8",
    "definite; row; over; box refused 9",
    "not; vector; box refused 8",
    "undecided; box refused 8",
];

/// The kind of an output: a refusal of the file, or a verdict and an answer of
/// the box. The numbers of factors, of what their rows have over, of vectors and of
/// sides are left out.
pub fn kind(text: &str) -> String {
    let mut kinds: Vec<&str> = text.lines().map(line_kind).collect();
    kinds.dedup();
    kinds.join("; ")
}

fn line_kind(line: &str) -> &str {
    match line.split_once(' ') {
        Some((word @ ("row" | "over" | "vector" | "side"), _)) => word,
        _ => line,
    }
}

/// Outputs by kind.
#[derive(Clone, Debug, Default)]
pub struct Counts {
    kinds: BTreeMap<String, usize>,
}

impl Counts {
    /// Counts an output.
    pub fn add(&mut self, text: &str) {
        *self.kinds.entry(kind(text)).or_default() += 1;
    }

    /// Outputs of a kind.
    pub fn of(&self, kind: &str) -> usize {
        self.kinds.get(kind).copied().unwrap_or(0)
    }

    /// Every kind that was met.
    pub fn met(&self) -> BTreeSet<&str> {
        self.kinds.keys().map(String::as_str).collect()
    }
}

impl fmt::Display for Counts {
    fn fmt(&self, f: &mut fmt::Formatter) -> fmt::Result {
        for (kind, count) in &self.kinds {
            write!(f, "\n  {kind}: {count} files")?;
        }
        Ok(())
    }
}
