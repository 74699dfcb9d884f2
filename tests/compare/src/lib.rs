//! Calls of the library's C entries, held to the second implementation.
//!
//! An act is one value of [`Act`], in a module of its own: its C declaration,
//! its generated calls and the reference's answer. The comparison itself is
//! the same for all acts.

#![warn(missing_docs)]
#![deny(unsafe_op_in_unsafe_fn)]

mod act;
pub mod bus;
mod counts;
pub mod enclosure;
pub mod gather;
mod guarded;
pub mod judge;
mod lopsided;
pub mod pool;
pub mod read_summary;
pub mod read_sums;
pub mod stiffness;
mod sums;
pub mod test_factor;
pub mod test_vector;
mod variation;
pub mod write_summary;

pub use act::{Act, Call, Inputs};
pub use counts::{Counts, Detail, Given, Halvings, Kind, Outcome, Part, Row};
pub use guarded::Lent;
pub use lopsided::has_lopsided;

/// Numbers as 8 bytes each, low byte first.
pub fn bytes(numbers: &[i64]) -> Vec<u8> {
    numbers.iter().flat_map(|m| m.to_le_bytes()).collect()
}

/// The numbers of 8 bytes each.
pub fn numbers(bytes: &[u8]) -> Vec<i64> {
    let number = |chunk: &[u8]| i64::from_le_bytes(chunk.try_into().expect("8 bytes"));
    bytes.chunks(8).map(number).collect()
}
