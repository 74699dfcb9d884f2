//! Second implementation of the matrix judge, written from the rules alone, independent of the crates.
//!
//! All work is in `i128`. Inputs are the plain `i64` and `u8` slices that a
//! caller lends. Numbers such as R6.3 in comments are those of docs/RULES.md.

#![forbid(unsafe_code)]
#![warn(missing_docs)]

pub mod bus;
pub mod bus_run;
pub mod cases;
pub mod enclosure;
pub mod entries;
pub mod factoring;
pub mod floats;
pub mod generate;
pub mod judge;
pub mod pool;
pub mod problem;
pub mod program;
pub mod random;
pub mod refusal;
pub mod residual;
pub mod rides;
pub mod stiffness;
pub mod summary;
pub mod sums;
pub mod vectors;
pub mod writer;
