//! The program "judge", run as a child process and held to the second
//! implementation.

#![forbid(unsafe_code)]
#![warn(missing_docs)]

pub mod cases;
mod kinds;
pub mod problem_file;
mod program;

pub use kinds::{kind, Counts, KINDS};
pub use program::{on_threads, Program};
