//! Tests of the library's C entries. What is expected is the reference's
//! answer, or a literal worked from the rules.

mod acceptance;
mod boxes;
mod bus;
mod bus_runs;
mod generated;
mod mended;
mod over;
mod pools;
mod refusals;
mod rides;
mod season;
mod shown;
mod stiffness;
mod summaries;
mod support;
mod two_ends;
mod vectors;
mod verdicts;
mod wrong_buses;
