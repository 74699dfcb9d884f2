//! Tests of the reference implementation. Expected values are literals of
//! docs/RULES.md or worked by another route.

mod bus;
mod bus_lists;
mod bus_runs;
mod entries;
mod files;
mod generator;
mod listed_cases;
mod mended;
mod over;
mod pools;
mod program_text;
mod properties;
mod readings;
mod refusals;
mod residual_tables;
mod rides;
mod stiffness;
mod summaries;
mod support;
mod two_ends;
