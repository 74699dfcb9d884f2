//! Tests of the program "judge". What is expected is the reference's output, or
//! a literal worked from the rules.

mod arrangements;
mod committed;
mod drafts;
mod entries;
mod faults;
mod generated;
mod over;
mod pipes;
mod speed;
mod summary_text;
mod support;
