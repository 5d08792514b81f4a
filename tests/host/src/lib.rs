//! Seeded random and damaged calls of the C entries, with what the reference
//! expects of them. The program `cases` writes them out for tests/c/replay.c,
//! which runs and compares them. The tests judge them by themselves, and the
//! program `long` runs any number of session calls and texts.

pub mod call;
pub mod cases;
pub mod cell_sessions;
pub mod cells;
pub mod damage;
pub mod entry;
pub mod faults;
pub mod filling;
pub mod filling_cases;
pub mod graphs;
pub mod guards;
pub mod lists;
pub mod matrices;
pub mod requests;
pub mod runs;
pub mod seeds;
pub mod session;
pub mod session_cases;
pub mod states;
pub mod stream;
pub mod tally;
pub mod text_cases;
pub mod texts;

pub use sheet_tests::random;
