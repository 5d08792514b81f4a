//! Seeded good and damaged sheets, and the comparison of the listing program with
//! the reference. tests/host reads the same sheets through the C entry.

pub mod cancelling;
pub mod damage;
pub mod families;
pub mod matchings;
pub mod outcomes;
pub mod program;
pub mod random;
pub mod shapes;
pub mod sheet;
pub mod verdicts;
