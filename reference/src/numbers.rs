//! The one number that a call returns through the host (docs/HOST.md).

use crate::causes::Refusal;
use crate::records::Counts;
use crate::session::{Outcome, Pair};

/// Answers a pair appended or removed: kind 3, the smaller vertex in bits 16 to
/// 23 and the larger in bits 24 to 31.
pub fn pair_number(outcome: &Outcome<Pair>) -> u64 {
    number(outcome, 3, |pair| pair.smaller | pair.larger << 8)
}

/// Answers a row written: kind 4.
pub fn row_number(outcome: &Outcome<()>) -> u64 {
    number(outcome, 4, |_| 0)
}

/// Answers a list of calls made: kind 5.
pub fn replay_number(outcome: &Outcome<()>) -> u64 {
    number(outcome, 5, |_| 0)
}

/// Answers a graph read, from a sheet or a text: kind 6, the number of edges in bits 16 to 31 and the
/// size in bits 32 to 39.
pub fn read_number(answer: Result<Counts, Refusal>) -> u64 {
    match answer {
        Ok(counts) => 6 << 8 | counts.edges << 16 | counts.size << 32,
        Err(refusal) => refusal_number(refusal),
    }
}

/// Answers weights drawn: kind 7, how many in bits 16 to 31.
pub fn draws_number(answer: Result<u64, Refusal>) -> u64 {
    match answer {
        Ok(count) => 7 << 8 | count << 16,
        Err(refusal) => refusal_number(refusal),
    }
}

/// Sets bits 8 to 15 to the answer-kind, 16 to 31 to a value, and 32 to 39 to the
/// pairs made, if the call was carried out.
fn number<T>(outcome: &Outcome<T>, kind: u64, value: impl Fn(&T) -> u64) -> u64 {
    match &outcome.answer {
        Ok(answer) => kind << 8 | value(answer) << 16 | outcome.session.pairs << 32,
        Err(refusal) => refusal_number(*refusal),
    }
}

/// The largest place of a refusal: all of bits 16 to 62. A line after it is given
/// as this one.
pub const LAST_PLACE: u64 = (1 << 47) - 1;

/// Sets bits 0 to 7 to the cause, and 16 to 62 to the place: for a cell, 16 to 23
/// to its row, 24 to 31 to its column, and 32 to 39 to its fault.
fn refusal_number(refusal: Refusal) -> u64 {
    let (cause, place) = refusal.numbers();
    u64::from(cause) | place.min(LAST_PLACE) << 16
}
