//! A list of session calls, made one after another (docs/HOST.md, "Replay").
//!
//! A call of the list is three numbers: its call-kind and two vertices, which
//! only a pick uses. The session and the whole list are checked before any call
//! is made. Each call is then a single call on the session that the one before
//! it handed back.

use crate::causes::{buffer, Cause, Refusal};
use crate::graph::{Extent, Lent};
use crate::numbers::pair_number;
use crate::session::{automatic, check_sound, pick, undo, Outcome, Pair, Session};

/// How many numbers a call has.
const NUMBERS_A_CALL: usize = 3;

/// The place of a fault at this index or a later one.
const LARGEST_PLACE: u64 = 65535;

/// A call of a list.
#[derive(Clone, Copy, Debug, PartialEq, Eq)]
enum Call {
    Pick(u64, u64),
    Automatic,
    Undo,
}

impl Call {
    /// Reads the three numbers of a call. None for an unknown call-kind.
    fn from_numbers(numbers: &[u64]) -> Option<Call> {
        match numbers[0] {
            1 => Some(Call::Pick(numbers[1], numbers[2])),
            2 => Some(Call::Automatic),
            3 => Some(Call::Undo),
            _ => None,
        }
    }

    /// Makes the call, as a single one.
    fn make(
        self,
        session: Session,
        adjacency: &[u8],
        weights: &[u16],
        inverse: &mut [u16],
        sequence: &mut [u8],
    ) -> Outcome<Pair> {
        match self {
            Call::Pick(a, b) => pick(session, a, b, adjacency, weights, inverse, sequence),
            Call::Automatic => automatic(session, adjacency, weights, inverse, sequence),
            Call::Undo => undo(session, adjacency, weights, inverse, sequence),
        }
    }
}

/// Makes all calls of a list and writes the answer of each. Refuses with the
/// lowest cause that applies: 1 to 6, where the answers are the last buffer of
/// 2, then 12 and 13. Then no call is made, and nothing is written.
pub fn replay(
    session: Session,
    adjacency: &[u8],
    weights: &[u16],
    inverse: &mut [u16],
    sequence: &mut [u8],
    calls: &[u64],
    answers: &mut [u64],
) -> Outcome<()> {
    let lent = Lent {
        number: buffer::ANSWERS,
        extent: Extent::Fixed(calls.len() / NUMBERS_A_CALL),
        length: answers.len(),
    };
    let sound = check_sound(session, adjacency, weights, inverse, sequence, lent);
    let list = match sound.and_then(|()| checked_list(calls)) {
        Ok(list) => list,
        Err(refusal) => {
            return Outcome {
                session,
                answer: Err(refusal),
            }
        }
    };
    let mut now = session;
    for (call, number) in list.into_iter().zip(answers) {
        let outcome = call.make(now, adjacency, weights, inverse, sequence);
        *number = pair_number(&outcome);
        now = outcome.session;
    }
    Outcome {
        session: now,
        answer: Ok(()),
    }
}

/// Reads the calls of a list. Refuses the first whole call of an unknown kind, at
/// its index: cause 12. Else refuses numbers after the last whole call, at the
/// number of whole calls: cause 13.
fn checked_list(calls: &[u64]) -> Result<Vec<Call>, Refusal> {
    let whole = calls.chunks_exact(NUMBERS_A_CALL);
    let count = whole.len();
    let rest = whole.remainder().len();
    let list = whole
        .enumerate()
        .map(|(index, numbers)| {
            Call::from_numbers(numbers).ok_or(Cause::KindNotDue.at(place_of(index)))
        })
        .collect::<Result<Vec<Call>, Refusal>>()?;
    if rest > 0 {
        return Err(Cause::DataStops.at(place_of(count)));
    }
    Ok(list)
}

/// Returns an index as a place, which has 16 bits.
fn place_of(index: usize) -> u64 {
    (index as u64).min(LARGEST_PLACE)
}
