//! Writes cases for tests/c/replay.c.
//!
//! Every number is eight bytes, the low one first. For each case:
//!
//! * the length of its name, at least 1, and the name;
//! * the entry: 0 open, 1 pick, 2 automatic, 3 undo, 4 row, 5 replay, 6 read,
//!   7 draw, 8 read a text in the DIMACS edge format;
//! * n, the pairs made, and two vertices, or a seed in place of the first, 0 if
//!   the entry has none;
//! * the lengths in bytes of the ten buffers: adjacency, weights, inverse,
//!   sequence, witness, work, row, calls, answers and sheet or text, 0 if the
//!   entry has none;
//! * the bytes of the ten buffers before the call;
//! * the number expected;
//! * the bytes of the ten buffers expected after the call;
//!
//! and at the end 0, in place of a name's length, and the number of cases.

use crate::cases::Case;
use crate::filling::{Filling, FillingCase, Source};
use crate::session::{Request, SessionCall, SessionCase};
use std::borrow::Cow;
use std::io::{self, Write};

/// The longest name and the longest buffer that the C side reads.
const LONGEST_NAME: usize = 127;
pub const LONGEST_BUFFER: usize = 2 * 96 * 96 + 64;

type Buffers<'a> = [Cow<'a, [u8]>; 10];

pub struct Stream<W: Write> {
    out: W,
    count: u64,
}

impl<W: Write> Stream<W> {
    pub fn new(out: W) -> Stream<W> {
        Stream { out, count: 0 }
    }

    pub fn opening(&mut self, case: &Case) -> io::Result<()> {
        let (outcome, after) = case.call.expected();
        let ten = |six: [&[u8]; 6]| -> Buffers<'static> {
            let mut buffers = Buffers::default();
            for (buffer, bytes) in buffers.iter_mut().zip(six) {
                *buffer = Cow::Owned(bytes.to_vec());
            }
            buffers
        };
        let numbers = [0, case.call.n, 0, 0, 0];
        let before = ten(case.call.buffers());
        let after = ten(after.buffers());
        self.case(&case.name, numbers, &before, outcome.number(), &after)
    }

    pub fn session(&mut self, case: &SessionCase) -> io::Result<()> {
        let (a, b) = match case.call.request {
            Request::Pick(a, b) => (a, b),
            Request::Row { vertex, .. } => (vertex, 0),
            _ => (0, 0),
        };
        let state = &case.call.state;
        let numbers = [case.call.request.entry(), state.n, state.made, a, b];
        let before = session_buffers(&case.call);
        let after = session_buffers(&case.after);
        self.case(&case.name, numbers, &before, case.number, &after)
    }

    pub fn filling(&mut self, case: &FillingCase) -> io::Result<()> {
        let numbers = match case.call.source {
            Source::Sheet(_) => [6, 0, 0, 0, 0],
            Source::Seed { n, seed } => [7, n, 0, seed.into(), 0],
            Source::Text { seed, .. } => [8, 0, 0, seed.into(), 0],
        };
        let before = filling_buffers(&case.call);
        let after = filling_buffers(&case.after);
        self.case(&case.name, numbers, &before, case.number, &after)
    }

    fn case(
        &mut self,
        name: &str,
        numbers: [u64; 5],
        before: &Buffers,
        number: u64,
        after: &Buffers,
    ) -> io::Result<()> {
        assert!(name.len() <= LONGEST_NAME, "{name}");
        self.count += 1;
        self.number(name.len() as u64)?;
        self.out.write_all(name.as_bytes())?;
        for number in numbers {
            self.number(number)?;
        }
        for buffer in before {
            assert!(buffer.len() <= LONGEST_BUFFER, "{name}");
            self.number(buffer.len() as u64)?;
        }
        self.buffers(before)?;
        self.number(number)?;
        self.buffers(after)
    }

    pub fn end(mut self) -> io::Result<()> {
        self.number(0)?;
        self.number(self.count)?;
        self.out.flush()
    }

    fn buffers(&mut self, buffers: &Buffers) -> io::Result<()> {
        buffers
            .iter()
            .try_for_each(|buffer| self.out.write_all(buffer))
    }

    fn number(&mut self, number: u64) -> io::Result<()> {
        self.out.write_all(&number.to_le_bytes())
    }
}

fn session_buffers(call: &SessionCall) -> Buffers<'_> {
    let [adjacency, weights, inverse, sequence, row] = call.byte_buffers().map(|(_, bytes)| bytes);
    let numbers = |list: &[u64]| {
        list.iter()
            .flat_map(|number| number.to_le_bytes())
            .collect()
    };
    let [calls, answers] = call.lists().map(|list| Cow::Owned(numbers(list)));
    [
        adjacency.into(),
        weights.into(),
        inverse.into(),
        sequence.into(),
        (&[] as &[u8]).into(),
        (&[] as &[u8]).into(),
        row.into(),
        calls,
        answers,
        (&[] as &[u8]).into(),
    ]
}

fn filling_buffers(call: &Filling) -> Buffers<'_> {
    let mut buffers = Buffers::default();
    let [source, adjacency, weights] = call.buffers().map(|(_, bytes)| Cow::Borrowed(bytes));
    buffers[0] = adjacency;
    buffers[1] = weights;
    buffers[9] = source;
    buffers
}
