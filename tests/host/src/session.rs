//! A session call through its C entry, and what it must write.

use crate::entry::{self, Lent};
use crate::graphs::Graph;
use crate::guards::Guarded;
use crate::matrices::inverse_of;
use crate::random::Random;
use reference::numbers::{pair_number, replay_number, row_number};
use reference::replay::replay;
use reference::session::{automatic, pick, row, undo, Session};
use reference::words::{bytes_from_words, words_from_bytes, write_words};

/// A session: size, pairs made and four buffers as bytes.
#[derive(Clone, Debug, PartialEq, Eq)]
pub struct State {
    pub n: u64,
    pub made: u64,
    pub adjacency: Vec<u8>,
    pub weights: Vec<u8>,
    pub inverse: Vec<u8>,
    pub sequence: Vec<u8>,
}

/// What is asked of a session.
#[derive(Clone, Debug, PartialEq, Eq)]
pub enum Request {
    Pick(u64, u64),
    Automatic,
    Undo,
    Row { vertex: u64, row: Vec<u8> },
    Replay { calls: Vec<u64>, answers: Vec<u64> },
}

/// A session and what is asked of it.
#[derive(Clone, Debug, PartialEq, Eq)]
pub struct SessionCall {
    pub state: State,
    pub request: Request,
}

/// A call with its name, the number expected, and all buffers after the call.
pub struct SessionCase {
    pub name: String,
    pub call: SessionCall,
    pub number: u64,
    pub after: SessionCall,
}

impl State {
    /// Makes the session with these pairs on a graph, in buffers up to most_excess
    /// bytes longer than needed, and says whether it is sound. The inverse is 0 if
    /// there is none.
    pub fn new(
        random: &mut Random,
        graph: &Graph,
        pairs: &[(usize, usize)],
        most_excess: usize,
    ) -> (State, bool) {
        let mut sequence: Vec<u8> = pairs
            .iter()
            .flat_map(|&(i, j)| [i.min(j) as u8, i.max(j) as u8])
            .collect();
        sequence.resize(graph.n, 255);
        let inverse = inverse_without(graph, &sequence);
        let sound = inverse.is_some();
        let words = inverse.unwrap_or_else(|| vec![0; graph.n * graph.n]);
        let mut state = State {
            n: graph.n as u64,
            made: pairs.len() as u64,
            adjacency: graph.adjacency.clone(),
            weights: bytes_from_words(&graph.weights),
            inverse: bytes_from_words(&words),
            sequence,
        };
        for buffer in state.buffers_mut() {
            let excess = random.between(0, most_excess);
            buffer.extend(random.bytes(excess));
        }
        (state, sound)
    }

    /// Lists the buffers in the order of their numbers, 1 to 4.
    pub fn buffers_mut(&mut self) -> [&mut Vec<u8>; 4] {
        [
            &mut self.adjacency,
            &mut self.weights,
            &mut self.inverse,
            &mut self.sequence,
        ]
    }

    /// Returns the graph. The buffers must be long enough.
    pub fn graph(&self) -> Graph {
        let n = self.n as usize;
        Graph {
            n,
            adjacency: self.adjacency[..n * n].to_vec(),
            weights: words_from_bytes(&self.weights[..n * n - n]),
        }
    }

    /// Returns the pairs made. The sequence must be long enough.
    pub fn pairs(&self) -> Vec<(usize, usize)> {
        self.sequence[..2 * self.made as usize]
            .chunks(2)
            .map(|pair| (usize::from(pair[0]), usize::from(pair[1])))
            .collect()
    }

    /// Lists the unmatched vertices, ascending.
    pub fn unmatched(&self) -> Vec<usize> {
        unmatched(self.n as usize, &self.sequence[..2 * self.made as usize])
    }

    pub fn word(&self, i: usize, j: usize) -> u16 {
        let at = 2 * (i * self.n as usize + j);
        u16::from_le_bytes([self.inverse[at], self.inverse[at + 1]])
    }

    pub fn set_word(&mut self, i: usize, j: usize, word: u16) {
        let at = 2 * (i * self.n as usize + j);
        self.inverse[at..at + 2].copy_from_slice(&word.to_le_bytes());
    }

    pub fn with(&self, request: Request) -> SessionCall {
        SessionCall {
            state: self.clone(),
            request,
        }
    }
}

fn unmatched(n: usize, matched: &[u8]) -> Vec<usize> {
    (0..n)
        .filter(|&vertex| !matched.contains(&(vertex as u8)))
        .collect()
}

/// Inverts the matrix of the vertices that a sequence leaves, as a table with 0 in
/// the other rows and columns.
pub fn inverse_without(graph: &Graph, sequence: &[u8]) -> Option<Vec<u16>> {
    let left = unmatched(graph.n, sequence);
    let mut small = Graph::empty(left.len());
    for (row, &i) in left.iter().enumerate() {
        for (column, &j) in left.iter().enumerate().skip(row + 1) {
            if graph.adjacent(i, j) {
                small.add_edge(row, column);
                small.set_weight(row, column, graph.weights[graph.weight_index(i, j)]);
            }
        }
    }
    let words = inverse_of(&small)?;
    let mut inverse = vec![0; graph.n * graph.n];
    for (row, &i) in left.iter().enumerate() {
        for (column, &j) in left.iter().enumerate() {
            inverse[i * graph.n + j] = words[row * left.len() + column];
        }
    }
    Some(inverse)
}

impl Request {
    /// Numbers the entry: 1 pick, 2 automatic, 3 undo, 4 row, 5 replay.
    pub fn entry(&self) -> u64 {
        match self {
            Request::Pick(..) => 1,
            Request::Automatic => 2,
            Request::Undo => 3,
            Request::Row { .. } => 4,
            Request::Replay { .. } => 5,
        }
    }

    pub fn name(&self) -> String {
        match self {
            Request::Pick(a, b) => format!("pick {a} {b}"),
            Request::Automatic => "automatic".to_string(),
            Request::Undo => "undo".to_string(),
            Request::Row { vertex, .. } => format!("row {vertex}"),
            Request::Replay { calls, .. } => format!("replay of {} numbers", calls.len()),
        }
    }
}

impl SessionCall {
    /// Returns the number and all buffers after the call, by the reference. The
    /// pairs made are those of the session handed back.
    pub fn expected(&self) -> (u64, SessionCall) {
        let mut after = self.clone();
        let number = after.run_by_reference();
        (number, after)
    }

    fn run_by_reference(&mut self) -> u64 {
        let state = &mut self.state;
        let session = Session {
            size: state.n,
            pairs: state.made,
        };
        let adjacency = &state.adjacency;
        let weights = words_from_bytes(&state.weights);
        let mut words = words_from_bytes(&state.inverse);
        let (inverse, sequence) = (&mut words, &mut state.sequence);
        let (number, back) = match &mut self.request {
            Request::Pick(a, b) => {
                let outcome = pick(session, *a, *b, adjacency, &weights, inverse, sequence);
                (pair_number(&outcome), outcome.session)
            }
            Request::Automatic => {
                let outcome = automatic(session, adjacency, &weights, inverse, sequence);
                (pair_number(&outcome), outcome.session)
            }
            Request::Undo => {
                let outcome = undo(session, adjacency, &weights, inverse, sequence);
                (pair_number(&outcome), outcome.session)
            }
            Request::Row { vertex, row: bytes } => {
                let outcome = row(
                    session, *vertex, adjacency, &weights, inverse, sequence, bytes,
                );
                (row_number(&outcome), outcome.session)
            }
            Request::Replay { calls, answers } => {
                let outcome = replay(
                    session, adjacency, &weights, inverse, sequence, calls, answers,
                );
                (replay_number(&outcome), outcome.session)
            }
        };
        write_words(&words, &mut state.inverse);
        assert_eq!(back.size, state.n);
        state.made = back.pairs;
        number
    }

    /// Makes the call through its C entry.
    pub fn run(&mut self) -> u64 {
        let state = &mut self.state;
        let lent = Lent {
            n: state.n,
            made: state.made,
            adjacency: &state.adjacency,
            weights: &state.weights,
            inverse: &mut state.inverse,
            sequence: &mut state.sequence,
        };
        match &mut self.request {
            Request::Pick(a, b) => entry::pick(lent, *a, *b),
            Request::Automatic => entry::automatic(lent),
            Request::Undo => entry::undo(lent),
            Request::Row { vertex, row } => entry::row(lent, *vertex, row),
            Request::Replay { calls, answers } => entry::replay(lent, calls, answers),
        }
    }

    /// Returns the row lent to a call, or an empty one.
    fn row(&self) -> &[u8] {
        match &self.request {
            Request::Row { row, .. } => row,
            _ => &[],
        }
    }

    /// Returns the list and the answers lent to a call, or empty ones.
    pub fn lists(&self) -> [&[u64]; 2] {
        match &self.request {
            Request::Replay { calls, answers } => [calls, answers],
            _ => [&[], &[]],
        }
    }

    /// Lists the byte buffers with their names: those of the session, and the row.
    pub fn byte_buffers(&self) -> [(&'static str, &[u8]); 5] {
        [
            ("adjacency", &self.state.adjacency),
            ("weights", &self.state.weights),
            ("inverse", &self.state.inverse),
            ("sequence", &self.state.sequence),
            ("row", self.row()),
        ]
    }
}

impl SessionCase {
    pub fn new(name: String, call: SessionCall) -> SessionCase {
        let (number, after) = call.expected();
        SessionCase {
            name: format!("{name}, n = {}, {}", call.state.n, call.request.name()),
            call,
            number,
            after,
        }
    }

    pub fn cause(&self) -> u64 {
        self.number & 0xFF
    }

    /// Runs the call with its buffers between guards and compares the number
    /// and every byte.
    pub fn check(&self, random: &mut Random) {
        let byte = |random: &mut Random| random.number() as u8;
        let mut bytes = self
            .zipped_bytes()
            .map(|(name, before, after)| (name, Guarded::new(random, before, after, byte)));
        let [calls, answers] = self.call.lists();
        let [calls_after, answers_after] = self.after.lists();
        let mut calls = Guarded::new(random, calls, calls_after, Random::number);
        let mut answers = Guarded::new(random, answers, answers_after, Random::number);

        let number = self.run_in(&mut bytes, &mut calls, &mut answers);

        assert_eq!(number, self.number, "number of {}", self.name);
        for (buffer, guarded) in &bytes {
            guarded.compare(buffer, &self.name);
        }
        calls.compare("calls", &self.name);
        answers.compare("answers", &self.name);
    }

    /// Lists the byte buffers before and after the call.
    fn zipped_bytes(&self) -> [(&'static str, &[u8], &[u8]); 5] {
        let (before, after) = (self.call.byte_buffers(), self.after.byte_buffers());
        [0, 1, 2, 3, 4].map(|b| (before[b].0, before[b].1, after[b].1))
    }

    fn run_in(
        &self,
        bytes: &mut [(&'static str, Guarded<u8>); 5],
        calls: &mut Guarded<u64>,
        answers: &mut Guarded<u64>,
    ) -> u64 {
        let [adjacency, weights, inverse, sequence, row] = bytes;
        let lent = Lent {
            n: self.call.state.n,
            made: self.call.state.made,
            adjacency: adjacency.1.values(),
            weights: weights.1.values(),
            inverse: inverse.1.values(),
            sequence: sequence.1.values(),
        };
        match self.call.request {
            Request::Pick(a, b) => entry::pick(lent, a, b),
            Request::Automatic => entry::automatic(lent),
            Request::Undo => entry::undo(lent),
            Request::Row { vertex, .. } => entry::row(lent, vertex, row.1.values()),
            Request::Replay { .. } => entry::replay(lent, calls.values(), answers.values()),
        }
    }
}
