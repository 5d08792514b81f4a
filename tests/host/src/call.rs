//! A call of opening, and what it must write.

use crate::cells;
use crate::entry::{self, Written};
use crate::graphs::{Graph, P};
use crate::random::Random;
use reference::opening::{self, Opening};
use reference::words::{bytes_from_words, words_from_bytes, write_words};

/// A size and six buffers as bytes.
#[derive(Clone, Debug, PartialEq, Eq)]
pub struct Call {
    pub n: u64,
    pub adjacency: Vec<u8>,
    pub weights: Vec<u8>,
    pub inverse: Vec<u8>,
    pub sequence: Vec<u8>,
    pub witness: Vec<u8>,
    pub work: Vec<u8>,
}

/// How a call came out.
#[derive(Clone, Copy, Debug, PartialEq, Eq)]
pub enum Outcome {
    Opened,
    /// The first dependent column.
    Singular(u64),
    /// The cause and the place, which has row, column and fault for cause 3.
    Refused(u8, u64),
}

/// Returns how many bytes each buffer needs for n vertices.
pub fn needed(n: usize) -> [usize; 6] {
    let square = n * n;
    [square, square - n, 2 * square, n, 2 * n, 2 * square]
}

impl Call {
    /// Makes a call that opens a graph, with buffers of random bytes, each up to
    /// most_excess bytes longer than needed.
    pub fn new(random: &mut Random, graph: &Graph, most_excess: usize) -> Call {
        let mut call = Call {
            n: graph.n as u64,
            adjacency: graph.adjacency.clone(),
            weights: bytes_from_words(&graph.weights),
            inverse: Vec::new(),
            sequence: Vec::new(),
            witness: Vec::new(),
            work: Vec::new(),
        };
        for (buffer, needed) in call.buffers_mut().into_iter().zip(needed(graph.n)) {
            let length = needed + random.between(0, most_excess);
            buffer.extend(random.bytes(length - buffer.len()));
        }
        call
    }

    /// Lists the buffers in the order of their numbers, 1 to 6.
    pub fn buffers(&self) -> [&[u8]; 6] {
        [
            &self.adjacency,
            &self.weights,
            &self.inverse,
            &self.sequence,
            &self.witness,
            &self.work,
        ]
    }

    /// Lists the buffers as buffers does, to be changed.
    pub fn buffers_mut(&mut self) -> [&mut Vec<u8>; 6] {
        [
            &mut self.adjacency,
            &mut self.weights,
            &mut self.inverse,
            &mut self.sequence,
            &mut self.witness,
            &mut self.work,
        ]
    }

    pub fn set_weight(&mut self, index: usize, weight: u16) {
        self.weights[2 * index..2 * index + 2].copy_from_slice(&weight.to_le_bytes());
    }

    /// Makes the call through its C entry.
    pub fn run(&mut self) -> u64 {
        let written = Written {
            inverse: &mut self.inverse,
            sequence: &mut self.sequence,
            witness: &mut self.witness,
            work: &mut self.work,
        };
        entry::open(self.n, &self.adjacency, &self.weights, written)
    }

    /// Returns the outcome by the reference, and checks its answer by the definition.
    pub fn certified(&self, name: &str) -> Outcome {
        let (outcome, after) = self.expected();
        self.certify(&after, outcome, name);
        outcome
    }

    /// Returns the outcome and the buffers after the call, by the reference.
    pub fn expected(&self) -> (Outcome, Call) {
        let mut after = self.clone();
        let mut inverse = words_from_bytes(&self.inverse);
        let mut witness = words_from_bytes(&self.witness);
        let mut work = words_from_bytes(&self.work);
        let answer = opening::open(
            self.n,
            &self.adjacency,
            &words_from_bytes(&self.weights),
            &mut inverse,
            &mut after.sequence,
            &mut witness,
            &mut work,
        );
        write_words(&inverse, &mut after.inverse);
        write_words(&witness, &mut after.witness);
        write_words(&work, &mut after.work);
        let outcome = match answer {
            Ok(Opening::Opened(session)) => {
                assert_eq!((session.size, session.pairs), (self.n, 0));
                Outcome::Opened
            }
            Ok(Opening::Singular { column }) => Outcome::Singular(column),
            Err(refusal) => {
                let (cause, place) = refusal.numbers();
                Outcome::Refused(cause, place)
            }
        };
        (outcome, after)
    }

    /// Checks the answer of the reference by its definition: A times the inverse is
    /// the identity; A times the witness is 0, with 1 at the column and 0 after it;
    /// all else that is written is 0, or 255; nothing else is written. A faulty cell
    /// is the first one, with its first fault.
    fn certify(&self, after: &Call, outcome: Outcome, name: &str) {
        match outcome {
            Outcome::Opened => self.certify_inverse(after, name),
            Outcome::Singular(column) => self.certify_witness(after, column as usize, name),
            Outcome::Refused(cause, _) => {
                assert_eq!(after, self, "{name} is refused and writes");
                if cause == 3 {
                    cells::certify(outcome.number(), self.n as usize, &self.adjacency, name);
                }
                return;
            }
        }
        let n = self.n as usize;
        let square = 2 * n * n;
        assert!(is_zero(&after.work[..square]), "{name}");
        assert!(after.sequence[..n].iter().all(|&b| b == 255), "{name}");
        assert_eq!(after.adjacency, self.adjacency, "{name}");
        assert_eq!(after.weights, self.weights, "{name}");
        assert_eq!(after.inverse[square..], self.inverse[square..], "{name}");
        assert_eq!(after.sequence[n..], self.sequence[n..], "{name}");
        assert_eq!(after.witness[2 * n..], self.witness[2 * n..], "{name}");
        assert_eq!(after.work[square..], self.work[square..], "{name}");
    }

    fn certify_inverse(&self, after: &Call, name: &str) {
        let n = self.n as usize;
        let matrix = self.tutte_matrix();
        let inverse = words_from_bytes(&after.inverse[..2 * n * n]);
        assert!(are_residues(&inverse), "{name}");
        for i in 0..n {
            for j in 0..n {
                let entry = row_times(&matrix[i * n..][..n], |k| inverse[k * n + j]);
                assert_eq!(entry, u64::from(i == j), "{name}");
            }
        }
        assert!(is_zero(&after.witness[..2 * n]), "{name}");
    }

    fn certify_witness(&self, after: &Call, column: usize, name: &str) {
        let n = self.n as usize;
        let matrix = self.tutte_matrix();
        let witness = words_from_bytes(&after.witness[..2 * n]);
        assert!(are_residues(&witness), "{name}");
        for i in 0..n {
            let entry = row_times(&matrix[i * n..][..n], |k| witness[k]);
            assert_eq!(entry, 0, "{name}");
        }
        assert_eq!(witness[column], 1, "{name}");
        assert!(
            witness[column + 1..].iter().all(|&word| word == 0),
            "{name}"
        );
        assert!(is_zero(&after.inverse[..2 * n * n]), "{name}");
    }

    fn tutte_matrix(&self) -> Vec<u64> {
        let n = self.n as usize;
        let [cells, weights, ..] = needed(n);
        let graph = Graph {
            n,
            adjacency: self.adjacency[..cells].to_vec(),
            weights: words_from_bytes(&self.weights[..weights]),
        };
        graph.tutte_matrix()
    }
}

/// Multiplies a row of a matrix by a vector, modulo 65521.
fn row_times(row: &[u64], vector: impl Fn(usize) -> u16) -> u64 {
    let products = row
        .iter()
        .enumerate()
        .map(|(k, x)| x * u64::from(vector(k)));
    products.sum::<u64>() % P
}

fn are_residues(words: &[u16]) -> bool {
    words.iter().all(|&word| u64::from(word) < P)
}

fn is_zero(bytes: &[u8]) -> bool {
    bytes.iter().all(|&byte| byte == 0)
}

impl Outcome {
    /// Returns the number by docs/HOST.md: the cause in bits 0 to 7, the answer-kind
    /// in bits 8 to 15, the column or the place from bit 16 on.
    pub fn number(self) -> u64 {
        match self {
            Outcome::Opened => 1 << 8,
            Outcome::Singular(column) => 2 << 8 | column << 16,
            Outcome::Refused(cause, place) => u64::from(cause) | place << 16,
        }
    }
}
