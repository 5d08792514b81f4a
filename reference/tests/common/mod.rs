//! Shared by the tests: a seeded generator, lent buffers, records, a search for
//! perfect matchings.
#![allow(dead_code)]

use reference::causes::{Cause, Place, Refusal};
use reference::graph::Graph;
use reference::opening::{open, Opening};
use reference::residue::Residue;
use reference::session::{automatic, pick, row, undo, Outcome, Pair, Session, UNUSED};

/// A seeded generator.
pub struct Random(pub u64);

impl Random {
    pub fn next(&mut self) -> u64 {
        self.0 = self.0.wrapping_add(0x9E37_79B9_7F4A_7C15);
        let mut z = self.0;
        z = (z ^ (z >> 30)).wrapping_mul(0xBF58_476D_1CE4_E5B9);
        z = (z ^ (z >> 27)).wrapping_mul(0x94D0_49BB_1331_11EB);
        z ^ (z >> 31)
    }

    /// Returns a number below the bound, which is not 0.
    pub fn below(&mut self, bound: u64) -> u64 {
        self.next() % bound
    }

    pub fn chance(&mut self, percent: u64) -> bool {
        self.below(100) < percent
    }

    pub fn choose<T: Copy>(&mut self, items: &[T]) -> T {
        items[self.below(items.len() as u64) as usize]
    }
}

/// All buffers that calls are lent. Byte 170 and word 43690 stand where nothing
/// was written.
#[derive(Clone, Debug, PartialEq, Eq)]
pub struct Buffers {
    pub adjacency: Vec<u8>,
    pub weights: Vec<u16>,
    pub inverse: Vec<u16>,
    pub sequence: Vec<u8>,
    pub witness: Vec<u16>,
    pub work: Vec<u16>,
    pub row: Vec<u8>,
}

pub const JUNK_BYTE: u8 = 170;
pub const JUNK_WORD: u16 = 43690;

pub fn weight_count(n: usize) -> usize {
    (1..n).sum()
}

/// Lists the vertices i < j of n in the order of the weights.
pub fn every_two(n: usize) -> Vec<(usize, usize)> {
    let mut pairs = Vec::new();
    for i in 0..n {
        for j in i + 1..n {
            pairs.push((i, j));
        }
    }
    pairs
}

impl Buffers {
    /// Makes exact buffers for n vertices with these edges, all weights 1.
    pub fn new(n: usize, edges: &[(usize, usize)]) -> Buffers {
        let mut buffers = Buffers {
            adjacency: vec![0; n * n],
            weights: vec![1; weight_count(n)],
            inverse: vec![JUNK_WORD; n * n],
            sequence: vec![JUNK_BYTE; n],
            witness: vec![JUNK_WORD; n],
            work: vec![JUNK_WORD; n * n],
            row: vec![JUNK_BYTE; n],
        };
        for &(i, j) in edges {
            buffers.adjacency[i * n + j] = 1;
            buffers.adjacency[j * n + i] = 1;
        }
        buffers
    }

    pub fn complete(n: usize) -> Buffers {
        Buffers::new(n, &every_two(n))
    }

    pub fn with_weights(mut self, weights: &[u16]) -> Buffers {
        self.weights = weights.to_vec();
        self
    }

    /// Makes a random graph, often with small weights, so that matrices are singular by
    /// cancellation too.
    pub fn random(random: &mut Random, n: usize) -> Buffers {
        let percent = random.choose(&[20, 40, 60, 80, 100]);
        let range = random.below(3);
        let mut edges = Vec::new();
        let mut weights = Vec::new();
        for pair in every_two(n) {
            if random.chance(percent) {
                edges.push(pair);
            }
            weights.push(match range {
                0 => random.choose(&[1, 65520]),
                1 => random.choose(&[1, 2, 3, 65519, 65520]),
                _ => 1 + random.below(65520) as u16,
            });
        }
        Buffers::new(n, &edges).with_weights(&weights)
    }

    /// Lengthens every buffer by some junk.
    pub fn with_excess(mut self, random: &mut Random) -> Buffers {
        fn extend<T: Clone>(buffer: &mut Vec<T>, junk: T, random: &mut Random) {
            let length = buffer.len() + random.below(4) as usize;
            buffer.resize(length, junk);
        }
        extend(&mut self.adjacency, JUNK_BYTE, random);
        extend(&mut self.weights, 0, random);
        extend(&mut self.inverse, JUNK_WORD, random);
        extend(&mut self.sequence, JUNK_BYTE, random);
        extend(&mut self.witness, JUNK_WORD, random);
        extend(&mut self.work, JUNK_WORD, random);
        extend(&mut self.row, JUNK_BYTE, random);
        self
    }

    pub fn graph(&self, n: usize) -> Graph<'_> {
        Graph::checked(n as u64, &self.adjacency, &self.weights).expect("a good graph")
    }

    pub fn open(&mut self, size: u64) -> Result<Opening, Refusal> {
        open(
            size,
            &self.adjacency,
            &self.weights,
            &mut self.inverse,
            &mut self.sequence,
            &mut self.witness,
            &mut self.work,
        )
    }

    /// Opens a graph whose matrix has an inverse.
    pub fn opened(&mut self, size: u64) -> Session {
        match self.open(size) {
            Ok(Opening::Opened(session)) => session,
            other => panic!("not opened: {other:?}"),
        }
    }

    pub fn pick(&mut self, session: Session, a: u64, b: u64) -> Outcome<Pair> {
        pick(
            session,
            a,
            b,
            &self.adjacency,
            &self.weights,
            &mut self.inverse,
            &mut self.sequence,
        )
    }

    pub fn automatic(&mut self, session: Session) -> Outcome<Pair> {
        automatic(
            session,
            &self.adjacency,
            &self.weights,
            &mut self.inverse,
            &mut self.sequence,
        )
    }

    pub fn undo(&mut self, session: Session) -> Outcome<Pair> {
        undo(
            session,
            &self.adjacency,
            &self.weights,
            &mut self.inverse,
            &mut self.sequence,
        )
    }

    pub fn row(&mut self, session: Session, a: u64) -> Outcome<()> {
        row(
            session,
            a,
            &self.adjacency,
            &self.weights,
            &self.inverse,
            &self.sequence,
            &mut self.row,
        )
    }

    /// Makes any call. A row answers no pair.
    pub fn call(&mut self, session: Session, call: Call) -> Outcome<Option<Pair>> {
        let some = |outcome: Outcome<Pair>| Outcome {
            session: outcome.session,
            answer: outcome.answer.map(Some),
        };
        match call {
            Call::Pick(a, b) => some(self.pick(session, a, b)),
            Call::Automatic => some(self.automatic(session)),
            Call::Undo => some(self.undo(session)),
            Call::Row(a) => {
                let outcome = self.row(session, a);
                Outcome {
                    session: outcome.session,
                    answer: outcome.answer.map(|()| None),
                }
            }
        }
    }

    /// Calls, and checks that a refused call changes no buffer and hands the
    /// session back. Returns the numbers of the cause and of the place.
    pub fn refused(&mut self, session: Session, call: Call) -> (u8, u64) {
        let before = self.clone();
        let outcome = self.call(session, call);
        assert_eq!(*self, before, "{call:?} wrote");
        assert_eq!(outcome.session, session, "{call:?} changed the session");
        checked_numbers(outcome.answer.expect_err("a refusal"))
    }

    /// Opens, and checks that a refused opening changes no buffer.
    pub fn opening_refused(&mut self, size: u64) -> (u8, u64) {
        let before = self.clone();
        let answer = self.open(size);
        assert_eq!(*self, before, "opening wrote");
        checked_numbers(answer.expect_err("a refusal"))
    }
}

/// Returns the numbers of a refusal. Checks that it has a cell exactly if its cause
/// is 3.
pub fn checked_numbers(refusal: Refusal) -> (u8, u64) {
    let has_cell = matches!(refusal.place, Place::Cell { .. });
    assert_eq!(has_cell, refusal.cause == Cause::AdjacencyFault);
    refusal.numbers()
}

/// Returns the numbers of a refusal with cause 3: the row and the column of a cell,
/// and its fault.
pub fn cell(row: usize, column: usize, fault: u64) -> (u8, u64) {
    (3, row as u64 + 256 * column as u64 + 65_536 * fault)
}

/// A call of a session.
#[derive(Clone, Copy, Debug, PartialEq, Eq)]
pub enum Call {
    Pick(u64, u64),
    Automatic,
    Undo,
    Row(u64),
}

/// One call of each kind, with harmless vertices.
pub const EACH_CALL: [Call; 4] = [Call::Pick(0, 1), Call::Automatic, Call::Undo, Call::Row(0)];

pub fn session(size: u64, pairs: u64) -> Session {
    Session { size, pairs }
}

pub fn pair(smaller: u64, larger: u64) -> Pair {
    Pair { smaller, larger }
}

/// Makes the records of a good sheet: size, seed, edges, end.
pub fn records(n: u8, seed: u32, edges: &[(u8, u8)]) -> Vec<u8> {
    let mut bytes = vec![1, n, 3];
    bytes.extend(seed.to_le_bytes());
    for &(i, j) in edges {
        bytes.extend([2, i, j]);
    }
    bytes.push(4);
    bytes
}

/// Counts the perfect matchings of these vertices: matches the lowest with each of
/// its neighbours, and counts those of the rest. No weight and no matrix has a part
/// in it.
pub fn perfect_matchings(vertices: &[usize], adjacent: &dyn Fn(usize, usize) -> bool) -> u64 {
    let Some((&lowest, others)) = vertices.split_first() else {
        return 1;
    };
    let neighbours = others.iter().filter(|&&other| adjacent(lowest, other));
    let counts = neighbours.map(|neighbour| {
        let rest = others.iter().filter(|&vertex| vertex != neighbour);
        perfect_matchings(&rest.copied().collect::<Vec<_>>(), adjacent)
    });
    counts.sum()
}

/// Returns the sequence of pairs made by hand.
pub fn sequence_of(n: usize, pairs: &[(u8, u8)]) -> Vec<u8> {
    let mut sequence: Vec<u8> = pairs.iter().flat_map(|&(i, j)| [i, j]).collect();
    sequence.resize(n, UNUSED);
    sequence
}

/// Eliminates row a and column b from a table of the inverse (source document
/// 001, theorem 3.1), with a difference that the caller chooses.
pub fn eliminate(
    n: usize,
    table: &[u16],
    a: usize,
    b: usize,
    minus: fn(Residue, Residue) -> Residue,
) -> Vec<u16> {
    let at = |i: usize, j: usize| Residue::new(u64::from(table[i * n + j]));
    let reciprocal = at(a, b).reciprocal().expect("a nonzero pivot");
    let mut eliminated = Vec::new();
    for i in 0..n {
        for j in 0..n {
            let product = at(i, b).times(at(a, j)).times(reciprocal);
            eliminated.push(minus(at(i, j), product).word());
        }
    }
    eliminated
}
