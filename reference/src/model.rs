//! The plain model of a run of calls (document 01, "The plain desk").
//!
//! It keeps a list of pairs and nothing else. All else follows from that list
//! and the graph: inverses by solving for one column after another, their
//! existence by the rank.

use crate::causes::{Cause, Refusal};
use crate::graph::Graph;
use crate::linear_algebra;
use crate::residue::Residue;
use crate::session::{Pair, Session, UNUSED};

/// The list of pairs, in the order in which they were matched (document 01:
/// "plain desk").
#[derive(Clone, Debug, Default, PartialEq, Eq)]
pub struct Model {
    pub pairs: Vec<Pair>,
}

impl Model {
    /// Makes the model after opening, with no pairs.
    pub fn new() -> Model {
        Model::default()
    }

    /// Picks a and b (document 01: "hand pick"). Refuses with the lowest of 7, 8,
    /// 9 and 10 that applies.
    pub fn pick(&mut self, graph: &Graph, a: u64, b: u64) -> Result<Pair, Refusal> {
        if let Some(cause) = self.pair_cause(graph, a, b) {
            return Err(cause.refusal());
        }
        let pair = Pair {
            smaller: a.min(b),
            larger: a.max(b),
        };
        self.pairs.push(pair);
        Ok(pair)
    }

    /// Picks the lowest unmatched vertex and its lowest partner (document 01:
    /// "automatic pick").
    pub fn automatic(&mut self, graph: &Graph) -> Result<Pair, Refusal> {
        let nothing_left = Cause::NothingLeft.refusal();
        let &lowest = self.unmatched(graph).first().ok_or(nothing_left)?;
        let &partner = self.partners(graph, lowest).first().ok_or(nothing_left)?;
        self.pick(graph, lowest, partner)
    }

    /// Removes the last pair (document 01: "take-back"). Refuses with 11 without
    /// a pair, then with 10 if no inverse would be left.
    pub fn undo(&mut self, graph: &Graph) -> Result<Pair, Refusal> {
        let (&last, before) = self
            .pairs
            .split_last()
            .ok_or(Cause::NothingLeft.refusal())?;
        let before = Model {
            pairs: before.to_vec(),
        };
        if !has_inverse(graph, &before.unmatched(graph)) {
            return Err(Cause::RestSingular.refusal());
        }
        *self = before;
        Ok(last)
    }

    /// Lists the vertices in no pair, ascending.
    pub fn unmatched(&self, graph: &Graph) -> Vec<u64> {
        let is_unmatched = |vertex: &u64| {
            self.pairs
                .iter()
                .all(|pair| pair.smaller != *vertex && pair.larger != *vertex)
        };
        (0..graph.size() as u64).filter(is_unmatched).collect()
    }

    /// Finds the lowest of the causes 7 to 10 that applies to a pick of a and b.
    pub fn pair_cause(&self, graph: &Graph, a: u64, b: u64) -> Option<Cause> {
        let n = graph.size() as u64;
        let unmatched = self.unmatched(graph);
        let rest: Vec<u64> = unmatched
            .iter()
            .copied()
            .filter(|&vertex| vertex != a && vertex != b)
            .collect();
        if a >= n || b >= n || a == b {
            Some(Cause::VertexInvalid)
        } else if !unmatched.contains(&a) || !unmatched.contains(&b) {
            Some(Cause::VertexMatched)
        } else if !graph.adjacent(a as usize, b as usize) {
            Some(Cause::NotAdjacent)
        } else if !has_inverse(graph, &rest) {
            Some(Cause::RestSingular)
        } else {
            None
        }
    }

    /// Lists the vertices whose pick with a would be accepted, ascending (document
    /// 01: "open partner").
    pub fn partners(&self, graph: &Graph, a: u64) -> Vec<u64> {
        (0..graph.size() as u64)
            .filter(|&b| self.pair_cause(graph, a, b).is_none())
            .collect()
    }

    /// Counts the automatic picks in a row that are accepted before one is refused
    /// (document 01: "picks to come").
    pub fn picks_to_come(&self, graph: &Graph) -> u64 {
        let mut ahead = self.clone();
        let mut picks = 0;
        while ahead.automatic(graph).is_ok() {
            picks += 1;
        }
        picks
    }

    /// Returns the session: the size and the number of pairs.
    pub fn session(&self, graph: &Graph) -> Session {
        Session {
            size: graph.size() as u64,
            pairs: self.pairs.len() as u64,
        }
    }

    /// Returns the sequence of pairs (document 01: "strip"): the pairs in order,
    /// then unused bytes, n in all.
    pub fn sequence(&self, graph: &Graph) -> Vec<u8> {
        let mut sequence: Vec<u8> = self
            .pairs
            .iter()
            .flat_map(|pair| [pair.smaller as u8, pair.larger as u8])
            .collect();
        sequence.resize(graph.size(), UNUSED);
        sequence
    }

    /// Returns the inverse for the unmatched vertices as a table of n times n words
    /// (document 01: "held table"), 0 in the other rows and columns. None if there
    /// is no inverse.
    pub fn inverse(&self, graph: &Graph) -> Option<Vec<u16>> {
        let n = graph.size();
        let vertices = indices(&self.unmatched(graph));
        let matrix = graph.tutte_matrix(&vertices);
        let mut table = vec![0; n * n];
        for (index, &column) in vertices.iter().enumerate() {
            let mut unit = vec![Residue::ZERO; vertices.len()];
            unit[index] = Residue::ONE;
            let solution = linear_algebra::solve(&matrix, &unit)?;
            for (&row, word) in vertices.iter().zip(solution) {
                table[row * n + column] = word.word();
            }
        }
        Some(table)
    }
}

fn indices(vertices: &[u64]) -> Vec<usize> {
    vertices.iter().map(|&vertex| vertex as usize).collect()
}

/// Tells whether the Tutte matrix of these vertices has an inverse. That of no
/// vertices has one.
fn has_inverse(graph: &Graph, vertices: &[u64]) -> bool {
    let matrix = graph.tutte_matrix(&indices(vertices));
    linear_algebra::rank(&matrix) == matrix.row_count()
}
