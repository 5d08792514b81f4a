//! The graph: size, adjacency table, weights and Tutte matrix (document 01,
//! "Sheet, matrix, session"), and the causes 1 to 4 (document 02, request 2, for
//! the cell of 3).

use crate::causes::{buffer, Cause, CellFault, Refusal};
use crate::linear_algebra::Matrix;
use crate::residue::Residue;

/// The largest number of vertices.
pub const MAX_VERTICES: u64 = 96;

/// How many elements a buffer needs for n vertices.
#[derive(Clone, Copy, Debug, PartialEq, Eq)]
pub enum Extent {
    /// n.
    Vertices,
    /// n times n.
    Cells,
    /// n(n - 1)/2.
    Weights,
    /// A number that does not depend on n.
    Fixed(usize),
}

/// A lent buffer as cause 2 sees it.
#[derive(Clone, Copy, Debug, PartialEq, Eq)]
pub struct Lent {
    pub number: u64,
    pub extent: Extent,
    pub length: usize,
}

/// A checked graph: causes 1 to 4 do not apply (document 01: "sheet").
#[derive(Clone, Copy, Debug)]
pub struct Graph<'a> {
    size: usize,
    /// n times n bytes, row by row, 1 for adjacent (document 01: "share table").
    adjacency: &'a [u8],
    /// One word for each two vertices, (0,1), (0,2) .. (document 01: "draws").
    weights: &'a [u16],
}

impl<'a> Graph<'a> {
    /// Checks size, lengths, adjacency and weights, in this order.
    pub fn checked(
        size: u64,
        adjacency: &'a [u8],
        weights: &'a [u16],
    ) -> Result<Graph<'a>, Refusal> {
        Graph::checked_with(size, adjacency, weights, &[])
    }

    /// checked, for a call that is lent other buffers too, in ascending numbers:
    /// looks at all lengths before any cell.
    pub fn checked_with(
        size: u64,
        adjacency: &'a [u8],
        weights: &'a [u16],
        others: &[Lent],
    ) -> Result<Graph<'a>, Refusal> {
        let n = checked_size(size)?;
        check_lengths(n, &graph_buffers(adjacency, weights))?;
        check_lengths(n, others)?;
        check_adjacency(n, adjacency)?;
        check_weights(n, weights)?;
        Ok(Graph {
            size: n,
            adjacency: &adjacency[..n * n],
            weights: &weights[..weight_count(n)],
        })
    }

    /// Returns the number n of vertices.
    pub fn size(&self) -> usize {
        self.size
    }

    /// Tells whether i and j are adjacent. False if either is not below n.
    pub fn adjacent(&self, i: usize, j: usize) -> bool {
        i < self.size && j < self.size && self.adjacency[i * self.size + j] == 1
    }

    /// Returns the weight of i and j, in either order. None if i = j or either is
    /// not below n.
    pub fn weight(&self, i: usize, j: usize) -> Option<u16> {
        let (low, high) = (i.min(j), i.max(j));
        if low < high && high < self.size {
            Some(self.weights[weight_index(self.size, low, high)])
        } else {
            None
        }
    }

    /// Returns entry (i, j) of the Tutte matrix (document 01: "matrix A"): the
    /// weight above the diagonal, p minus the weight below, 0 without an edge.
    pub fn tutte_entry(&self, i: usize, j: usize) -> Residue {
        if !self.adjacent(i, j) {
            return Residue::ZERO;
        }
        let weight = Residue::new(self.weight(i, j).map_or(0, u64::from));
        if i < j {
            weight
        } else {
            weight.negated()
        }
    }

    /// Restricts the Tutte matrix to these vertices, in the order given.
    pub fn tutte_matrix(&self, vertices: &[usize]) -> Matrix {
        Matrix::from_entries(vertices.len(), vertices.len(), |row, column| {
            self.tutte_entry(vertices[row], vertices[column])
        })
    }

    /// Lists all vertices, ascending.
    pub fn vertices(&self) -> Vec<usize> {
        (0..self.size).collect()
    }
}

/// Returns the size as an index, or refuses one above 96: cause 1.
pub(crate) fn checked_size(size: u64) -> Result<usize, Refusal> {
    if size > MAX_VERTICES {
        Err(Cause::SizeTooLarge.refusal())
    } else {
        Ok(size as usize)
    }
}

/// Counts the weights of n vertices: n(n - 1)/2.
pub(crate) fn weight_count(n: usize) -> usize {
    n * n.saturating_sub(1) / 2
}

/// Returns the index of the weight of i < j < n: the rows before i have
/// (n - 1) + (n - 2) + .. weights.
fn weight_index(n: usize, i: usize, j: usize) -> usize {
    i * n - i * (i + 1) / 2 + (j - i - 1)
}

/// Describes the two buffers of a graph.
pub(crate) fn graph_buffers(adjacency: &[u8], weights: &[u16]) -> [Lent; 2] {
    [
        Lent {
            number: buffer::ADJACENCY,
            extent: Extent::Cells,
            length: adjacency.len(),
        },
        lent_weights(weights),
    ]
}

/// Describes the buffer of weights.
pub(crate) fn lent_weights(weights: &[u16]) -> Lent {
    Lent {
        number: buffer::WEIGHTS,
        extent: Extent::Weights,
        length: weights.len(),
    }
}

/// Refuses the first buffer that is too short for n vertices: cause 2.
pub(crate) fn check_lengths(n: usize, lent: &[Lent]) -> Result<(), Refusal> {
    for buffer in lent {
        let needed = match buffer.extent {
            Extent::Vertices => n,
            Extent::Cells => n * n,
            Extent::Weights => weight_count(n),
            Extent::Fixed(count) => count,
        };
        if buffer.length < needed {
            return Err(Cause::BufferTooShort.at(buffer.number));
        }
    }
    Ok(())
}

/// Refuses the first faulty cell, row by row: cause 3.
fn check_adjacency(n: usize, adjacency: &[u8]) -> Result<(), Refusal> {
    for row in 0..n {
        for column in 0..n {
            if let Some(fault) = cell_fault(n, adjacency, row, column) {
                return Err(Refusal::of_cell(row, column, fault));
            }
        }
    }
    Ok(())
}

/// Finds the first fault of a cell, in the order of the paper's table: it is not 0
/// or 1, it is not 0 on the diagonal, it is unequal to its mirror.
fn cell_fault(n: usize, adjacency: &[u8], row: usize, column: usize) -> Option<CellFault> {
    let cell = adjacency[row * n + column];
    let mirror = adjacency[column * n + row];
    if cell != 0 && cell != 1 {
        Some(CellFault::NotZeroOrOne)
    } else if row == column && cell != 0 {
        Some(CellFault::DiagonalNotZero)
    } else if cell != mirror {
        Some(CellFault::UnequalToMirror)
    } else {
        None
    }
}

/// Refuses the first weight outside 1..65520, with or without an edge: cause 4.
fn check_weights(n: usize, weights: &[u16]) -> Result<(), Refusal> {
    for (index, &weight) in weights[..weight_count(n)].iter().enumerate() {
        if weight == 0 || u64::from(weight) >= Residue::MODULUS {
            return Err(Cause::WeightOutOfRange.at(index as u64));
        }
    }
    Ok(())
}
