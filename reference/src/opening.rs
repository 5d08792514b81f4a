//! Opening a session (document 01, "Opening").

use crate::causes::{buffer, Refusal};
use crate::graph::{Extent, Graph, Lent};
use crate::linear_algebra;
use crate::session::{inverse_table, Session, UNUSED};

/// What opening gives for an accepted graph.
#[derive(Clone, Copy, Debug, PartialEq, Eq)]
pub enum Opening {
    /// The Tutte matrix has an inverse (document 01: "opened").
    Opened(Session),
    /// It has none; its first dependent column (document 01: "witness", f).
    Singular { column: u64 },
}

/// What opening writes.
struct Contents {
    inverse: Vec<u16>,
    witness: Vec<u16>,
}

/// Opens a session on a graph. Writes the inverse, the sequence of pairs, the
/// witness and the work table.
pub fn open(
    size: u64,
    adjacency: &[u8],
    weights: &[u16],
    inverse: &mut [u16],
    sequence: &mut [u8],
    witness: &mut [u16],
    work: &mut [u16],
) -> Result<Opening, Refusal> {
    let others = other_buffers(inverse.len(), sequence.len(), witness.len(), work.len());
    let graph = Graph::checked_with(size, adjacency, weights, &others)?;
    let n = graph.size();
    let (opening, contents) = decide(&graph);
    inverse[..n * n].copy_from_slice(&contents.inverse);
    witness[..n].copy_from_slice(&contents.witness);
    sequence[..n].fill(UNUSED);
    work[..n * n].fill(0);
    Ok(opening)
}

fn other_buffers(inverse: usize, sequence: usize, witness: usize, work: usize) -> [Lent; 4] {
    let lent = |number, extent, length| Lent {
        number,
        extent,
        length,
    };
    [
        lent(buffer::INVERSE, Extent::Cells, inverse),
        lent(buffer::SEQUENCE, Extent::Vertices, sequence),
        lent(buffer::WITNESS, Extent::Vertices, witness),
        lent(buffer::WORK, Extent::Cells, work),
    ]
}

/// Finds the witness of the first dependent column, or, if there is none, the
/// inverse. The other of the two is 0.
fn decide(graph: &Graph) -> (Opening, Contents) {
    let n = graph.size();
    let vertices = graph.vertices();
    match linear_algebra::witness(&graph.tutte_matrix(&vertices)) {
        Some((column, vector)) => {
            let opening = Opening::Singular {
                column: column as u64,
            };
            let contents = Contents {
                inverse: vec![0; n * n],
                witness: vector.into_iter().map(|word| word.word()).collect(),
            };
            (opening, contents)
        }
        None => {
            let opening = Opening::Opened(Session {
                size: n as u64,
                pairs: 0,
            });
            let contents = Contents {
                inverse: inverse_table(graph, &vertices).unwrap_or_else(|| vec![0; n * n]),
                witness: vec![0; n],
            };
            (opening, contents)
        }
    }
}
