//! The session and its calls (document 01, "Sheet, matrix, session" and
//! "Session calls").
//!
//! Every call is lent the adjacency table, the weights, the inverse (document
//! 01: "held table") and the sequence of pairs (document 01: "strip"). It first
//! confirms that the session is sound, then checks all else, and writes last.
//! Inverses are computed afresh from the graph.

use crate::causes::{buffer, Cause, Refusal};
use crate::graph::{Extent, Graph, Lent};
use crate::linear_algebra;
use crate::residue::Residue;

/// A byte of the sequence of pairs that holds no vertex.
pub const UNUSED: u8 = 255;

/// The size and the number of pairs made, passed in and handed back (document
/// 01: "session").
#[derive(Clone, Copy, Debug, PartialEq, Eq)]
pub struct Session {
    pub size: u64,
    pub pairs: u64,
}

/// Two matched vertices, the smaller first (document 01: "pair").
#[derive(Clone, Copy, Debug, PartialEq, Eq)]
pub struct Pair {
    pub smaller: u64,
    pub larger: u64,
}

/// The session handed back by a call, and its answer.
#[derive(Clone, Copy, Debug, PartialEq, Eq)]
pub struct Outcome<T> {
    pub session: Session,
    pub answer: Result<T, Refusal>,
}

/// A session that is well formed and has the right inverse (document 01:
/// "sound").
struct Sound<'a> {
    graph: Graph<'a>,
    pairs: usize,
    unmatched: Vec<usize>,
}

/// What an accepted call returns and writes.
struct Change {
    pair: Pair,
    /// The number of pairs afterwards.
    pairs: usize,
    /// Where the two bytes are written in the sequence of pairs.
    sequence_index: usize,
    sequence_bytes: [u8; 2],
    inverse: Vec<u16>,
}

/// Matches a and b, named in either order (document 01: "hand pick").
pub fn pick(
    session: Session,
    a: u64,
    b: u64,
    adjacency: &[u8],
    weights: &[u16],
    inverse: &mut [u16],
    sequence: &mut [u8],
) -> Outcome<Pair> {
    let change = confirm(session, adjacency, weights, inverse, sequence, None)
        .and_then(|sound| pick_change(&sound, a, b));
    carry_out(session, change, inverse, sequence)
}

/// Matches the lowest unmatched vertex with its lowest partner (document 01:
/// "automatic pick").
pub fn automatic(
    session: Session,
    adjacency: &[u8],
    weights: &[u16],
    inverse: &mut [u16],
    sequence: &mut [u8],
) -> Outcome<Pair> {
    let change = confirm(session, adjacency, weights, inverse, sequence, None).and_then(|sound| {
        let (lowest, partner) = lowest_pair(&sound)?;
        pick_change(&sound, lowest, partner)
    });
    carry_out(session, change, inverse, sequence)
}

/// Removes the last pair (document 01: "take-back").
pub fn undo(
    session: Session,
    adjacency: &[u8],
    weights: &[u16],
    inverse: &mut [u16],
    sequence: &mut [u8],
) -> Outcome<Pair> {
    let change = confirm(session, adjacency, weights, inverse, sequence, None)
        .and_then(|sound| undo_change(&sound, sequence));
    carry_out(session, change, inverse, sequence)
}

/// Writes 1 for each vertex whose pick with a would be accepted, 0 for the others
/// (document 01: "open row").
pub fn row(
    session: Session,
    a: u64,
    adjacency: &[u8],
    weights: &[u16],
    inverse: &[u16],
    sequence: &[u8],
    row: &mut [u8],
) -> Outcome<()> {
    let lent = Lent {
        number: buffer::ROW,
        extent: Extent::Vertices,
        length: row.len(),
    };
    let partners = confirm(session, adjacency, weights, inverse, sequence, Some(lent))
        .and_then(|sound| partners_of(&sound, a));
    let answer = partners.map(|bytes| row[..bytes.len()].copy_from_slice(&bytes));
    Outcome { session, answer }
}

/// Refuses a session that is not sound, or a short buffer, where `last` is the
/// one of the highest number: causes 1 to 6.
pub(crate) fn check_sound(
    session: Session,
    adjacency: &[u8],
    weights: &[u16],
    inverse: &[u16],
    sequence: &[u8],
    last: Lent,
) -> Result<(), Refusal> {
    confirm(session, adjacency, weights, inverse, sequence, Some(last)).map(|_| ())
}

/// Tells whether the session is well formed: at most n/2 pairs; the used bytes
/// of the sequence are adjacent pairs, smaller first, all vertices different
/// and below n; the others up to n are unused.
pub fn is_well_formed(graph: &Graph, pairs: u64, sequence: &[u8]) -> bool {
    let n = graph.size();
    if sequence.len() < n || pairs > (n / 2) as u64 {
        return false;
    }
    let (used, rest) = sequence[..n].split_at(2 * pairs as usize);
    used.chunks(2).all(|pair| is_edge(graph, pair))
        && all_different(used)
        && rest.iter().all(|&byte| byte == UNUSED)
}

fn is_edge(graph: &Graph, pair: &[u8]) -> bool {
    pair[0] < pair[1] && graph.adjacent(usize::from(pair[0]), usize::from(pair[1]))
}

fn all_different(bytes: &[u8]) -> bool {
    (0..bytes.len()).all(|index| !bytes[..index].contains(&bytes[index]))
}

/// Inverts the Tutte matrix of the given vertices, as a table of n times n words
/// with the inverse in their rows and columns and 0 elsewhere. None if there is
/// no inverse.
pub(crate) fn inverse_table(graph: &Graph, vertices: &[usize]) -> Option<Vec<u16>> {
    let n = graph.size();
    let inverse = linear_algebra::inverse(&graph.tutte_matrix(vertices))?;
    let mut table = vec![0; n * n];
    for (row, &i) in vertices.iter().enumerate() {
        for (column, &j) in vertices.iter().enumerate() {
            *table.get_mut(i * n + j)? = inverse.get(row, column)?.word();
        }
    }
    Some(table)
}

/// Confirms that the session is sound. Refuses with causes 1 to 6; `last` is a
/// buffer that only some calls are lent, after the four of every call.
fn confirm<'a>(
    session: Session,
    adjacency: &'a [u8],
    weights: &'a [u16],
    inverse: &[u16],
    sequence: &[u8],
    last: Option<Lent>,
) -> Result<Sound<'a>, Refusal> {
    let others = other_buffers(inverse.len(), sequence.len(), last);
    let graph = Graph::checked_with(session.size, adjacency, weights, &others)?;
    if !is_well_formed(&graph, session.pairs, sequence) {
        return Err(Cause::SessionMalformed.refusal());
    }
    let pairs = session.pairs as usize;
    let unmatched = unmatched_vertices(&graph, &sequence[..2 * pairs]);
    let n = graph.size();
    match inverse_table(&graph, &unmatched) {
        Some(table) if table[..] == inverse[..n * n] => Ok(Sound {
            graph,
            pairs,
            unmatched,
        }),
        _ => Err(Cause::InverseWrong.refusal()),
    }
}

fn other_buffers(inverse: usize, sequence: usize, last: Option<Lent>) -> Vec<Lent> {
    let mut others = vec![
        Lent {
            number: buffer::INVERSE,
            extent: Extent::Cells,
            length: inverse,
        },
        Lent {
            number: buffer::SEQUENCE,
            extent: Extent::Vertices,
            length: sequence,
        },
    ];
    others.extend(last);
    others
}

/// Lists the unmatched vertices (document 01: "loose"), ascending.
fn unmatched_vertices(graph: &Graph, matched: &[u8]) -> Vec<usize> {
    let is_unmatched = |vertex: &usize| matched.iter().all(|&byte| usize::from(byte) != *vertex);
    (0..graph.size()).filter(is_unmatched).collect()
}

/// Refuses a pick of a and b: causes 7 to 10.
fn check_pair(sound: &Sound, a: u64, b: u64) -> Result<(), Refusal> {
    check_below(sound, a)?;
    check_below(sound, b)?;
    if a == b {
        return Err(Cause::VertexInvalid.refusal());
    }
    check_unmatched(sound, a)?;
    check_unmatched(sound, b)?;
    if !sound.graph.adjacent(a as usize, b as usize) {
        return Err(Cause::NotAdjacent.refusal());
    }
    let rest = sound.graph.tutte_matrix(&without(sound, a, b));
    if linear_algebra::determinant(&rest) == Some(Residue::ZERO) {
        return Err(Cause::RestSingular.refusal());
    }
    Ok(())
}

/// Refuses a vertex that is not below n: cause 7.
fn check_below(sound: &Sound, vertex: u64) -> Result<(), Refusal> {
    if vertex >= sound.graph.size() as u64 {
        return Err(Cause::VertexInvalid.refusal());
    }
    Ok(())
}

/// Refuses a matched vertex: cause 8.
fn check_unmatched(sound: &Sound, vertex: u64) -> Result<(), Refusal> {
    if !sound.unmatched.contains(&(vertex as usize)) {
        return Err(Cause::VertexMatched.refusal());
    }
    Ok(())
}

/// Lists the unmatched vertices other than a and b.
fn without(sound: &Sound, a: u64, b: u64) -> Vec<usize> {
    let stays = |vertex: &usize| *vertex as u64 != a && *vertex as u64 != b;
    sound.unmatched.iter().copied().filter(stays).collect()
}

/// Finds the lowest unmatched vertex and its lowest partner. Refuses if no vertex
/// is unmatched: cause 11. A sound session has a partner for every unmatched
/// vertex (source document 001, theorem 2.6).
fn lowest_pair(sound: &Sound) -> Result<(u64, u64), Refusal> {
    let nothing_left = Cause::NothingLeft.refusal();
    let &lowest = sound.unmatched.first().ok_or(nothing_left)?;
    let lowest = lowest as u64;
    (0..sound.graph.size() as u64)
        .find(|&partner| check_pair(sound, lowest, partner).is_ok())
        .map(|partner| (lowest, partner))
        .ok_or(nothing_left)
}

/// Makes the row of vertex a. Refuses with causes 7 and 8 for a itself.
fn partners_of(sound: &Sound, a: u64) -> Result<Vec<u8>, Refusal> {
    check_below(sound, a)?;
    check_unmatched(sound, a)?;
    let byte = |b| u8::from(check_pair(sound, a, b).is_ok());
    Ok((0..sound.graph.size() as u64).map(byte).collect())
}

/// Appends a and b to the sequence, smaller first.
fn pick_change(sound: &Sound, a: u64, b: u64) -> Result<Change, Refusal> {
    check_pair(sound, a, b)?;
    let inverse =
        inverse_table(&sound.graph, &without(sound, a, b)).ok_or(Cause::RestSingular.refusal())?;
    let pair = Pair {
        smaller: a.min(b),
        larger: a.max(b),
    };
    Ok(Change {
        pair,
        pairs: sound.pairs + 1,
        sequence_index: 2 * sound.pairs,
        sequence_bytes: [pair.smaller as u8, pair.larger as u8],
        inverse,
    })
}

/// Removes the last pair from the sequence. Refuses with cause 11, then 10.
fn undo_change(sound: &Sound, sequence: &[u8]) -> Result<Change, Refusal> {
    if sound.pairs == 0 {
        return Err(Cause::NothingLeft.refusal());
    }
    let pairs = sound.pairs - 1;
    let unmatched = unmatched_vertices(&sound.graph, &sequence[..2 * pairs]);
    let inverse = inverse_table(&sound.graph, &unmatched).ok_or(Cause::RestSingular.refusal())?;
    Ok(Change {
        pair: Pair {
            smaller: u64::from(sequence[2 * pairs]),
            larger: u64::from(sequence[2 * pairs + 1]),
        },
        pairs,
        sequence_index: 2 * pairs,
        sequence_bytes: [UNUSED, UNUSED],
        inverse,
    })
}

/// Writes an accepted change, and nothing on a refusal.
fn carry_out(
    session: Session,
    change: Result<Change, Refusal>,
    inverse: &mut [u16],
    sequence: &mut [u8],
) -> Outcome<Pair> {
    match change {
        Ok(change) => {
            inverse[..change.inverse.len()].copy_from_slice(&change.inverse);
            let index = change.sequence_index;
            sequence[index..index + 2].copy_from_slice(&change.sequence_bytes);
            Outcome {
                session: Session {
                    size: session.size,
                    pairs: change.pairs as u64,
                },
                answer: Ok(change.pair),
            }
        }
        Err(refusal) => Outcome {
            session,
            answer: Err(refusal),
        },
    }
}
