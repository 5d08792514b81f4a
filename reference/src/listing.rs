//! What the program prints (document 01, "Listing"; the verdict by document 02,
//! request 3).

use crate::causes::Refusal;
use crate::graph::{weight_count, MAX_VERTICES};
use crate::opening::{open, Opening};
use crate::records::{read_graph, Counts};
use crate::session::{automatic, Session};

/// How many bytes the program reads at most.
pub const INPUT_LIMIT: usize = 16_384;

/// Buffers for the largest graph.
struct Buffers {
    adjacency: Vec<u8>,
    weights: Vec<u16>,
    inverse: Vec<u16>,
    sequence: Vec<u8>,
    witness: Vec<u16>,
    work: Vec<u16>,
}

/// Lists a sheet: the whole text, every line ended by a line feed.
pub fn listing(bytes: &[u8]) -> String {
    match accepted_lines(bytes) {
        Ok(lines) => lines,
        Err(refusal) => refused_line(refusal),
    }
}

fn refused_line(refusal: Refusal) -> String {
    let (number, place) = refusal.numbers();
    format!("refused {number} at {place}\n")
}

fn accepted_lines(bytes: &[u8]) -> Result<String, Refusal> {
    let mut buffers = largest_buffers();
    let counts = read_graph(bytes, &mut buffers.adjacency, &mut buffers.weights)?;
    let opening = open(
        counts.size,
        &buffers.adjacency,
        &buffers.weights,
        &mut buffers.inverse,
        &mut buffers.sequence,
        &mut buffers.witness,
        &mut buffers.work,
    )?;
    let lines = match opening {
        Opening::Opened(session) => pair_lines(session, &mut buffers),
        Opening::Singular { .. } => witness_lines(&buffers.witness[..counts.size as usize]),
    };
    let last = format!("verdict {}\n", verdict(opening, counts.size));
    Ok(first_line(counts) + &lines + &last)
}

/// Returns the letter of the verdict on a graph of n vertices.
///
/// - F: opened. The pairs listed are a perfect matching.
/// - O: a witness, and n is odd. There is no perfect matching, whatever the weights.
/// - U: a witness, and n is even. Undecided under these weights: there may be a
///   perfect matching, or none. The edges are not searched, so two vertices without
///   an edge are U too.
pub fn verdict(opening: Opening, n: u64) -> char {
    match opening {
        Opening::Opened(_) => 'F',
        Opening::Singular { .. } if n % 2 == 1 => 'O',
        Opening::Singular { .. } => 'U',
    }
}

fn largest_buffers() -> Buffers {
    let n = MAX_VERTICES as usize;
    Buffers {
        adjacency: vec![0; n * n],
        weights: vec![0; weight_count(n)],
        inverse: vec![0; n * n],
        sequence: vec![0; n],
        witness: vec![0; n],
        work: vec![0; n * n],
    }
}

fn first_line(counts: Counts) -> String {
    format!("sleeves {} links {}\n", counts.size, counts.edges)
}

/// Makes automatic picks until one is refused, and returns a line for each pair.
fn pair_lines(opened: Session, buffers: &mut Buffers) -> String {
    let mut lines = String::new();
    let mut session = opened;
    loop {
        let outcome = automatic(
            session,
            &buffers.adjacency,
            &buffers.weights,
            &mut buffers.inverse,
            &mut buffers.sequence,
        );
        match outcome.answer {
            Ok(pair) => lines += &format!("pair {} {}\n", pair.smaller, pair.larger),
            Err(_) => return lines,
        }
        session = outcome.session;
    }
}

/// Returns a line for each nonzero word of the witness, ascending.
fn witness_lines(witness: &[u16]) -> String {
    let nonzero = witness.iter().enumerate().filter(|(_, &word)| word != 0);
    nonzero
        .map(|(index, word)| format!("witness {index} {word}\n"))
        .collect()
}
