//! The reader of a graph in the DIMACS edge format (document 02, request 1).

use crate::causes::{Cause, Refusal};
use crate::graph::MAX_VERTICES;
use crate::records::{Counts, Draft};

/// A number of any size: its digits without leading zeros, none for 0.
#[derive(Clone, Copy, Debug, PartialEq, Eq)]
struct Number<'a>(&'a [u8]);

impl<'a> Number<'a> {
    /// Reads a field: one digit or more.
    fn read(field: &'a [u8]) -> Option<Number<'a>> {
        if field.is_empty() || !field.iter().all(u8::is_ascii_digit) {
            return None;
        }
        let zeros = field.iter().take_while(|&&digit| digit == b'0').count();
        Some(Number(&field[zeros..]))
    }

    /// Returns the number, unless it is above the bound, as every one of more than
    /// 20 digits is.
    fn at_most(self, bound: u64) -> Option<u64> {
        let Number(digits) = self;
        if digits.len() > 20 {
            return None;
        }
        let add_digit = |value: u128, digit: &u8| 10 * value + u128::from(digit - b'0');
        let value = digits.iter().fold(0, add_digit);
        (value <= u128::from(bound)).then_some(value as u64)
    }

    fn is(self, value: u64) -> bool {
        self.at_most(value) == Some(value)
    }
}

/// What a line says.
#[derive(Clone, Copy, Debug, PartialEq, Eq)]
enum Line<'a> {
    /// `c` and anything.
    Comment,
    /// `p edge N M`: N vertices, M lines of edges.
    Problem { n: Number<'a>, m: Number<'a> },
    /// `e u v`: vertices u and v, counted from 1, are adjacent.
    Edge { u: Number<'a>, v: Number<'a> },
}

impl<'a> Line<'a> {
    /// Reads a line, which ends in a line feed.
    fn read(bytes: &'a [u8]) -> Option<Line<'a>> {
        let line = bytes.strip_suffix(b"\n")?;
        if line.starts_with(b"c") {
            return Some(Line::Comment);
        }
        let fields: Vec<&[u8]> = line.split(|&byte| byte == b' ').collect();
        match fields[..] {
            [b"p", b"edge", n, m] => Some(Line::Problem {
                n: Number::read(n)?,
                m: Number::read(m)?,
            }),
            [b"e", u, v] => Some(Line::Edge {
                u: Number::read(u)?,
                v: Number::read(v)?,
            }),
            _ => None,
        }
    }
}

/// What the lines from `p edge N M` on have said.
struct Problem<'a> {
    graph: Draft,
    m: Number<'a>,
    /// How many lines of edges there were, with those that repeat an edge.
    lines: u64,
}

/// Reads a graph and fills the adjacency table, and the weights with the draws of
/// a seed. Refuses the first faulty line; looks at the number of edges after all
/// lines, and at the lengths of the buffers last.
pub fn read_dimacs(
    text: &[u8],
    seed: u32,
    adjacency: &mut [u8],
    weights: &mut [u16],
) -> Result<Counts, Refusal> {
    parse(text)?.fill(seed, adjacency, weights)
}

/// Reads all lines. Refuses with cause 16, 1 or 14 at the first line that is at
/// fault; then with 16 at 0 if there is no problem line, then with 17 at 0.
fn parse(text: &[u8]) -> Result<Draft, Refusal> {
    let mut problem = None;
    for (index, line) in text.split_inclusive(|&byte| byte == b'\n').enumerate() {
        take_line(&mut problem, line).map_err(|cause| cause.at(index as u64 + 1))?;
    }
    let problem = problem.ok_or(Cause::LineInvalid.refusal())?;
    if !problem.m.is(problem.lines) {
        return Err(Cause::LineCountWrong.refusal());
    }
    Ok(problem.graph)
}

/// Takes one line. A problem line must be the only one and stand before the edges.
fn take_line<'a>(problem: &mut Option<Problem<'a>>, line: &'a [u8]) -> Result<(), Cause> {
    let line = Line::read(line).ok_or(Cause::LineInvalid)?;
    match (line, problem.as_mut()) {
        (Line::Comment, _) => Ok(()),
        (Line::Problem { n, m }, None) => {
            *problem = Some(begin(n, m)?);
            Ok(())
        }
        (Line::Edge { u, v }, Some(problem)) => add_edge(problem, u, v),
        (Line::Problem { .. }, Some(_)) | (Line::Edge { .. }, None) => Err(Cause::LineInvalid),
    }
}

/// Begins a graph. Refuses one of more than 96 vertices: cause 1.
fn begin<'a>(n: Number, m: Number<'a>) -> Result<Problem<'a>, Cause> {
    let n = n.at_most(MAX_VERTICES).ok_or(Cause::SizeTooLarge)?;
    Ok(Problem {
        graph: Draft::new(n as usize),
        m,
        lines: 0,
    })
}

/// Adds an edge, or counts it only if an earlier line has it, in either order.
/// Refuses a vertex that is 0 or above N, or the same one twice: cause 14.
fn add_edge(problem: &mut Problem, u: Number, v: Number) -> Result<(), Cause> {
    let n = problem.graph.n as u64;
    let vertex = |number: Number| match number.at_most(n) {
        None | Some(0) => Err(Cause::RecordVertexInvalid),
        Some(counted_from_1) => Ok(counted_from_1 as usize - 1),
    };
    let (i, j) = (vertex(u)?, vertex(v)?);
    if i == j {
        return Err(Cause::RecordVertexInvalid);
    }
    problem.graph.add_edge(i, j);
    problem.lines += 1;
    Ok(())
}
