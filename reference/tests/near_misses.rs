//! Document 01, "Near misses in elimination" and the broken programs of "A
//! paragraph to the testers", and wrong verdicts beside those of document 02,
//! request 3. Each is written as a wrong variant, and an input tells it apart from
//! the right one.

mod common;

use common::*;
use reference::causes::{Cause, Refusal};
use reference::linear_algebra::{inverse, Matrix};
use reference::listing::verdict;
use reference::model::Model;
use reference::opening::Opening;
use reference::residue::Residue;
use reference::session::{Outcome, Pair, Session};

/// The calls of a program: the right ones, unless a variant has its own.
trait Program {
    fn open(&self, buffers: &mut Buffers, size: u64) -> Result<Opening, Refusal> {
        buffers.open(size)
    }

    fn pick(&self, buffers: &mut Buffers, session: Session, a: u64, b: u64) -> Outcome<Pair> {
        buffers.pick(session, a, b)
    }

    fn automatic(&self, buffers: &mut Buffers, session: Session) -> Outcome<Pair> {
        buffers.automatic(session)
    }

    /// Returns the letter of the verdict on a graph after opening.
    fn verdict(&self, _: &Buffers, n: usize, opening: Opening) -> char {
        verdict(opening, n as u64)
    }
}

struct Right;
impl Program for Right {}

/// What is seen after a call: the answer, the session, sequence and inverse.
#[derive(Clone, Debug, PartialEq)]
struct Seen {
    answer: Result<Pair, (u8, u64)>,
    session: Session,
    sequence: Vec<u8>,
    inverse: Vec<u16>,
}

/// Returns what is seen of a program on an opened graph, call by call. None if
/// the graph does not open.
fn seen(program: &dyn Program, graph: &Buffers, n: usize, calls: &[Call]) -> Option<Vec<Seen>> {
    let mut buffers = graph.clone();
    let Ok(Opening::Opened(mut session)) = program.open(&mut buffers, n as u64) else {
        return None;
    };
    let mut steps = Vec::new();
    for call in calls {
        let outcome = match *call {
            Call::Pick(a, b) => program.pick(&mut buffers, session, a, b),
            Call::Automatic => program.automatic(&mut buffers, session),
            Call::Undo => buffers.undo(session),
            Call::Row(_) => panic!("no call of a run"),
        };
        session = outcome.session;
        steps.push(Seen {
            answer: outcome.answer.map_err(Refusal::numbers),
            session,
            sequence: buffers.sequence.clone(),
            inverse: buffers.inverse.clone(),
        });
    }
    Some(steps)
}

/// Returns what the plain model answers to these calls.
fn expected(graph: &Buffers, n: usize, calls: &[Call]) -> Vec<Seen> {
    let graph = graph.graph(n);
    let mut model = Model::new();
    let mut steps = Vec::new();
    for call in calls {
        let answer = match *call {
            Call::Pick(a, b) => model.pick(&graph, a, b),
            Call::Automatic => model.automatic(&graph),
            Call::Undo => model.undo(&graph),
            Call::Row(_) => panic!("no call of a run"),
        };
        steps.push(Seen {
            answer: answer.map_err(Refusal::numbers),
            session: model.session(&graph),
            sequence: model.sequence(&graph),
            inverse: model.inverse(&graph).expect("an inverse"),
        });
    }
    steps
}

/// Checks that the right program agrees with the model and the wrong one does
/// not. Returns what the two show at the first call where they differ.
fn told_apart(wrong: &dyn Program, graph: &Buffers, n: usize, calls: &[Call]) -> (Seen, Seen) {
    let expected = expected(graph, n, calls);
    assert_eq!(seen(&Right, graph, n, calls), Some(expected.clone()));
    let wrong = seen(wrong, graph, n, calls).expect("opened");
    expected
        .into_iter()
        .zip(wrong)
        .find(|(right, wrong)| right != wrong)
        .expect("a difference")
}

/// Makes the path 2 0 1 3 of the paper: edges 01, 02, 13.
fn path() -> Buffers {
    Buffers::new(4, &[(0, 1), (0, 2), (1, 3)])
}

/// Appends a pair to the sequence, and writes a table of the inverse.
fn write_pair(
    buffers: &mut Buffers,
    session: Session,
    pair: Pair,
    table: Vec<u16>,
) -> Outcome<Pair> {
    let index = 2 * session.pairs as usize;
    buffers.sequence[index] = pair.smaller as u8;
    buffers.sequence[index + 1] = pair.larger as u8;
    buffers.inverse = table;
    Outcome {
        session: Session {
            size: session.size,
            pairs: session.pairs + 1,
        },
        answer: Ok(pair),
    }
}

/// A nonzero entry of the inverse, without the adjacency test.
struct EntryAlone;

impl Program for EntryAlone {
    fn pick(&self, buffers: &mut Buffers, session: Session, a: u64, b: u64) -> Outcome<Pair> {
        let n = session.size as usize;
        let (i, j) = (a.min(b) as usize, a.max(b) as usize);
        if buffers.inverse[i * n + j] == 0 {
            let answer = Err(Cause::RestSingular.refusal());
            return Outcome { session, answer };
        }
        let once = eliminate(n, &buffers.inverse, i, j, Residue::minus);
        let twice = eliminate(n, &once, j, i, Residue::minus);
        write_pair(buffers, session, pair(i as u64, j as u64), twice)
    }
}

#[test]
fn nonzero_entry_without_the_adjacency_test() {
    let mut buffers = path();
    buffers.opened(4);
    assert_ne!(buffers.inverse[3 * 4 + 2], 0);
    let (right, wrong) = told_apart(&EntryAlone, &path(), 4, &[Call::Pick(3, 2)]);
    assert_eq!(right.answer, Err((9, 0)));
    assert_eq!(wrong.answer, Ok(pair(2, 3)));
}

/// The adjacency test alone: the lowest unmatched vertex with its lowest
/// unmatched neighbour.
struct AdjacencyAlone;

impl Program for AdjacencyAlone {
    fn automatic(&self, buffers: &mut Buffers, session: Session) -> Outcome<Pair> {
        let n = session.size as usize;
        let unmatched: Vec<usize> = (0..n)
            .filter(|&vertex| !buffers.sequence.contains(&(vertex as u8)))
            .collect();
        let pair = unmatched.first().and_then(|&c| {
            let partner = unmatched
                .iter()
                .find(|&&r| buffers.adjacency[c * n + r] == 1);
            partner.map(|&r| pair(c as u64, r as u64))
        });
        match pair {
            Some(pair) => write_pair(buffers, session, pair, vec![0; n * n]),
            None => Outcome {
                session,
                answer: Err(Cause::NothingLeft.refusal()),
            },
        }
    }
}

#[test]
fn adjacency_test_alone_is_stuck() {
    let calls = [Call::Automatic, Call::Automatic];
    let (right, wrong) = told_apart(&AdjacencyAlone, &path(), 4, &calls);
    assert_eq!(right.answer, Ok(pair(0, 2)));
    assert_eq!(wrong.answer, Ok(pair(0, 1)));
    let steps = seen(&AdjacencyAlone, &path(), 4, &calls).expect("opened");
    assert_eq!(steps[1].answer, Err((11, 0)));
    assert_eq!(steps[1].session, session(4, 1));
}

/// One row and one column eliminated for a pick.
struct OneElimination;

impl Program for OneElimination {
    fn pick(&self, buffers: &mut Buffers, session: Session, a: u64, b: u64) -> Outcome<Pair> {
        let n = session.size as usize;
        let table = eliminate(n, &buffers.inverse, a as usize, b as usize, Residue::minus);
        write_pair(buffers, session, pair(a.min(b), a.max(b)), table)
    }
}

#[test]
fn one_row_and_one_column_eliminated() {
    let graph = Buffers::complete(4);
    let calls = [Call::Pick(0, 1), Call::Automatic];
    let (right, wrong) = told_apart(&OneElimination, &graph, 4, &calls);
    assert_eq!(right.answer, wrong.answer);
    assert_ne!(right.inverse, wrong.inverse);
    let table = [[0; 4], [0; 4], [0, 0, 0, 65520], [0, 0, 1, 0]];
    assert_eq!(right.inverse, table.as_flattened());
    let steps = seen(&OneElimination, &graph, 4, &calls).expect("opened");
    assert_eq!(steps[1].answer, Err((6, 0)));
}

/// The weight on both sides of the diagonal.
struct Symmetric;

impl Program for Symmetric {
    fn open(&self, buffers: &mut Buffers, size: u64) -> Result<Opening, Refusal> {
        let n = size as usize;
        let entry = |i: usize, j: usize| {
            let entry = buffers.graph(n).tutte_entry(i.min(j), i.max(j));
            if i == j {
                Residue::ZERO
            } else {
                entry
            }
        };
        let row = |i| (0..n).map(|j| entry(i, j)).collect();
        let matrix = Matrix::from_rows((0..n).map(row).collect()).expect("a square");
        match inverse(&matrix) {
            Some(_) => Ok(Opening::Opened(session(size, 0))),
            None => buffers.open(size),
        }
    }
}

#[test]
fn weight_on_both_sides_of_the_diagonal() {
    let mut triangle = Buffers::complete(3);
    let wrong = Symmetric.open(&mut triangle.clone(), 3);
    assert_eq!(wrong, Ok(Opening::Opened(session(3, 0))));
    assert_eq!(triangle.open(3), Ok(Opening::Singular { column: 2 }));
    assert_eq!(triangle.witness, [1, 65520, 1]);
}

/// Subtracts, wrapping at 2^16 instead of adding the modulus first.
fn wrapping_difference(a: Residue, b: Residue) -> Residue {
    Residue::new(u64::from(a.word().wrapping_sub(b.word())))
}

/// Subtracts, wrapping at 2^32 and at 2^64.
fn wider_wrapping_differences(a: Residue, b: Residue) -> [Residue; 2] {
    let (a, b) = (a.word(), b.word());
    let narrow = u32::from(a).wrapping_sub(u32::from(b));
    let wide = u64::from(a).wrapping_sub(u64::from(b));
    [Residue::new(u64::from(narrow)), Residue::new(wide)]
}

#[test]
fn difference_without_adding_the_modulus() {
    let (three, five) = (Residue::new(3), Residue::new(5));
    assert_eq!(three.minus(five).word(), 65_519);
    assert_eq!(wrapping_difference(five, three), five.minus(three));
    assert_ne!(wrapping_difference(three, five), three.minus(five));
    for wrong in wider_wrapping_differences(three, five) {
        assert_ne!(wrong, three.minus(five));
    }
}

/// Forms the entry below the diagonal by wrapping_difference, 0 minus the weight.
struct WrappingEntry;

impl Program for WrappingEntry {
    fn open(&self, buffers: &mut Buffers, size: u64) -> Result<Opening, Refusal> {
        let n = size as usize;
        let entry = |i: usize, j: usize| {
            let above = buffers.graph(n).tutte_entry(i.min(j), i.max(j));
            if i <= j {
                above
            } else {
                wrapping_difference(Residue::ZERO, above)
            }
        };
        let row = |i| (0..n).map(|j| entry(i, j)).collect();
        let matrix = Matrix::from_rows((0..n).map(row).collect()).expect("a square");
        let found = inverse(&matrix).expect("an inverse");
        let answer = buffers.open(size);
        for i in 0..n {
            for j in 0..n {
                buffers.inverse[i * n + j] = found.get(i, j).expect("an entry").word();
            }
        }
        answer
    }
}

#[test]
fn entries_formed_without_adding_the_modulus() {
    let mut right = Buffers::new(2, &[(0, 1)]).with_weights(&[2]);
    let mut wrong = right.clone();
    right.opened(2);
    assert_eq!(right.inverse, [0, 32760, 32761, 0]);
    WrappingEntry.open(&mut wrong, 2).expect("accepted");
    assert_ne!(wrong.inverse, right.inverse);
}

/// Eliminates with wrapping_difference.
struct WrappingElimination;

impl Program for WrappingElimination {
    fn pick(&self, buffers: &mut Buffers, session: Session, a: u64, b: u64) -> Outcome<Pair> {
        let n = session.size as usize;
        let (i, j) = (a.min(b) as usize, a.max(b) as usize);
        let once = eliminate(n, &buffers.inverse, i, j, wrapping_difference);
        let twice = eliminate(n, &once, j, i, wrapping_difference);
        write_pair(buffers, session, pair(i as u64, j as u64), twice)
    }
}

#[test]
fn elimination_without_adding_the_modulus() {
    let graph = Buffers::complete(4);
    let (right, wrong) = told_apart(&WrappingElimination, &graph, 4, &[Call::Pick(0, 1)]);
    assert_eq!(right.answer, wrong.answer);
    assert_ne!(right.inverse, wrong.inverse);
}

/// Refuses every graph.
struct RefusesAll;

impl Program for RefusesAll {
    fn open(&self, _: &mut Buffers, _: u64) -> Result<Opening, Refusal> {
        Err(Cause::AdjacencyFault.refusal())
    }
}

#[test]
fn a_program_that_refuses_every_graph() {
    let opened = Ok(Opening::Opened(session(4, 0)));
    assert_eq!(Right.open(&mut path(), 4), opened);
    assert_ne!(RefusesAll.open(&mut path(), 4), opened);
    let singular = Ok(Opening::Singular { column: 0 });
    assert_eq!(Right.open(&mut Buffers::new(1, &[]), 1), singular);
    assert_ne!(RefusesAll.open(&mut Buffers::new(1, &[]), 1), singular);
}

/// Always matches 0 with 1, 2 with 3 and so on.
struct FixedPairs;

impl Program for FixedPairs {
    fn automatic(&self, buffers: &mut Buffers, session: Session) -> Outcome<Pair> {
        let n = session.size as usize;
        let pair = pair(2 * session.pairs, 2 * session.pairs + 1);
        let once = eliminate_or_keep(n, &buffers.inverse, pair);
        write_pair(buffers, session, pair, once)
    }
}

/// Eliminates both ways if the entry is not 0, else keeps the table.
fn eliminate_or_keep(n: usize, table: &[u16], pair: Pair) -> Vec<u16> {
    let (a, b) = (pair.smaller as usize, pair.larger as usize);
    if table[a * n + b] == 0 {
        return table.to_vec();
    }
    let once = eliminate(n, table, a, b, Residue::minus);
    eliminate(n, &once, b, a, Residue::minus)
}

#[test]
fn a_program_that_always_matches_0_with_1_and_2_with_3() {
    let calls = [Call::Automatic, Call::Automatic];
    let complete = seen(&FixedPairs, &Buffers::complete(4), 4, &calls);
    assert_eq!(complete, seen(&Right, &Buffers::complete(4), 4, &calls));
    let (right, wrong) = told_apart(&FixedPairs, &path(), 4, &calls);
    assert_eq!(right.answer, Ok(pair(0, 2)));
    assert_eq!(wrong.answer, Ok(pair(0, 1)));
}

/// Answers rightly and writes nothing.
struct WritesNothing;

impl Program for WritesNothing {
    fn automatic(&self, buffers: &mut Buffers, session: Session) -> Outcome<Pair> {
        buffers.clone().automatic(session)
    }
}

#[test]
fn a_program_that_writes_nothing() {
    let calls = [Call::Automatic, Call::Automatic];
    let (right, wrong) = told_apart(&WritesNothing, &path(), 4, &calls);
    assert_eq!(right.answer, wrong.answer);
    assert_ne!(right.inverse, wrong.inverse);
    assert_ne!(right.sequence, wrong.sequence);
}

/// Fills the whole sequence at the first pick and nods afterwards.
struct FillsAtOnce;

impl Program for FillsAtOnce {
    fn automatic(&self, buffers: &mut Buffers, opened: Session) -> Outcome<Pair> {
        let mut ahead = opened;
        while buffers.sequence.contains(&255) {
            ahead = buffers.automatic(ahead).session;
        }
        let index = 2 * opened.pairs as usize;
        let bytes = &buffers.sequence[index..index + 2];
        Outcome {
            session: session(opened.size, opened.pairs + 1),
            answer: Ok(pair(u64::from(bytes[0]), u64::from(bytes[1]))),
        }
    }
}

#[test]
fn a_program_that_fills_the_sequence_at_once() {
    let calls = [Call::Automatic, Call::Automatic];
    let (right, wrong) = told_apart(&FillsAtOnce, &path(), 4, &calls);
    assert_eq!(right.answer, wrong.answer);
    assert_eq!(right.session, wrong.session);
    assert_eq!(right.sequence, [0, 2, 255, 255]);
    assert_eq!(wrong.sequence, [0, 2, 1, 3]);
    assert_ne!(right.inverse, wrong.inverse);
    // After the last call nothing tells them apart: every call is compared.
    let steps = seen(&FillsAtOnce, &path(), 4, &calls).expect("opened");
    assert_eq!(steps.last(), expected(&path(), 4, &calls).last());
}

/// Invents its number of pairs.
struct InventsPairs;

impl Program for InventsPairs {
    fn pick(&self, buffers: &mut Buffers, session: Session, a: u64, b: u64) -> Outcome<Pair> {
        let mut outcome = buffers.pick(session, a, b);
        outcome.session.pairs = 2;
        outcome
    }
}

#[test]
fn a_program_that_invents_its_number_of_pairs() {
    let graph = Buffers::complete(4);
    let calls = [Call::Pick(0, 1), Call::Automatic];
    let (right, wrong) = told_apart(&InventsPairs, &graph, 4, &calls);
    assert_ne!(right.session, wrong.session);
    let steps = seen(&InventsPairs, &graph, 4, &calls).expect("opened");
    assert_eq!(steps[1].answer, Err((5, 0)));
    assert_eq!(expected(&graph, 4, &calls)[1].answer, Ok(pair(2, 3)));
}

/// Opens a graph, and returns the right letter of the verdict and the wrong one.
fn letters(wrong: &dyn Program, graph: &Buffers, n: usize) -> (char, char) {
    let mut buffers = graph.clone();
    let opening = buffers.open(n as u64).expect("accepted");
    let letter = |program: &dyn Program| program.verdict(&buffers, n, opening);
    (letter(&Right), letter(wrong))
}

/// Makes three vertices with edges 01, 12.
fn path_of_three() -> Buffers {
    Buffers::new(3, &[(0, 1), (1, 2)])
}

/// Makes four vertices, 0 adjacent to the others. It has no perfect matching.
fn star() -> Buffers {
    Buffers::new(4, &[(0, 1), (0, 2), (0, 3)])
}

/// Makes the ring of four with weights that cancel. It has two perfect matchings.
fn cancelling_ring() -> Buffers {
    Buffers::new(4, &[(0, 1), (1, 2), (2, 3), (0, 3)]).with_weights(&[1, 1, 1, 65_520, 1, 1])
}

/// Makes a triangle and a vertex without an edge.
fn triangle_and_vertex() -> Buffers {
    Buffers::new(4, &[(0, 1), (0, 2), (1, 2)])
}

/// Returns F for an opened graph. For a witness, returns O if this number is odd, and
/// U if it is even.
fn by_parity(opening: Opening, number: usize) -> char {
    match opening {
        Opening::Opened(_) => 'F',
        Opening::Singular { .. } if number % 2 == 1 => 'O',
        Opening::Singular { .. } => 'U',
    }
}

/// Counts the perfect matchings.
fn matchings(buffers: &Buffers, n: usize) -> u64 {
    let vertices: Vec<usize> = (0..n).collect();
    perfect_matchings(&vertices, &|i, j| buffers.adjacency[i * n + j] == 1)
}

/// Returns the number of neighbours of each vertex.
fn degrees(buffers: &Buffers, n: usize) -> Vec<usize> {
    let degree = |i| (0..n).filter(|j| buffers.adjacency[i * n + j] == 1).count();
    (0..n).map(degree).collect()
}

#[test]
fn right_verdicts() {
    let letter = |graph: &Buffers, n| letters(&Right, graph, n).0;
    assert_eq!(letter(&Buffers::new(0, &[]), 0), 'F');
    assert_eq!(letter(&path(), 4), 'F');
    assert_eq!(letter(&Buffers::new(1, &[]), 1), 'O');
    assert_eq!(letter(&path_of_three(), 3), 'O');
    assert_eq!(letter(&Buffers::complete(3), 3), 'O');
    assert_eq!(letter(&Buffers::new(2, &[]), 2), 'U');
    assert_eq!(letter(&star(), 4), 'U');
    assert_eq!(letter(&triangle_and_vertex(), 4), 'U');
    assert_eq!(letter(&cancelling_ring(), 4), 'U');
}

/// Exchanges O and U.
struct Exchanged;

impl Program for Exchanged {
    fn verdict(&self, _: &Buffers, n: usize, opening: Opening) -> char {
        by_parity(opening, n + 1)
    }
}

#[test]
fn o_and_u_exchanged() {
    assert_eq!(letters(&Exchanged, &path(), 4), ('F', 'F'));
    assert_eq!(letters(&Exchanged, &Buffers::complete(3), 3), ('O', 'U'));
    assert_eq!(letters(&Exchanged, &cancelling_ring(), 4), ('U', 'O'));
}

/// O for every witness.
struct RulesOutAll;

impl Program for RulesOutAll {
    fn verdict(&self, _: &Buffers, _: usize, opening: Opening) -> char {
        by_parity(opening, 1)
    }
}

#[test]
fn o_for_every_witness() {
    assert_eq!(letters(&RulesOutAll, &path_of_three(), 3), ('O', 'O'));
    let ring = cancelling_ring();
    assert_eq!(letters(&RulesOutAll, &ring, 4), ('U', 'O'));
    assert_eq!(matchings(&ring, 4), 2);
}

/// U for every witness.
struct DecidesNothing;

impl Program for DecidesNothing {
    fn verdict(&self, _: &Buffers, _: usize, opening: Opening) -> char {
        by_parity(opening, 0)
    }
}

#[test]
fn u_for_every_witness() {
    assert_eq!(letters(&DecidesNothing, &star(), 4), ('U', 'U'));
    assert_eq!(letters(&DecidesNothing, &path_of_three(), 3), ('O', 'U'));
}

/// The parity of the number of edges.
struct ByEdges;

impl Program for ByEdges {
    fn verdict(&self, buffers: &Buffers, n: usize, opening: Opening) -> char {
        by_parity(opening, degrees(buffers, n).iter().sum::<usize>() / 2)
    }
}

#[test]
fn parity_of_the_number_of_edges() {
    assert_eq!(letters(&ByEdges, &Buffers::complete(3), 3), ('O', 'O'));
    assert_eq!(letters(&ByEdges, &cancelling_ring(), 4), ('U', 'U'));
    assert_eq!(letters(&ByEdges, &path_of_three(), 3), ('O', 'U'));
    assert_eq!(letters(&ByEdges, &star(), 4), ('U', 'O'));
}

/// The parity of the number of vertices that have an edge.
struct ByEnds;

impl Program for ByEnds {
    fn verdict(&self, buffers: &Buffers, n: usize, opening: Opening) -> char {
        let degrees = degrees(buffers, n);
        by_parity(
            opening,
            degrees.iter().filter(|&&degree| degree > 0).count(),
        )
    }
}

#[test]
fn parity_of_the_number_of_vertices_with_an_edge() {
    assert_eq!(letters(&ByEnds, &path_of_three(), 3), ('O', 'O'));
    assert_eq!(letters(&ByEnds, &star(), 4), ('U', 'U'));
    assert_eq!(letters(&ByEnds, &triangle_and_vertex(), 4), ('U', 'O'));
    assert_eq!(letters(&ByEnds, &Buffers::new(1, &[]), 1), ('O', 'U'));
}

/// The parity of the number of witness lines.
struct ByWitnessLines;

impl Program for ByWitnessLines {
    fn verdict(&self, buffers: &Buffers, n: usize, opening: Opening) -> char {
        let lines = buffers.witness[..n].iter().filter(|&&word| word != 0);
        by_parity(opening, lines.count())
    }
}

#[test]
fn parity_of_the_number_of_witness_lines() {
    let wrong = &ByWitnessLines;
    assert_eq!(letters(wrong, &Buffers::complete(3), 3), ('O', 'O'));
    assert_eq!(letters(wrong, &cancelling_ring(), 4), ('U', 'U'));
    assert_eq!(letters(wrong, &path_of_three(), 3), ('O', 'U'));
    assert_eq!(letters(wrong, &Buffers::new(2, &[]), 2), ('U', 'O'));
}

/// The parity of the first dependent column.
struct ByColumn;

impl Program for ByColumn {
    fn verdict(&self, _: &Buffers, _: usize, opening: Opening) -> char {
        match opening {
            Opening::Singular { column } => by_parity(opening, column as usize),
            Opening::Opened(_) => 'F',
        }
    }
}

#[test]
fn parity_of_the_first_dependent_column() {
    assert_eq!(letters(&ByColumn, &star(), 4), ('U', 'U'));
    assert_eq!(letters(&ByColumn, &path_of_three(), 3), ('O', 'U'));
    // Vertex 1 has no edge, and 0 has one: the first dependent column is 1.
    let graph = Buffers::new(4, &[(0, 3), (2, 3)]);
    assert_eq!(letters(&ByColumn, &graph, 4), ('U', 'O'));
}

/// O if some vertex has no edge.
struct ByLonelyVertex;

impl Program for ByLonelyVertex {
    fn verdict(&self, buffers: &Buffers, n: usize, opening: Opening) -> char {
        by_parity(opening, usize::from(degrees(buffers, n).contains(&0)))
    }
}

#[test]
fn o_if_some_vertex_has_no_edge() {
    let wrong = &ByLonelyVertex;
    assert_eq!(letters(wrong, &Buffers::new(1, &[]), 1), ('O', 'O'));
    assert_eq!(letters(wrong, &star(), 4), ('U', 'U'));
    assert_eq!(letters(wrong, &Buffers::complete(3), 3), ('O', 'U'));
    assert_eq!(letters(wrong, &triangle_and_vertex(), 4), ('U', 'O'));
}

/// O if there is no perfect matching, whatever n.
struct SearchesForNone;

impl Program for SearchesForNone {
    fn verdict(&self, buffers: &Buffers, n: usize, opening: Opening) -> char {
        by_parity(opening, usize::from(matchings(buffers, n) == 0))
    }
}

#[test]
fn o_if_a_search_finds_no_perfect_matching() {
    let wrong = &SearchesForNone;
    assert_eq!(letters(wrong, &path_of_three(), 3), ('O', 'O'));
    assert_eq!(letters(wrong, &cancelling_ring(), 4), ('U', 'U'));
    assert_eq!(letters(wrong, &star(), 4), ('U', 'O'));
    assert_eq!(letters(wrong, &Buffers::new(2, &[]), 2), ('U', 'O'));
}

/// F if there is a perfect matching, though none is listed.
struct SearchesForOne;

impl Program for SearchesForOne {
    fn verdict(&self, buffers: &Buffers, n: usize, opening: Opening) -> char {
        match matchings(buffers, n) {
            0 => by_parity(opening, n),
            _ => 'F',
        }
    }
}

#[test]
fn f_if_a_search_finds_a_perfect_matching() {
    let wrong = &SearchesForOne;
    assert_eq!(letters(wrong, &path(), 4), ('F', 'F'));
    assert_eq!(letters(wrong, &star(), 4), ('U', 'U'));
    assert_eq!(letters(wrong, &cancelling_ring(), 4), ('U', 'F'));
}

/// F only if pairs are listed.
struct NeedsAPair;

impl Program for NeedsAPair {
    fn verdict(&self, _: &Buffers, n: usize, opening: Opening) -> char {
        match n {
            0 => 'U',
            _ => by_parity(opening, n),
        }
    }
}

#[test]
fn f_only_if_pairs_are_listed() {
    assert_eq!(letters(&NeedsAPair, &path(), 4), ('F', 'F'));
    assert_eq!(letters(&NeedsAPair, &Buffers::new(0, &[]), 0), ('F', 'U'));
}
