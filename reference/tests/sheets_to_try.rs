//! Document 01, "Sheets to try": every value that the paper prints.

mod common;

use common::*;
use reference::opening::Opening;

fn assert_singular(buffers: &mut Buffers, witness: &[u16], column: u64) {
    let n = witness.len();
    assert_eq!(buffers.open(n as u64), Ok(Opening::Singular { column }));
    assert_eq!(buffers.witness, witness);
    assert_eq!(buffers.inverse, vec![0; n * n]);
    assert_eq!(buffers.work, vec![0; n * n]);
    assert_eq!(buffers.sequence, vec![255; n]);
}

fn assert_opened(buffers: &mut Buffers, n: usize, inverse: &[u16]) {
    let opened = Opening::Opened(session(n as u64, 0));
    assert_eq!(buffers.open(n as u64), Ok(opened));
    assert_eq!(buffers.inverse, inverse);
    assert_eq!(buffers.witness, vec![0; n]);
    assert_eq!(buffers.work, vec![0; n * n]);
    assert_eq!(buffers.sequence, vec![255; n]);
}

#[test]
fn no_vertices() {
    let mut buffers = Buffers::new(0, &[]);
    assert_opened(&mut buffers, 0, &[]);
    assert_eq!(buffers.refused(session(0, 0), Call::Automatic), (11, 0));
    assert_eq!(buffers.refused(session(0, 0), Call::Undo), (11, 0));
    assert_eq!(buffers.refused(session(0, 0), Call::Pick(0, 0)), (7, 0));
    assert_eq!(buffers.refused(session(0, 0), Call::Row(0)), (7, 0));
}

#[test]
fn one_vertex() {
    assert_singular(&mut Buffers::new(1, &[]), &[1], 0);
}

#[test]
fn two_vertices_without_an_edge() {
    assert_singular(&mut Buffers::new(2, &[]), &[1, 0], 0);
}

#[test]
fn two_vertices_with_an_edge_of_weight_2() {
    let mut buffers = Buffers::new(2, &[(0, 1)]).with_weights(&[2]);
    assert_opened(&mut buffers, 2, &[0, 32760, 32761, 0]);
}

#[test]
fn path_of_three() {
    assert_singular(&mut Buffers::new(3, &[(0, 1), (1, 2)]), &[1, 0, 1], 2);
}

#[test]
fn star_of_four() {
    let mut buffers = Buffers::new(4, &[(0, 1), (0, 2), (0, 3)]);
    assert_singular(&mut buffers, &[0, 65520, 1, 0], 2);
}

#[test]
fn complete_graph_of_four() {
    let mut buffers = Buffers::complete(4);
    let inverse = [
        [0, 65520, 1, 65520],
        [1, 0, 65520, 1],
        [65520, 1, 0, 65520],
        [1, 65520, 1, 0],
    ];
    assert_opened(&mut buffers, 4, inverse.as_flattened());
    let outcome = buffers.pick(session(4, 0), 0, 1);
    assert_eq!(outcome.answer, Ok(pair(0, 1)));
    assert_eq!(outcome.session, session(4, 1));
    let after = [[0; 4], [0; 4], [0, 0, 0, 65520], [0, 0, 1, 0]];
    assert_eq!(buffers.inverse, after.as_flattened());
    assert_eq!(buffers.sequence, [0, 1, 255, 255]);
}

#[test]
fn path_of_four() {
    let mut buffers = Buffers::new(4, &[(0, 1), (0, 2), (1, 3)]);
    let opened = buffers.opened(4);
    assert_eq!(buffers.refused(opened, Call::Pick(0, 1)), (10, 0));
    assert_eq!(buffers.refused(opened, Call::Pick(2, 3)), (9, 0));
    let outcome = buffers.automatic(opened);
    assert_eq!(outcome.answer, Ok(pair(0, 2)));
    assert_eq!(buffers.sequence, [0, 2, 255, 255]);
    assert_eq!(buffers.refused(outcome.session, Call::Pick(0, 1)), (8, 0));
}

/// Makes the ring whose two matchings cancel, with the inverse made by hand that
/// belongs to the session after 0 and 1.
fn cancelling_ring() -> Buffers {
    let edges = [(0, 1), (1, 2), (2, 3), (0, 3)];
    Buffers::new(4, &edges).with_weights(&[1, 1, 1, 65520, 1, 1])
}

#[test]
fn cancelling_ring_is_singular() {
    assert_singular(&mut cancelling_ring(), &[65520, 0, 1, 0], 2);
}

#[test]
fn session_made_by_hand_on_the_cancelling_ring() {
    let mut buffers = cancelling_ring();
    buffers.sequence = sequence_of(4, &[(0, 1)]);
    buffers.inverse = vec![0; 16];
    buffers.inverse[2 * 4 + 3] = 65520;
    buffers.inverse[3 * 4 + 2] = 1;
    let by_hand = session(4, 1);
    assert_eq!(buffers.refused(by_hand, Call::Undo), (10, 0));

    assert_eq!(buffers.row(by_hand, 2).answer, Ok(()));
    assert_eq!(buffers.row, [0, 0, 0, 1]);

    let made = buffers.clone();
    let matched = buffers.automatic(by_hand);
    assert_eq!(matched.answer, Ok(pair(2, 3)));
    assert_eq!(buffers.sequence, [0, 1, 2, 3]);
    assert_eq!(buffers.inverse, vec![0; 16]);
    let undone = buffers.undo(matched.session);
    assert_eq!(undone.answer, Ok(pair(2, 3)));
    assert_eq!(undone.session, by_hand);
    assert_eq!(buffers, made);
    assert_eq!(buffers.refused(by_hand, Call::Undo), (10, 0));
}

#[test]
fn largest_complete_graph() {
    let mut buffers = Buffers::complete(96);
    let mut now = buffers.opened(96);
    for pair in 0..48 {
        let outcome = buffers.automatic(now);
        assert_eq!(outcome.session, session(96, pair + 1));
        now = outcome.session;
        assert!(outcome.answer.is_ok());
    }
    assert_eq!(buffers.refused(now, Call::Automatic), (11, 0));
    assert_eq!(buffers.inverse, vec![0; 96 * 96]);
    let mut seen = buffers.sequence.clone();
    seen.sort();
    assert_eq!(seen, (0..96).collect::<Vec<u8>>());
}

#[test]
fn one_vertex_too_many() {
    assert_eq!(Buffers::complete(97).opening_refused(97), (1, 0));
}

#[test]
fn bounds_of_a_weight() {
    let with_weight = |weight| Buffers::new(2, &[(0, 1)]).with_weights(&[weight]);
    assert_opened(&mut with_weight(65520), 2, &[0, 1, 65520, 0]);
    assert_eq!(with_weight(0).opening_refused(2), (4, 0));
    assert_eq!(with_weight(65521).opening_refused(2), (4, 0));
}

#[test]
fn a_vertex_with_itself() {
    let mut buffers = Buffers::complete(4);
    let opened = buffers.opened(4);
    assert_eq!(buffers.refused(opened, Call::Pick(0, 0)), (7, 0));
}
