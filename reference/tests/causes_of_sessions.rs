//! Document 01, "Causes, numbers, and what is untouched": session calls, 1 to
//! 11.

mod common;

use common::*;
use reference::session::Session;

/// Makes a complete graph of six vertices, with 1 and 4 matched.
fn one_pair() -> (Buffers, Session) {
    let mut buffers = Buffers::complete(6);
    let opened = buffers.opened(6);
    let matched = buffers.pick(opened, 4, 1);
    assert_eq!(matched.answer, Ok(pair(1, 4)));
    (buffers, matched.session)
}

#[test]
fn size_above_96() {
    for size in [97, 98, 256, 262, 1 << 32, (1 << 32) + 6, u64::MAX] {
        for pairs in [0, 1, 1 << 63, u64::MAX] {
            for call in EACH_CALL {
                let (mut buffers, _) = one_pair();
                assert_eq!(buffers.refused(session(size, pairs), call), (1, 0));
                let mut empty = Buffers::new(0, &[]);
                assert_eq!(empty.refused(session(size, pairs), call), (1, 0));
            }
        }
    }
}

#[test]
fn short_buffers_lent_to_every_call() {
    let shorten: [fn(&mut Buffers); 4] = [
        |buffers| buffers.adjacency.truncate(35),
        |buffers| buffers.weights.truncate(14),
        |buffers| buffers.inverse.truncate(35),
        |buffers| buffers.sequence.truncate(5),
    ];
    for call in EACH_CALL {
        for (index, shorten_one) in shorten.iter().enumerate() {
            let (mut buffers, now) = one_pair();
            shorten_one(&mut buffers);
            assert_eq!(buffers.refused(now, call), (2, 1 + index as u64));
            for shorten_later in &shorten[index..] {
                shorten_later(&mut buffers);
                assert_eq!(buffers.refused(now, call), (2, 1 + index as u64));
            }
        }
    }
}

#[test]
fn a_short_row_concerns_the_partner_row_only() {
    for call in EACH_CALL {
        let (mut buffers, now) = one_pair();
        buffers.row.truncate(5);
        buffers.witness.clear();
        buffers.work.clear();
        if let Call::Row(_) = call {
            assert_eq!(buffers.refused(now, call), (2, 7));
            buffers.sequence.truncate(5);
            assert_eq!(buffers.refused(now, call), (2, 4));
        } else {
            let answer = buffers.call(now, call).answer;
            assert_ne!(answer.err().map(|refusal| refusal.numbers().0), Some(2));
        }
    }
}

#[test]
fn adjacency_faults() {
    for call in EACH_CALL {
        let (mut buffers, now) = one_pair();
        buffers.adjacency[6] = 2;
        assert_eq!(buffers.refused(now, call), cell(0, 1, 3));
        buffers.adjacency[0] = 1;
        assert_eq!(buffers.refused(now, call), cell(0, 0, 2));
    }
}

#[test]
fn weights_out_of_range() {
    for call in EACH_CALL {
        for weight in [0, 65_521] {
            let (mut buffers, now) = one_pair();
            buffers.weights[14] = weight;
            assert_eq!(buffers.refused(now, call), (4, 14));
        }
    }
}

#[test]
fn too_many_pairs() {
    for call in EACH_CALL {
        for pairs in [4, 5, 128, 1 << 31, 1 << 32, 1 << 63, u64::MAX] {
            let (mut buffers, now) = one_pair();
            assert_eq!(buffers.refused(session(now.size, pairs), call), (5, 0));
        }
        let mut none = Buffers::new(0, &[]);
        assert_eq!(none.refused(session(0, 1), call), (5, 0));
        assert_eq!(none.refused(session(0, 1 << 63), call), (5, 0));
    }
}

#[test]
fn sequence_of_pairs_not_well_formed() {
    let bad_sequences: [(u64, [u8; 6]); 11] = [
        (0, [1, 4, 255, 255, 255, 255]),
        (2, [1, 4, 255, 255, 255, 255]),
        (1, [4, 1, 255, 255, 255, 255]),
        (1, [1, 1, 255, 255, 255, 255]),
        (1, [1, 6, 255, 255, 255, 255]),
        (1, [1, 255, 255, 255, 255, 255]),
        (1, [1, 4, 0, 255, 255, 255]),
        (1, [1, 4, 255, 255, 255, 0]),
        (1, [1, 4, 254, 255, 255, 255]),
        (2, [1, 4, 1, 5, 255, 255]),
        (2, [1, 4, 0, 4, 255, 255]),
    ];
    for call in EACH_CALL {
        for (pairs, sequence) in bad_sequences {
            let (mut buffers, now) = one_pair();
            buffers.sequence = sequence.to_vec();
            let made = session(now.size, pairs);
            assert_eq!(buffers.refused(made, call), (5, 0), "{pairs} {sequence:?}");
        }
    }
}

#[test]
fn a_matched_pair_without_an_edge_is_not_well_formed() {
    for call in EACH_CALL {
        let (mut buffers, now) = one_pair();
        buffers.adjacency[6 + 4] = 0;
        buffers.adjacency[4 * 6 + 1] = 0;
        assert_eq!(buffers.refused(now, call), (5, 0));
    }
}

#[test]
fn bytes_past_the_order_are_not_looked_at() {
    let (mut buffers, now) = one_pair();
    buffers.sequence.extend([0, 1, 2]);
    assert_eq!(buffers.automatic(now).answer, Ok(pair(0, 2)));
    assert_eq!(buffers.sequence, [1, 4, 0, 2, 255, 255, 0, 1, 2]);
}

#[test]
fn every_wrong_word_of_the_inverse() {
    for call in EACH_CALL {
        let (buffers, now) = one_pair();
        for index in 0..36 {
            let mut spoiled = buffers.clone();
            let word = spoiled.inverse[index];
            spoiled.inverse[index] = if word == 7 { 8 } else { 7 };
            assert_eq!(spoiled.refused(now, call), (6, 0));
            if let Some(above_modulus) = word.checked_add(65_521) {
                spoiled.inverse[index] = above_modulus;
                assert_eq!(spoiled.refused(now, call), (6, 0));
            }
        }
    }
}

#[test]
fn a_word_of_the_modulus_is_not_zero() {
    for call in EACH_CALL {
        let (buffers, now) = one_pair();
        // The diagonal of an unmatched vertex, the row of a matched one.
        for index in [0, 6, 6 + 4] {
            let mut spoiled = buffers.clone();
            assert_eq!(spoiled.inverse[index], 0);
            spoiled.inverse[index] = 65_521;
            assert_eq!(spoiled.refused(now, call), (6, 0));
        }
    }
}

#[test]
fn words_past_the_inverse_are_not_looked_at() {
    let (mut buffers, now) = one_pair();
    buffers.inverse.extend([65_535, 1]);
    assert_eq!(buffers.automatic(now).answer, Ok(pair(0, 2)));
    assert_eq!(buffers.inverse[36..], [65_535, 1]);
}

#[test]
fn no_inverse_for_the_unmatched_vertices() {
    for call in EACH_CALL {
        // A singular matrix.
        let mut buffers = Buffers::new(4, &[(0, 1), (0, 2), (0, 3)]);
        buffers.open(4).expect("accepted");
        assert_eq!(buffers.refused(session(4, 0), call), (6, 0));
        // An odd number of vertices, with and without a pair.
        let mut odd = Buffers::complete(3);
        odd.open(3).expect("accepted");
        assert_eq!(odd.refused(session(3, 0), call), (6, 0));
        odd.sequence = sequence_of(3, &[(0, 1)]);
        assert_eq!(odd.refused(session(3, 1), call), (6, 0));
        let mut one = Buffers::new(1, &[]);
        one.open(1).expect("accepted");
        assert_eq!(one.refused(session(1, 0), call), (6, 0));
    }
}

#[test]
fn the_inverse_before_a_pair_does_not_fit_after_it() {
    for call in EACH_CALL {
        let (mut buffers, now) = one_pair();
        let after = buffers.inverse.clone();
        let undone = buffers.undo(now);
        assert_eq!(undone.answer, Ok(pair(1, 4)));
        buffers.sequence = sequence_of(6, &[(1, 4)]);
        assert_eq!(buffers.refused(now, call), (6, 0));
        buffers.sequence = sequence_of(6, &[]);
        buffers.inverse = after;
        assert_eq!(buffers.refused(undone.session, call), (6, 0));
    }
}

#[test]
fn vertices_not_below_n() {
    let far = [
        6,
        7,
        96,
        255,
        256,
        257,
        300,
        1 << 32,
        (1 << 32) + 2,
        u64::MAX,
    ];
    let (mut buffers, now) = one_pair();
    for vertex in far {
        assert_eq!(buffers.refused(now, Call::Pick(vertex, 0)), (7, 0));
        assert_eq!(buffers.refused(now, Call::Pick(0, vertex)), (7, 0));
        assert_eq!(buffers.refused(now, Call::Pick(vertex, vertex)), (7, 0));
        assert_eq!(buffers.refused(now, Call::Pick(1, vertex)), (7, 0));
        assert_eq!(buffers.refused(now, Call::Pick(vertex, 1)), (7, 0));
        assert_eq!(buffers.refused(now, Call::Row(vertex)), (7, 0));
    }
}

#[test]
fn a_vertex_named_twice_also_when_matched() {
    let (mut buffers, now) = one_pair();
    assert_eq!(buffers.refused(now, Call::Pick(2, 2)), (7, 0));
    assert_eq!(buffers.refused(now, Call::Pick(1, 1)), (7, 0));
}

#[test]
fn matched_vertices() {
    let (mut buffers, now) = one_pair();
    for call in [
        Call::Pick(1, 0),
        Call::Pick(0, 4),
        Call::Pick(1, 4),
        Call::Pick(4, 1),
        Call::Row(1),
        Call::Row(4),
    ] {
        assert_eq!(buffers.refused(now, call), (8, 0));
    }
}

/// Makes a path 2 0 1 3 and an edge 4 5.
fn path_and_edge() -> (Buffers, Session) {
    let mut buffers = Buffers::new(6, &[(0, 1), (0, 2), (1, 3), (4, 5)]);
    let opened = buffers.opened(6);
    (buffers, opened)
}

#[test]
fn matched_before_not_adjacent_before_singular() {
    let (mut buffers, opened) = path_and_edge();
    assert_eq!(buffers.refused(opened, Call::Pick(0, 4)), (9, 0));
    assert_eq!(buffers.refused(opened, Call::Pick(4, 0)), (9, 0));
    // Not adjacent, although the rest of the vertices has an inverse.
    assert_eq!(buffers.refused(opened, Call::Pick(3, 2)), (9, 0));
    assert_eq!(buffers.refused(opened, Call::Pick(0, 1)), (10, 0));
    assert_eq!(buffers.refused(opened, Call::Pick(1, 0)), (10, 0));
    let matched = buffers.pick(opened, 5, 4).session;
    assert_eq!(buffers.refused(matched, Call::Pick(0, 4)), (8, 0));
    assert_eq!(buffers.refused(matched, Call::Pick(0, 1)), (10, 0));
}

#[test]
fn an_edge_of_a_perfect_matching_is_refused_when_weights_cancel() {
    // 0 with 5 belongs to a perfect matching, yet the ring of the rest cancels.
    let edges = [(1, 2), (2, 3), (3, 4), (1, 4), (0, 5), (0, 1), (2, 5)];
    let mut weights = vec![1; 15];
    let index = every_two(6).iter().position(|&pair| pair == (1, 4));
    weights[index.expect("a pair")] = 65_520;
    let mut buffers = Buffers::new(6, &edges).with_weights(&weights);
    let ring = buffers.graph(6).tutte_matrix(&[1, 2, 3, 4]);
    assert_eq!(reference::linear_algebra::rank(&ring), 2);
    let opened = buffers.opened(6);
    assert_eq!(buffers.refused(opened, Call::Pick(0, 5)), (10, 0));
    assert_eq!(buffers.automatic(opened).answer, Ok(pair(0, 1)));
}

#[test]
fn automatic_pick_without_an_unmatched_vertex() {
    let mut buffers = Buffers::complete(2);
    let opened = buffers.opened(2);
    let full = buffers.automatic(opened).session;
    assert_eq!(full, session(2, 1));
    assert_eq!(buffers.refused(full, Call::Automatic), (11, 0));
}

#[test]
fn undo_without_a_pair() {
    let mut buffers = Buffers::complete(2);
    let opened = buffers.opened(2);
    assert_eq!(buffers.refused(opened, Call::Undo), (11, 0));
}

/// Makes a ring of four whose matchings cancel. Without 0 and 1 the rest has an
/// inverse.
fn cancelling_ring() -> Buffers {
    let edges = [(0, 1), (1, 2), (2, 3), (0, 3)];
    Buffers::new(4, &edges).with_weights(&[1, 1, 1, 65520, 1, 1])
}

#[test]
fn undo_to_a_singular_matrix() {
    let mut buffers = cancelling_ring();
    buffers.sequence = sequence_of(4, &[(0, 1)]);
    buffers.inverse = vec![0; 16];
    buffers.inverse[11] = 65_520;
    buffers.inverse[14] = 1;
    assert_eq!(buffers.refused(session(4, 1), Call::Undo), (10, 0));
    // With no pair the same matrix is cause 6 before 11 and 10.
    buffers.sequence = sequence_of(4, &[]);
    assert_eq!(buffers.refused(session(4, 0), Call::Undo), (6, 0));
}

#[test]
fn undo_without_a_pair_comes_after_the_session() {
    let (mut buffers, _) = one_pair();
    assert_eq!(buffers.refused(session(6, 0), Call::Undo), (5, 0));
}

#[test]
fn the_last_two_vertices_leave_the_empty_matrix_which_has_an_inverse() {
    let mut buffers = Buffers::new(2, &[(0, 1)]).with_weights(&[65520]);
    let opened = buffers.opened(2);
    assert_eq!(buffers.pick(opened, 1, 0).answer, Ok(pair(0, 1)));
    assert_eq!(buffers.inverse, [0; 4]);
    assert_eq!(buffers.sequence, [0, 1]);
}

#[test]
fn the_lowest_cause_is_returned() {
    // Each line adds a fault of a lower number to those before it.
    for (call, own) in [
        (Call::Pick(1, 0), 8),
        (Call::Pick(300, 300), 7),
        (Call::Row(4), 8),
        (Call::Row(300), 7),
    ] {
        let (mut buffers, mut now) = one_pair();
        assert_eq!(buffers.refused(now, call), (own, 0));
        buffers.inverse[35] = 1;
        assert_eq!(buffers.refused(now, call), (6, 0));
        now.pairs = 0;
        assert_eq!(buffers.refused(now, call), (5, 0));
        buffers.weights[3] = 0;
        assert_eq!(buffers.refused(now, call), (4, 3));
        buffers.adjacency[35] = 1;
        assert_eq!(buffers.refused(now, call), cell(5, 5, 2));
        buffers.sequence.truncate(5);
        assert_eq!(buffers.refused(now, call), (2, 4));
        now.size = 97;
        assert_eq!(buffers.refused(now, call), (1, 0));
    }
}

#[test]
fn row_of_each_vertex() {
    let (mut buffers, opened) = path_and_edge();
    let expected = [
        [0, 0, 1, 0, 0, 0],
        [0, 0, 0, 1, 0, 0],
        [1, 0, 0, 0, 0, 0],
        [0, 1, 0, 0, 0, 0],
        [0, 0, 0, 0, 0, 1],
        [0, 0, 0, 0, 1, 0],
    ];
    buffers.row.extend([3, 4]);
    for (a, bytes) in expected.iter().enumerate() {
        let before = buffers.clone();
        let outcome = buffers.row(opened, a as u64);
        assert_eq!(outcome.answer, Ok(()));
        assert_eq!(outcome.session, opened);
        assert_eq!(buffers.row[..6], bytes[..]);
        assert_eq!(buffers.row[6..], [3, 4]);
        buffers.row = before.row.clone();
        assert_eq!(buffers, before);
    }
}

#[test]
fn sound_does_not_mean_reachable_by_automatic_picks() {
    // Pairs picked in any order are sound.
    let mut buffers = Buffers::complete(6);
    let mut now = buffers.opened(6);
    for (a, b) in [(5, 3), (1, 2), (4, 0)] {
        let outcome = buffers.pick(now, a, b);
        assert!(outcome.answer.is_ok());
        now = outcome.session;
    }
    assert_eq!(buffers.sequence, [3, 5, 1, 2, 0, 4]);
}
