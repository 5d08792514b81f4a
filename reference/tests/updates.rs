//! Tables computed afresh against the updates of the source documents.

mod common;

use common::*;
use reference::linear_algebra::determinant;
use reference::opening::Opening;
use reference::residue::Residue;

/// Opens random graphs, and keeps those that have an inverse.
fn opened_graphs(seed: u64, count: usize) -> Vec<(usize, Buffers)> {
    let mut random = Random(seed);
    let mut graphs = Vec::new();
    while graphs.len() < count {
        let n = 2 * (1 + random.below(5) as usize);
        let mut buffers = Buffers::random(&mut random, n);
        if let Ok(Opening::Opened(_)) = buffers.open(n as u64) {
            graphs.push((n, buffers));
        }
    }
    graphs
}

/// Document 01: "Held after a pick follows 001, theorem 3.1, applied for both
/// (a,b) and (b,a)". A pick is refused with 10 exactly if the entry is 0.
#[test]
fn two_eliminations_give_the_inverse_after_a_pick() {
    for (n, buffers) in opened_graphs(71, 60) {
        for (a, b) in every_two(n) {
            let mut after = buffers.clone();
            let answer = after.pick(session(n as u64, 0), a as u64, b as u64).answer;
            let adjacent = buffers.adjacency[a * n + b] == 1;
            let nonzero = buffers.inverse[a * n + b] != 0;
            match answer {
                Ok(_) => {
                    assert!(adjacent && nonzero);
                    let once = eliminate(n, &buffers.inverse, a, b, Residue::minus);
                    let twice = eliminate(n, &once, b, a, Residue::minus);
                    assert_eq!(after.inverse, twice);
                    let turned = eliminate(n, &buffers.inverse, b, a, Residue::minus);
                    assert_eq!(after.inverse, eliminate(n, &turned, a, b, Residue::minus));
                }
                Err(refusal) if adjacent => {
                    assert!(!nonzero);
                    assert_eq!(refusal.numbers(), (10, 0));
                }
                Err(refusal) => assert_eq!(refusal.numbers(), (9, 0)),
            }
        }
    }
}

/// Not only for edges: the rest has an inverse exactly if the entry of the
/// inverse is not 0.
#[test]
fn the_rest_has_an_inverse_where_the_entry_is_not_zero() {
    for (n, buffers) in opened_graphs(72, 60) {
        let graph = buffers.graph(n);
        for (a, b) in every_two(n) {
            let rest: Vec<usize> = (0..n).filter(|&v| v != a && v != b).collect();
            let singular = determinant(&graph.tutte_matrix(&rest)) == Some(Residue::ZERO);
            assert_eq!(singular, buffers.inverse[a * n + b] == 0);
        }
    }
}

#[test]
fn the_inverse_is_skew() {
    for (n, buffers) in opened_graphs(73, 60) {
        let entry = |i: usize, j: usize| Residue::new(u64::from(buffers.inverse[i * n + j]));
        for i in 0..n {
            for j in 0..n {
                assert_eq!(entry(i, j), entry(j, i).negated());
            }
        }
    }
}

/// Every unmatched vertex has a partner (source document 001, theorem
/// 2.6).
#[test]
fn every_row_has_a_partner() {
    for (n, mut buffers) in opened_graphs(74, 60) {
        for a in 0..n {
            let outcome = buffers.row(session(n as u64, 0), a as u64);
            assert_eq!(outcome.answer, Ok(()));
            assert!(buffers.row.contains(&1));
            for b in 0..n {
                let open = buffers.adjacency[a * n + b] == 1 && buffers.inverse[a * n + b] != 0;
                assert_eq!(buffers.row[b], u8::from(open));
            }
        }
    }
}
