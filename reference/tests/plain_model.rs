//! Document 01, "The plain desk": the model by itself.

mod common;

use common::*;
use reference::causes::Refusal;
use reference::model::Model;
use reference::session::Pair;

fn numbers(answer: Result<Pair, Refusal>) -> Result<Pair, (u8, u64)> {
    answer.map_err(Refusal::numbers)
}

#[test]
fn the_path_of_four() {
    let buffers = Buffers::new(4, &[(0, 1), (0, 2), (1, 3)]);
    let graph = buffers.graph(4);
    let mut model = Model::new();
    assert_eq!(numbers(model.pick(&graph, 0, 1)), Err((10, 0)));
    assert_eq!(numbers(model.pick(&graph, 2, 3)), Err((9, 0)));
    assert_eq!(numbers(model.pick(&graph, 2, 4)), Err((7, 0)));
    assert_eq!(numbers(model.pick(&graph, 256, 1)), Err((7, 0)));
    assert_eq!(model, Model::new());
    assert_eq!(model.picks_to_come(&graph), 2);
    assert_eq!(numbers(model.automatic(&graph)), Ok(pair(0, 2)));
    assert_eq!(numbers(model.pick(&graph, 0, 1)), Err((8, 0)));
    assert_eq!(model.session(&graph), session(4, 1));
    assert_eq!(model.sequence(&graph), [0, 2, 255, 255]);
    assert_eq!(model.unmatched(&graph), [1, 3]);
    assert_eq!(model.partners(&graph, 1), [3]);
    assert_eq!(model.partners(&graph, 0), []);
    assert_eq!(numbers(model.pick(&graph, 3, 1)), Ok(pair(1, 3)));
    assert_eq!(numbers(model.automatic(&graph)), Err((11, 0)));
    assert_eq!(model.inverse(&graph), Some(vec![0; 16]));
    assert_eq!(numbers(model.undo(&graph)), Ok(pair(1, 3)));
    assert_eq!(numbers(model.undo(&graph)), Ok(pair(0, 2)));
    assert_eq!(numbers(model.undo(&graph)), Err((11, 0)));
}

#[test]
fn no_pair_to_undo_comes_before_a_singular_matrix() {
    let buffers = Buffers::new(4, &[(0, 1)]);
    let graph = buffers.graph(4);
    assert_eq!(Model::new().inverse(&graph), None);
    assert_eq!(numbers(Model::new().undo(&graph)), Err((11, 0)));
    let mut one_pair = Model {
        pairs: vec![pair(0, 1)],
    };
    assert_eq!(numbers(one_pair.undo(&graph)), Err((10, 0)));
    assert_eq!(one_pair.pairs, [pair(0, 1)]);
}

#[test]
fn any_list_of_pairs_can_be_asked() {
    let buffers = Buffers::complete(4);
    let graph = buffers.graph(4);
    let mut model = Model {
        pairs: vec![pair(0, u64::MAX), pair(300, 2), pair(7, 7)],
    };
    assert_eq!(model.unmatched(&graph), [1, 3]);
    assert_eq!(model.sequence(&graph).len(), 4);
    assert_eq!(model.picks_to_come(&graph), 1);
    assert!(model.inverse(&graph).is_some());
    assert!(model.undo(&graph).is_ok());
}
