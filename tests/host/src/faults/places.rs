//! Places for faults.

use crate::random::Random;
use crate::session::State;

pub fn size(state: &State) -> usize {
    state.n as usize
}

/// Chooses from a list. None if it is empty.
pub fn choice<T: Copy>(random: &mut Random, choices: &[T]) -> Option<T> {
    if choices.is_empty() {
        None
    } else {
        Some(random.choose(choices))
    }
}

/// Lists the i < j below n for which holds is true.
pub fn every_two(n: usize, holds: impl Fn(usize, usize) -> bool) -> Vec<(usize, usize)> {
    let mut pairs = Vec::new();
    for i in 0..n {
        pairs.extend((i + 1..n).filter(|&j| holds(i, j)).map(|j| (i, j)));
    }
    pairs
}

pub fn adjacent(state: &State, i: usize, j: usize) -> bool {
    state.adjacency[i * size(state) + j] == 1
}

/// Chooses two unmatched vertices i < j, adjacent exactly if edge is true.
pub fn unmatched_two(random: &mut Random, state: &State, edge: bool) -> Option<(usize, usize)> {
    let left = state.unmatched();
    let both = |i, j| left.contains(&i) && left.contains(&j);
    let pairs = every_two(size(state), |i, j| {
        both(i, j) && adjacent(state, i, j) == edge
    });
    choice(random, &pairs)
}

pub fn set_cells(state: &mut State, i: usize, j: usize, value: u8) {
    let n = size(state);
    state.adjacency[i * n + j] = value;
    state.adjacency[j * n + i] = value;
}

pub fn set_weight(state: &mut State, index: usize, weight: u16) {
    state.weights[2 * index..2 * index + 2].copy_from_slice(&weight.to_le_bytes());
}

pub fn set_pair(state: &mut State, index: usize, pair: (usize, usize)) {
    state.sequence[2 * index] = pair.0 as u8;
    state.sequence[2 * index + 1] = pair.1 as u8;
}

/// Chooses the index of a pair.
pub fn any_pair(random: &mut Random, state: &State) -> Option<usize> {
    (state.made > 0).then(|| random.below(state.made as usize))
}
