//! Faults of the size, of lengths, and of the graph.

use super::places::{adjacent, choice, every_two, set_cells, set_weight, size, unmatched_two};
use crate::cells::{self, damages, CellDamage};
use crate::damage::any_large_size;
use crate::random::Random;
use crate::session::State;
use reference::words::words_from_bytes;

pub fn large_size(random: &mut Random, state: &mut State) -> bool {
    state.n = any_large_size(random);
    true
}

pub fn short_buffer(random: &mut Random, state: &mut State) -> bool {
    let n = size(state);
    if n < 2 {
        return false;
    }
    let needed = [n * n, n * n - n, 2 * n * n, n];
    let number = random.below(4);
    let short = random
        .choose(&[1, 1, 2, needed[number]])
        .min(needed[number]);
    state.buffers_mut()[number].truncate(needed[number] - short);
    true
}

/// Spoils a cell, or its mirror, so that the cell has this fault.
fn spoil_cell(random: &mut Random, state: &mut State, fault: u64) -> bool {
    let n = size(state);
    let places: Vec<((usize, usize), &CellDamage)> = cells::every_cell(n)
        .flat_map(|cell| damages(cell).iter().map(move |damage| (cell, damage)))
        .filter(|(_, damage)| damage.fault == fault)
        .collect();
    let Some((cell, damage)) = choice(random, &places) else {
        return false;
    };
    let above = cells::above_one(random);
    damage.spoil(n, &mut state.adjacency, cell, above);
    true
}

pub fn adjacency_above_one(random: &mut Random, state: &mut State) -> bool {
    spoil_cell(random, state, cells::NOT_ZERO_OR_ONE)
}

pub fn adjacency_unlike_mirror(random: &mut Random, state: &mut State) -> bool {
    spoil_cell(random, state, cells::UNEQUAL_TO_MIRROR)
}

pub fn adjacent_to_itself(random: &mut Random, state: &mut State) -> bool {
    spoil_cell(random, state, cells::NOT_ZERO_ON_DIAGONAL)
}

fn spoil_weight(random: &mut Random, state: &mut State, weight: u16) -> bool {
    let count = size(state) * size(state).saturating_sub(1) / 2;
    if count == 0 {
        return false;
    }
    set_weight(state, random.below(count), weight);
    true
}

pub fn weight_zero(random: &mut Random, state: &mut State) -> bool {
    spoil_weight(random, state, 0)
}

pub fn weight_too_large(random: &mut Random, state: &mut State) -> bool {
    let weight = random.between(65521, 65535) as u16;
    spoil_weight(random, state, weight)
}

pub fn edge_changed(random: &mut Random, state: &mut State) -> bool {
    let edge = random.percent(50);
    let Some((i, j)) = unmatched_two(random, state, edge) else {
        return false;
    };
    set_cells(state, i, j, u8::from(!edge));
    true
}

/// Changes the weight of two vertices to another one from 1 to 65520.
fn change_weight(random: &mut Random, state: &mut State, i: usize, j: usize) {
    let index = state.graph().weight_index(i, j);
    let weight = words_from_bytes(&state.weights)[index];
    let more = random.between(1, 65519);
    let changed = (usize::from(weight) - 1 + more) % 65520 + 1;
    set_weight(state, index, changed as u16);
}

pub fn weight_of_edge_changed(random: &mut Random, state: &mut State) -> bool {
    let Some((i, j)) = unmatched_two(random, state, true) else {
        return false;
    };
    change_weight(random, state, i, j);
    true
}

pub fn weight_without_edge(random: &mut Random, state: &mut State) -> bool {
    let pairs = every_two(size(state), |i, j| !adjacent(state, i, j));
    let Some((i, j)) = choice(random, &pairs) else {
        return false;
    };
    change_weight(random, state, i, j);
    true
}

/// Adds an edge with a matched vertex, which makes no difference to the inverse.
pub fn edge_of_matched_added(random: &mut Random, state: &mut State) -> bool {
    let left = state.unmatched();
    let pairs = every_two(size(state), |i, j| {
        let matched = !left.contains(&i) || !left.contains(&j);
        matched && !adjacent(state, i, j)
    });
    let Some((i, j)) = choice(random, &pairs) else {
        return false;
    };
    set_cells(state, i, j, 1);
    true
}

pub fn excess_changed(random: &mut Random, state: &mut State) -> bool {
    let n = size(state);
    let needed = [n * n, n * n - n, 2 * n * n, n];
    for (buffer, needed) in state.buffers_mut().into_iter().zip(needed) {
        let odd = random.choose(&[1, 2, 3]);
        buffer.truncate(needed);
        buffer.extend(random.bytes(odd));
    }
    true
}
