//! Faults of the pairs made and of the sequence.

use super::places::{
    adjacent, any_pair, choice, every_two, set_cells, set_pair, size, unmatched_two,
};
use crate::random::Random;
use crate::session::State;

pub fn made_above_half(random: &mut Random, state: &mut State) -> bool {
    let half = state.n / 2;
    state.made = random.choose(&[half + 1, half + 2, state.n + 1, 127, 128, 255]);
    true
}

/// Adds a multiple of 2^8, 2^16, 2^32 or 2^63 to the pairs made.
pub fn made_with_high_bit(random: &mut Random, state: &mut State) -> bool {
    let factor = random.between(1, 255) as u64;
    let more = random.choose(&[
        factor << 8,
        1 << 8,
        factor << 16,
        1 << 31,
        1 << 32,
        factor << 32,
        1 << 63,
        factor << 56,
    ]);
    state.made += more;
    true
}

pub fn made_near_the_end(random: &mut Random, state: &mut State) -> bool {
    let less = random.choose(&[0, 0, 1, state.made]);
    state.made = u64::MAX - less;
    true
}

pub fn one_pair_more(_: &mut Random, state: &mut State) -> bool {
    state.made += 1;
    true
}

pub fn one_pair_fewer(_: &mut Random, state: &mut State) -> bool {
    if state.made == 0 {
        return false;
    }
    state.made -= 1;
    true
}

pub fn larger_first(random: &mut Random, state: &mut State) -> bool {
    let Some(index) = any_pair(random, state) else {
        return false;
    };
    state.sequence.swap(2 * index, 2 * index + 1);
    true
}

pub fn twice_in_a_pair(random: &mut Random, state: &mut State) -> bool {
    let Some(index) = any_pair(random, state) else {
        return false;
    };
    let from = random.below(2);
    state.sequence[2 * index + 1 - from] = state.sequence[2 * index + from];
    true
}

pub fn pair_twice(random: &mut Random, state: &mut State) -> bool {
    let pairs = state.pairs();
    if pairs.len() < 2 {
        return false;
    }
    let from = random.below(pairs.len());
    let to = (from + random.between(1, pairs.len() - 1)) % pairs.len();
    set_pair(state, to, pairs[from]);
    true
}

/// Changes a pair to an edge from a vertex of another pair to one of no other.
pub fn vertex_in_two_pairs(random: &mut Random, state: &mut State) -> bool {
    let Some(index) = any_pair(random, state) else {
        return false;
    };
    let mut others = state.pairs();
    others.remove(index);
    let in_other = |v| others.iter().any(|&(i, j)| i == v || j == v);
    let pairs = every_two(size(state), |i, j| {
        adjacent(state, i, j) && in_other(i) != in_other(j)
    });
    match choice(random, &pairs) {
        Some(pair) => {
            set_pair(state, index, pair);
            true
        }
        None => false,
    }
}

pub fn vertex_too_large(random: &mut Random, state: &mut State) -> bool {
    let Some(index) = any_pair(random, state) else {
        return false;
    };
    let n = size(state);
    state.sequence[2 * index + 1] = random.choose(&[n, n + 1, 96, 97, 128, 254]).max(n) as u8;
    true
}

pub fn unused_within_pairs(random: &mut Random, state: &mut State) -> bool {
    let Some(index) = any_pair(random, state) else {
        return false;
    };
    match random.below(3) {
        0 => state.sequence[2 * index] = 255,
        1 => state.sequence[2 * index..2 * index + 2].fill(255),
        _ => state.sequence[2 * index + 1] = 255,
    }
    true
}

/// Changes a pair to two vertices of no pair that are not adjacent.
pub fn pair_not_adjacent(random: &mut Random, state: &mut State) -> bool {
    let (Some(index), Some(pair)) = (any_pair(random, state), unmatched_two(random, state, false))
    else {
        return false;
    };
    set_pair(state, index, pair);
    true
}

pub fn edge_of_pair_removed(random: &mut Random, state: &mut State) -> bool {
    let Some(index) = any_pair(random, state) else {
        return false;
    };
    let (i, j) = state.pairs()[index];
    set_cells(state, i, j, 0);
    true
}

pub fn byte_after_pairs(random: &mut Random, state: &mut State) -> bool {
    let (used, n) = (2 * state.made as usize, size(state));
    if used == n {
        return false;
    }
    let vertex = random.below(n) as u8;
    state.sequence[random.between(used, n - 1)] = random.choose(&[vertex, vertex, 0, n as u8, 254]);
    true
}

pub fn last_byte(random: &mut Random, state: &mut State) -> bool {
    let n = size(state);
    if 2 * state.made as usize == n {
        return false;
    }
    state.sequence[n - 1] = random.choose(&[0, 1, 127, 128, 254]);
    true
}

/// Changes a pair to two other vertices that are adjacent.
pub fn another_pair(random: &mut Random, state: &mut State) -> bool {
    let (Some(index), Some(pair)) = (any_pair(random, state), unmatched_two(random, state, true))
    else {
        return false;
    };
    set_pair(state, index, pair);
    true
}

pub fn pairs_exchanged(random: &mut Random, state: &mut State) -> bool {
    let pairs = state.pairs();
    if pairs.len() < 2 {
        return false;
    }
    let (first, second) = (random.below(pairs.len()), random.below(pairs.len()));
    set_pair(state, first, pairs[second]);
    set_pair(state, second, pairs[first]);
    first != second
}
