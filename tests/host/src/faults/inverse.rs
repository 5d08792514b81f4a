//! Faults of the inverse.

use super::places::{any_pair, choice, every_two, size, unmatched_two};
use crate::graphs::P;
use crate::random::Random;
use crate::session::{inverse_without, State};
use reference::words::bytes_from_words;

/// Chooses a cell of the table. None if there are no vertices.
fn any_place(random: &mut Random, state: &State) -> Option<(usize, usize)> {
    let n = size(state);
    (n > 0).then(|| (random.below(n), random.below(n)))
}

pub fn word_too_large(random: &mut Random, state: &mut State) -> bool {
    let Some((i, j)) = any_place(random, state) else {
        return false;
    };
    let word = random.between(65521, 65535) as u16;
    state.set_word(i, j, word);
    true
}

/// Adds the modulus to a word, which then stores no residue.
pub fn word_plus_modulus(random: &mut Random, state: &mut State) -> bool {
    let n = size(state);
    let places: Vec<(usize, usize)> = (0..n * n).map(|at| (at / n, at % n)).collect();
    let small: Vec<(usize, usize)> = places
        .into_iter()
        .filter(|&(i, j)| state.word(i, j) <= 14)
        .collect();
    let Some((i, j)) = choice(random, &small) else {
        return false;
    };
    let word = state.word(i, j) + P as u16;
    state.set_word(i, j, word);
    true
}

/// Changes a word to another residue.
fn change_word(random: &mut Random, state: &mut State, i: usize, j: usize) -> u64 {
    let more = random.choose(&[1, 2, 255, 256, 32768, P - 1, 30103]);
    let word = (u64::from(state.word(i, j)) + more) % P;
    state.set_word(i, j, word as u16);
    more
}

pub fn word_on_diagonal(random: &mut Random, state: &mut State) -> bool {
    let Some((i, _)) = any_place(random, state) else {
        return false;
    };
    change_word(random, state, i, i);
    true
}

pub fn word_above_diagonal(random: &mut Random, state: &mut State) -> bool {
    let Some((i, j)) = choice(random, &every_two(size(state), |_, _| true)) else {
        return false;
    };
    change_word(random, state, i, j);
    true
}

pub fn word_below_diagonal(random: &mut Random, state: &mut State) -> bool {
    let Some((i, j)) = choice(random, &every_two(size(state), |_, _| true)) else {
        return false;
    };
    change_word(random, state, j, i);
    true
}

/// Changes a word and its mirror, so that the matrix is still skew.
pub fn word_and_mirror(random: &mut Random, state: &mut State) -> bool {
    let Some((i, j)) = choice(random, &every_two(size(state), |_, _| true)) else {
        return false;
    };
    let more = change_word(random, state, i, j);
    let mirror = (u64::from(state.word(j, i)) + P - more) % P;
    state.set_word(j, i, mirror as u16);
    true
}

pub fn word_of_matched(random: &mut Random, state: &mut State) -> bool {
    let Some(index) = any_pair(random, state) else {
        return false;
    };
    let vertex = usize::from(state.sequence[2 * index + random.below(2)]);
    let other = random.below(size(state));
    if random.percent(50) {
        change_word(random, state, vertex, other);
    } else {
        change_word(random, state, other, vertex);
    }
    true
}

/// Changes words by their cell and their mirror. False if all are as before.
fn rewrite(state: &mut State, word: impl Fn(usize, usize, u16, u16) -> u16) -> bool {
    let before = state.clone();
    let n = size(state);
    for i in 0..n {
        for j in 0..n {
            let new = word(i, j, before.word(i, j), before.word(j, i));
            state.set_word(i, j, new);
        }
    }
    *state != before
}

/// Sets the words below the diagonal to 0, to their mirror, or to a multiple.
pub fn right_above_only(random: &mut Random, state: &mut State) -> bool {
    let wrong = wrong_side(random);
    rewrite(
        state,
        |i, j, word, mirror| if i > j { wrong(word, mirror) } else { word },
    )
}

pub fn right_below_only(random: &mut Random, state: &mut State) -> bool {
    let wrong = wrong_side(random);
    rewrite(
        state,
        |i, j, word, mirror| if i < j { wrong(word, mirror) } else { word },
    )
}

fn wrong_side(random: &mut Random) -> fn(u16, u16) -> u16 {
    random.choose(&[
        (|_, _| 0) as fn(u16, u16) -> u16,
        |_, mirror| mirror,
        |word, _| (u64::from(word) * 2 % P) as u16,
    ])
}

pub fn transposed(_: &mut Random, state: &mut State) -> bool {
    rewrite(state, |_, _, _, mirror| mirror)
}

pub fn all_zero(_: &mut Random, state: &mut State) -> bool {
    rewrite(state, |_, _, _, _| 0)
}

pub fn words_exchanged(random: &mut Random, state: &mut State) -> bool {
    let (Some((i, j)), Some((k, l))) = (any_place(random, state), any_place(random, state)) else {
        return false;
    };
    let (first, second) = (state.word(i, j), state.word(k, l));
    state.set_word(i, j, second);
    state.set_word(k, l, first);
    first != second
}

/// Writes the inverse that belongs to another sequence.
fn put_inverse_of(state: &mut State, sequence: &[u8]) -> bool {
    let Some(words) = inverse_without(&state.graph(), sequence) else {
        return false;
    };
    let bytes = bytes_from_words(&words);
    if state.inverse[..bytes.len()] == bytes {
        return false;
    }
    state.inverse[..bytes.len()].copy_from_slice(&bytes);
    true
}

pub fn inverse_of_fewer(_: &mut Random, state: &mut State) -> bool {
    if state.made == 0 {
        return false;
    }
    let shorter = state.sequence[..2 * state.made as usize - 2].to_vec();
    put_inverse_of(state, &shorter)
}

pub fn inverse_of_more(random: &mut Random, state: &mut State) -> bool {
    let Some((i, j)) = unmatched_two(random, state, true) else {
        return false;
    };
    let mut longer = state.sequence[..2 * state.made as usize].to_vec();
    longer.extend([i as u8, j as u8]);
    put_inverse_of(state, &longer)
}
