//! The generator of the weights (document 01, "Draw roll").

use crate::causes::Refusal;
use crate::graph::{check_lengths, checked_size, lent_weights, weight_count};

/// Returns the state after this one: 1664525 times it plus 1013904223, modulo
/// 2^32.
pub fn next_state(state: u32) -> u32 {
    let number = 1_664_525 * u64::from(state) + 1_013_904_223;
    (number % (1 << 32)) as u32
}

/// Returns the weight of a state: 1 plus its high half modulo 65520.
pub fn weight_of(state: u32) -> u16 {
    let high_half = state / 65536;
    (1 + high_half % 65520) as u16
}

/// Draws weights from a seed, without end. The first comes from the state after
/// the seed.
pub fn weights(seed: u32) -> impl Iterator<Item = u16> {
    let mut state = seed;
    std::iter::repeat_with(move || {
        state = next_state(state);
        weight_of(state)
    })
}

/// Draws the weights of a graph of this size from a seed, and returns how many
/// there are. Refuses with cause 1, then 2. Writes no word past the weights.
pub fn fill_weights(size: u64, seed: u32, words: &mut [u16]) -> Result<u64, Refusal> {
    let n = checked_size(size)?;
    check_lengths(n, &[lent_weights(words)])?;
    let count = weight_count(n);
    for (word, weight) in words[..count].iter_mut().zip(weights(seed)) {
        *word = weight;
    }
    Ok(count as u64)
}
