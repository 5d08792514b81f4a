//! Faults for an opening.

use crate::call::{needed, Call};
use crate::random::Random;

/// How many kinds of damage there are.
pub const KINDS: usize = 10;

/// Makes one fault, or several at once with the last kind.
pub fn damage(random: &mut Random, call: &mut Call, kind: usize) {
    let n = call.n as usize;
    let cells = n * n;
    let words = n * n.saturating_sub(1) / 2;
    match kind {
        0 if cells > 0 => call.adjacency[random.below(cells)] = random.between(2, 255) as u8,
        1 if cells > 0 => call.adjacency[random.below(cells)] ^= 1,
        2 if cells > 0 => call.adjacency[random.below(n) * (n + 1)] = 1,
        3 if words > 0 => call.set_weight(random.below(words), 0),
        4 if words > 0 => call.set_weight(random.below(words), 65521),
        5 if words > 0 => call.set_weight(random.below(words), 65535),
        6 if words > 0 => {
            call.set_weight(random.below(words), random.between(65521, 65535) as u16);
        }
        7 => shorten(random, call),
        8 => call.n = any_large_size(random),
        9 => damage_often(random, call),
        _ => {}
    }
}

/// Makes several faults of adjacency and weights, and sometimes of lengths and
/// size.
fn damage_often(random: &mut Random, call: &mut Call) {
    for _ in 0..random.between(2, 5) {
        let kind = random.between(0, 6);
        damage(random, call, kind);
    }
    if random.percent(30) {
        shorten(random, call);
    }
    if random.percent(10) {
        call.n = any_large_size(random);
    }
}

/// Cuts one buffer or several: to nothing, by one byte or by a few.
fn shorten(random: &mut Random, call: &mut Call) {
    let needed = needed(call.n as usize);
    for _ in 0..random.choose(&[1, 1, 2, 6]) {
        let number = random.below(6);
        let short = match random.below(4) {
            0 => 0,
            1 => needed[number].saturating_sub(1),
            2 => needed[number].saturating_sub(2),
            _ => random.between(0, needed[number]),
        };
        call.buffers_mut()[number].truncate(short);
    }
}

/// Chooses a size above 96, often one that is at most 96 except for a high bit.
pub fn any_large_size(random: &mut Random) -> u64 {
    let n = random.below(97) as u64;
    random.choose(&[
        97,
        98,
        200,
        255,
        256 + n,
        65536 + n,
        1 << 32,
        (1 << 32) + n,
        (1 << 63) + n,
        u64::MAX - n,
        u64::MAX,
    ])
}
