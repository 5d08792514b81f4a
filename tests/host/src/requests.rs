//! Random requests to a session.

use crate::random::Random;
use crate::session::{Request, State};

/// How many entries there are for session calls.
pub const ENTRIES: usize = 5;

/// Call-kinds that no call has.
pub const UNKNOWN_KINDS: [u64; 10] = [
    0,
    4,
    5,
    255,
    257,
    258,
    (1 << 32) + 1,
    (1 << 32) + 3,
    (1 << 63) + 2,
    u64::MAX,
];

/// Makes a request to any entry, most often a pick or an automatic pick.
pub fn any(random: &mut Random, state: &State) -> Request {
    let entry = match random.below(20) {
        0..=8 => 0,
        9..=12 => 1,
        13..=16 => 2,
        17 | 18 => 3,
        _ => 4,
    };
    of_entry(random, state, entry)
}

/// Makes a request to one entry: 0 pick, 1 automatic, 2 undo, 3 row, 4 replay.
pub fn of_entry(random: &mut Random, state: &State, entry: usize) -> Request {
    match entry {
        0 => pick(random, state),
        1 => Request::Automatic,
        2 => Request::Undo,
        3 => row(random, state),
        _ => replay(random, state, 8),
    }
}

/// Makes a pick, half of the time of two adjacent unmatched vertices.
fn pick(random: &mut Random, state: &State) -> Request {
    let (a, b) = any_two(random, state);
    Request::Pick(a, b)
}

fn any_two(random: &mut Random, state: &State) -> (u64, u64) {
    if random.percent(50) {
        if let Some((a, b)) = likely_pair(random, state) {
            return (a as u64, b as u64);
        }
    }
    let a = vertex(random, state.n);
    let b = if random.percent(5) {
        a
    } else {
        vertex(random, state.n)
    };
    (a, b)
}

/// Chooses two adjacent unmatched vertices, in either order.
fn likely_pair(random: &mut Random, state: &State) -> Option<(usize, usize)> {
    let n = state.n.min(97) as usize;
    let used = 2 * state.made.min(97) as usize;
    if n > 96 || state.adjacency.len() < n * n || state.sequence.len() < used {
        return None;
    }
    let left = state.unmatched();
    if left.is_empty() {
        return None;
    }
    for _ in 0..8 {
        let (a, b) = (random.choose(&left), random.choose(&left));
        if state.adjacency[a * n + b] == 1 {
            return Some((a, b));
        }
    }
    None
}

/// Chooses mostly a vertex, sometimes a number just above, or a vertex with high
/// bits.
pub fn vertex(random: &mut Random, n: u64) -> u64 {
    let low = if n == 0 { 0 } else { random.number() % n };
    match random.below(16) {
        0 => n.wrapping_add(random.below(3) as u64),
        1 => random.choose(&[
            255,
            low.wrapping_add(256),
            low.wrapping_add(65536),
            low.wrapping_add(1 << 32),
            low.wrapping_add(1 << 63),
            u64::MAX - low,
            u64::MAX,
        ]),
        _ => low,
    }
}

fn row(random: &mut Random, state: &State) -> Request {
    let vertex = vertex(random, state.n);
    let length = state.n.min(100) as usize + random.below(4);
    Request::Row {
        vertex,
        row: random.bytes(length),
    }
}

/// Makes a list of at most `most` calls, with room for the answers.
pub fn replay(random: &mut Random, state: &State, most: usize) -> Request {
    let count = random.between(0, most);
    let calls = any_list(random, state, count);
    let room = count + random.below(3);
    Request::Replay {
        calls,
        answers: (0..room).map(|_| random.number()).collect(),
    }
}

/// Makes a list of count calls. The vertices of a call that is not a pick are
/// arbitrary.
pub fn any_list(random: &mut Random, state: &State, count: usize) -> Vec<u64> {
    let mut any_call = || {
        let (a, b) = any_two(random, state);
        match random.below(10) {
            0..=4 => [1, a, b],
            5..=7 => [2, random.number(), a],
            _ => [3, b, random.number()],
        }
    };
    (0..count).flat_map(|_| any_call()).collect()
}

/// Makes one fault of a list, or several at once with the last kind: too little
/// room for the answers, an unknown call-kind, numbers after the last call.
pub fn spoil_list(random: &mut Random, request: &mut Request, kind: usize) {
    let Request::Replay { calls, answers } = request else {
        return;
    };
    let count = calls.len() / 3;
    match kind {
        0 if count > 0 => answers.truncate(random.below(count)),
        1 if count > 0 => calls[3 * random.below(count)] = random.choose(&UNKNOWN_KINDS),
        2 => calls.extend((0..random.between(1, 2)).map(|_| random.choose(&[0, 1, 2, 3, 9]))),
        3 => {
            for _ in 0..random.between(2, 4) {
                let kind = random.below(3);
                spoil_list(random, request, kind);
            }
        }
        _ => {}
    }
}
