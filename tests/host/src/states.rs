//! Random sessions to begin with.

use crate::graphs::{self, Graph};
use crate::random::Random;
use crate::session::State;

/// Makes a generator for one seed of a family.
pub fn seeded(family: u64, seed: u64) -> Random {
    Random::new(Random::new(family << 48 | seed).number())
}

/// Makes a graph, mostly of even size and with a perfect matching.
pub fn graph_to_open(random: &mut Random, n: usize) -> Graph {
    let n = if random.percent(80) { n & !1 } else { n };
    if n > 0 && random.percent(50) {
        graphs::matched(random, n)
    } else {
        graphs::any(random, n)
    }
}

/// Makes a sound session with some pairs, on a graph that need not open.
pub fn sound_session(random: &mut Random, n: usize) -> State {
    for _ in 0..20 {
        let graph = graph_to_open(random, n);
        let most = random.between(0, n / 2).max(random.below(3));
        let pairs = disjoint(random, &graph, most);
        let excess = random.choose(&[0, 1, 5]);
        let (state, sound) = State::new(random, &graph, &pairs, excess);
        if sound {
            return state;
        }
    }
    let graph = graphs::with_density(random, n & !1, 100);
    State::new(random, &graph, &[], 1).0
}

/// Chooses disjoint edges in random order, at most `most` of them.
pub fn disjoint(random: &mut Random, graph: &Graph, most: usize) -> Vec<(usize, usize)> {
    let order = random.permutation(graph.n);
    let mut taken = vec![false; graph.n];
    let mut pairs = Vec::new();
    for &i in &order {
        let start = random.below(graph.n);
        let partner = (0..graph.n)
            .map(|k| (start + k) % graph.n)
            .find(|&j| !taken[i] && !taken[j] && graph.adjacent(i, j));
        if let (Some(j), true) = (partner, pairs.len() < most) {
            taken[i] = true;
            taken[j] = true;
            pairs.push((i, j));
        }
    }
    pairs
}

pub fn random_state(random: &mut Random) -> State {
    let n = random.choose(&[0, 1, 2, 2, 2, 2, 3, 4, 5]);
    let bytes: &[u8] = random.choose(&[&[] as &[u8], &[0, 1], &[0, 0, 1, 255], &[0, 1, 240, 255]]);
    let any_length = random.percent(10);
    let needed = [n * n, n * n - n, 2 * n * n, n];
    let mut buffers = needed.map(|needed| {
        let length = if any_length {
            random.between(0, 2 * needed + 1)
        } else {
            needed + random.below(2)
        };
        few_bytes(random, bytes, length)
    });
    if random.percent(80) {
        let graph = graphs::any(random, n);
        buffers[0] = graph.adjacency;
    }
    if random.percent(50) && n == 2 {
        buffers[1] = vec![1, 0];
    }
    if random.percent(50) && buffers[3].len() >= n {
        buffers[3][..n].fill(255);
    }
    let [adjacency, weights, inverse, sequence] = buffers;
    State {
        n: if random.percent(3) {
            random.number()
        } else {
            n as u64
        },
        made: random.choose(&[0, 0, 0, 0, 1, 1, 2, u64::MAX]),
        adjacency,
        weights,
        inverse,
        sequence,
    }
}

/// Makes bytes of these values only, or of all if there are none.
fn few_bytes(random: &mut Random, values: &[u8], length: usize) -> Vec<u8> {
    if values.is_empty() {
        return random.bytes(length);
    }
    (0..length).map(|_| random.choose(values)).collect()
}
