//! Random graphs of many shapes.

use crate::matrices::{cancelling, low_rank, made_by_pairs, repeating, ROWS};
use crate::random::Random;

/// The modulus.
pub const P: u64 = 65521;

/// A graph: adjacency row by row, and a weight for each two vertices.
#[derive(Clone)]
pub struct Graph {
    pub n: usize,
    pub adjacency: Vec<u8>,
    pub weights: Vec<u16>,
}

impl Graph {
    /// Makes a graph of n vertices with no edges and all weights 1.
    pub fn empty(n: usize) -> Graph {
        Graph {
            n,
            adjacency: vec![0; n * n],
            weights: vec![1; n * n.saturating_sub(1) / 2],
        }
    }

    pub fn add_edge(&mut self, i: usize, j: usize) {
        if i != j {
            self.adjacency[i * self.n + j] = 1;
            self.adjacency[j * self.n + i] = 1;
        }
    }

    pub fn remove_edge(&mut self, i: usize, j: usize) {
        self.adjacency[i * self.n + j] = 0;
        self.adjacency[j * self.n + i] = 0;
    }

    pub fn adjacent(&self, i: usize, j: usize) -> bool {
        self.adjacency[i * self.n + j] == 1
    }

    /// Returns the index of the weight of i and j, which differ: (0,1), (0,2) ..
    pub fn weight_index(&self, i: usize, j: usize) -> usize {
        let (low, high) = (i.min(j), i.max(j));
        (0..low).map(|row| self.n - 1 - row).sum::<usize>() + (high - low - 1)
    }

    pub fn set_weight(&mut self, i: usize, j: usize, weight: u16) {
        let index = self.weight_index(i, j);
        self.weights[index] = weight;
    }

    /// Sets every weight to one of the choices.
    pub fn choose_weights(&mut self, random: &mut Random, choices: &[u16]) {
        for weight in &mut self.weights {
            *weight = random.choose(choices);
        }
    }

    /// Returns the Tutte matrix modulo 65521, row by row.
    pub fn tutte_matrix(&self) -> Vec<u64> {
        let n = self.n;
        let mut matrix = vec![0; n * n];
        let mut index = 0;
        for i in 0..n {
            for j in i + 1..n {
                if self.adjacent(i, j) {
                    let weight = u64::from(self.weights[index]);
                    matrix[i * n + j] = weight;
                    matrix[j * n + i] = P - weight;
                }
                index += 1;
            }
        }
        matrix
    }
}

/// Makes a random graph of n vertices, at least one.
pub type Shape = fn(&mut Random, usize) -> Graph;

/// The shapes, with random weights.
pub const SHAPES: [Shape; 13] = [
    dense,
    complete,
    sparse,
    matched,
    isolated,
    balanced,
    unbalanced,
    complete_bipartite,
    path,
    ladder,
    tree,
    cliques,
    odd_cliques,
];

/// Makes a graph of n vertices of a random shape with random weights, or of a
/// chosen matrix.
pub fn any(random: &mut Random, n: usize) -> Graph {
    if n == 0 {
        return Graph::empty(0);
    }
    match random.below(SHAPES.len() + 5) {
        0 => low_rank(random, n),
        1 => repeating(random, n),
        2 => {
            let rows = random.choose(&ROWS);
            made_by_pairs(random, n, rows).0
        }
        3 | 4 => cancelling(random, n),
        shape => SHAPES[shape - 5](random, n),
    }
}

/// Sets random weights: any, at the ends of the range, or all the same.
fn set_weights(random: &mut Random, graph: &mut Graph) {
    const ENDS: [u16; 8] = [1, 2, 3, 32760, 32761, 65518, 65519, 65520];
    match random.below(5) {
        0 => {
            let same = random.choose(&ENDS);
            graph.weights.fill(same);
        }
        1 => graph.choose_weights(random, &ENDS),
        _ => {
            for weight in &mut graph.weights {
                *weight = random.between(1, 65520) as u16;
            }
        }
    }
}

pub fn with_density(random: &mut Random, n: usize, percent: usize) -> Graph {
    let mut graph = Graph::empty(n);
    for i in 0..n {
        for j in i + 1..n {
            if random.percent(percent) {
                graph.add_edge(i, j);
            }
        }
    }
    set_weights(random, &mut graph);
    graph
}

pub fn dense(random: &mut Random, n: usize) -> Graph {
    let percent = random.between(30, 100);
    with_density(random, n, percent)
}

fn complete(random: &mut Random, n: usize) -> Graph {
    with_density(random, n, 100)
}

/// Makes a graph of about zero to four neighbours a vertex.
pub fn sparse(random: &mut Random, n: usize) -> Graph {
    let mut graph = Graph::empty(n);
    let edges = random.between(0, 2 * n);
    for _ in 0..edges {
        let (i, j) = (random.below(n), random.below(n));
        graph.add_edge(i, j);
    }
    set_weights(random, &mut graph);
    graph
}

/// Makes a perfect matching, without one vertex if n is odd, and some more edges.
pub fn matched(random: &mut Random, n: usize) -> Graph {
    let mut graph = sparse(random, n);
    for pair in random.permutation(n).chunks_exact(2) {
        graph.add_edge(pair[0], pair[1]);
    }
    graph
}

/// Makes a graph with a few vertices without an edge, or many.
fn isolated(random: &mut Random, n: usize) -> Graph {
    let mut graph = dense(random, n);
    for _ in 0..random.choose(&[1, 2, 3, n / 2, n]).min(n) {
        let vertex = random.below(n);
        for other in 0..n {
            graph.remove_edge(vertex, other);
        }
    }
    graph
}

/// Makes edges between two parts of the same size, or one vertex apart if n is
/// odd.
fn balanced(random: &mut Random, n: usize) -> Graph {
    let percent = random.between(20, 100);
    bipartite(random, n, n / 2, percent)
}

/// Makes edges between two parts only, of any sizes.
fn unbalanced(random: &mut Random, n: usize) -> Graph {
    let (part, percent) = (random.between(0, n / 2), random.between(20, 100));
    bipartite(random, n, part, percent)
}

/// Makes all edges between two parts of any sizes.
fn complete_bipartite(random: &mut Random, n: usize) -> Graph {
    let part = random.between(0, n / 2);
    bipartite(random, n, part, 100)
}

fn bipartite(random: &mut Random, n: usize, part: usize, percent: usize) -> Graph {
    let order = random.permutation(n);
    let mut graph = Graph::empty(n);
    for &left in &order[..part] {
        for &right in &order[part..] {
            if random.percent(percent) {
                graph.add_edge(left, right);
            }
        }
    }
    set_weights(random, &mut graph);
    graph
}

/// Makes a path through all vertices in random order, sometimes closed to a ring.
fn path(random: &mut Random, n: usize) -> Graph {
    let order = random.permutation(n);
    let mut graph = Graph::empty(n);
    for pair in order.windows(2) {
        graph.add_edge(pair[0], pair[1]);
    }
    if n > 2 && random.percent(50) {
        graph.add_edge(order[0], order[n - 1]);
    }
    set_weights(random, &mut graph);
    graph
}

/// Makes two paths beside each other, with rungs.
fn ladder(random: &mut Random, n: usize) -> Graph {
    let order = random.permutation(n);
    let half = n / 2;
    let mut graph = Graph::empty(n);
    for i in 0..half {
        graph.add_edge(order[i], order[half + i]);
        if i + 1 < half {
            graph.add_edge(order[i], order[i + 1]);
            graph.add_edge(order[half + i], order[half + i + 1]);
        }
    }
    set_weights(random, &mut graph);
    graph
}

fn tree(random: &mut Random, n: usize) -> Graph {
    let order = random.permutation(n);
    let mut graph = Graph::empty(n);
    for i in 1..n {
        let parent = random.below(i);
        graph.add_edge(order[i], order[parent]);
    }
    set_weights(random, &mut graph);
    graph
}

/// Makes complete graphs beside each other, of odd and even sizes.
fn cliques(random: &mut Random, n: usize) -> Graph {
    cliques_of(random, n, |size| size)
}

/// Makes complete graphs beside each other, all of odd sizes.
fn odd_cliques(random: &mut Random, n: usize) -> Graph {
    cliques_of(random, n, |size| (size - 1) | 1)
}

/// Makes complete graphs beside each other, of sizes that rounded gives for random
/// ones.
fn cliques_of(random: &mut Random, n: usize, rounded: fn(usize) -> usize) -> Graph {
    let order = random.permutation(n);
    let mut graph = Graph::empty(n);
    let mut start = 0;
    while start < n {
        let end = start + rounded(random.between(1, 9).min(n - start));
        for i in start..end {
            for j in i + 1..end {
                graph.add_edge(order[i], order[j]);
            }
        }
        start = end;
    }
    set_weights(random, &mut graph);
    graph
}
