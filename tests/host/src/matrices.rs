//! Random graphs of chosen matrices: of low rank, with weights that cancel, and
//! with chosen steps of elimination.

use crate::graphs::{dense, matched, Graph, P};
use crate::random::Random;
use reference::opening::{self, Opening};

/// A skew matrix, of which only the part above the diagonal is stored.
struct Skew {
    n: usize,
    entries: Vec<u64>,
}

impl Skew {
    fn zero(n: usize) -> Skew {
        Skew {
            n,
            entries: vec![0; n * n],
        }
    }

    /// Adds a residue to entry (i,j), and with it to its mirror.
    fn add(&mut self, i: usize, j: usize, residue: u64) {
        let (place, residue) = if i < j {
            (i * self.n + j, residue)
        } else {
            (j * self.n + i, P - residue)
        };
        self.entries[place] = (self.entries[place] + residue) % P;
    }

    /// Adds factor (x(i) y(j) - x(j) y(i)) for all i, j among the vertices.
    fn add_form(&mut self, vertices: &[usize], factor: u64, x: &[u64], y: &[u64]) {
        for (k, &i) in vertices.iter().enumerate() {
            for &j in &vertices[k + 1..] {
                let form = x[i] * y[j] % P + P - x[j] * y[i] % P;
                self.add(i, j, factor * form % P);
            }
        }
    }

    /// Makes the graph whose Tutte matrix this is.
    fn graph(&self) -> Graph {
        let mut graph = Graph::empty(self.n);
        for i in 0..self.n {
            for j in i + 1..self.n {
                let entry = self.entries[i * self.n + j];
                if entry != 0 {
                    graph.add_edge(i, j);
                    graph.set_weight(i, j, entry as u16);
                }
            }
        }
        graph
    }
}

/// Makes a matrix of rank 2k, as a sum of k forms x(i) y(j) - x(j) y(i).
pub fn low_rank(random: &mut Random, n: usize) -> Graph {
    let terms = random.between(1, (n / 2).max(1));
    let vertices: Vec<usize> = (0..n).collect();
    let mut matrix = Skew::zero(n);
    for _ in 0..terms {
        let x: Vec<u64> = (0..n).map(|_| random.number() % P).collect();
        let y: Vec<u64> = (0..n).map(|_| random.number() % P).collect();
        matrix.add_form(&vertices, 1, &x, &y);
    }
    matrix.graph()
}

/// Makes a matrix that repeats a smaller one: each row and column is 0, one of
/// the smaller matrix or its negative, or a sum of two such.
pub fn repeating(random: &mut Random, n: usize) -> Graph {
    let size = random.between(1, (n / 2).max(1));
    let small = dense(random, size).tutte_matrix();
    let mut any_term = || (random.below(size), random.choose(&[0, 0, 1, 1, P - 1]));
    let sums: Vec<_> = (0..n).map(|_| [any_term(), any_term()]).collect();
    let mut matrix = Skew::zero(n);
    for i in 0..n {
        for j in i + 1..n {
            for (a, factor) in sums[i] {
                for (b, other) in sums[j] {
                    matrix.add(i, j, factor * other % P * small[a * size + b] % P);
                }
            }
        }
    }
    matrix.graph()
}

/// Which entries the two rows of a step may have, and its pivot.
pub type Rows = [&'static [u64]; 3];

/// Small entries, many zeros, entries at the ends of the range and others.
pub const ROWS: [Rows; 6] = [
    [&[0, 1, 65520], &[0, 1, 65520], &[1, 65520]],
    [&[0, 0, 0, 1, 2], &[0, 0, 0, 3, 65519], &[1, 2, 3, 65520]],
    [
        &[1, 2, 32760],
        &[32761, 65519, 65520],
        &[1, 2, 32761, 65520],
    ],
    [&[0, 30103, 65520], &[0, 47712, 65519], &[69, 31415, 65001]],
    // The two products that a step adds to an entry, 65340 times 65340 and
    // 65341 times 65339, are nearly the largest; and the same negated.
    [&[65339], &[65340], &[65158]],
    [&[182], &[181], &[363]],
];

/// Makes a graph from the steps of elimination by pairs, with its first dependent
/// column. A step takes the lowest vertex c left and the lowest r whose entry in
/// row c is not 0, and subtracts (x(i) y(j) - x(j) y(i)) / x(r) from what is left,
/// where x and y are rows c and r. Here r and the rows are chosen, and that is
/// added. A c without an r is a dependent column.
pub fn made_by_pairs(random: &mut Random, n: usize, rows: Rows) -> (Graph, Option<usize>) {
    let [first_row, second_row, pivots] = rows;
    let farthest = random.choose(&[1, 1, 3, n]);
    let dependent = random.choose(&[0, 0, 3, 30]);
    let mut left: Vec<usize> = (0..n).collect();
    let mut matrix = Skew::zero(n);
    let mut column = None;
    while !left.is_empty() {
        let c = left.remove(0);
        if left.is_empty() || random.percent(dependent) {
            column = column.or(Some(c));
            continue;
        }
        let r = left.remove(random.below(farthest.min(left.len())));
        let pivot = random.choose(pivots);
        let (mut x, mut y) = (vec![0; n], vec![0; n]);
        matrix.add(c, r, pivot);
        for &j in &left {
            x[j] = if j < r { 0 } else { random.choose(first_row) };
            y[j] = random.choose(second_row);
            matrix.add(c, j, x[j]);
            matrix.add(r, j, y[j]);
        }
        matrix.add_form(&left, power(pivot, P - 2), &x, &y);
    }
    (matrix.graph(), column)
}

/// Makes a graph with an inverse B, and then changes one weight so that the
/// weights cancel: the Pfaffian is linear in each weight, and adding 1 / B(i,j)
/// to the weight of i < j makes it 0. Changes nothing if there is no inverse or
/// no such weight.
pub fn cancelling(random: &mut Random, n: usize) -> Graph {
    let mut graph = matched(random, n);
    if random.percent(50) {
        graph.adjacency = dense(random, n).adjacency;
    }
    let Some(inverse) = inverse_of(&graph) else {
        return graph;
    };
    let mut edges: Vec<(usize, usize)> = Vec::new();
    for i in 0..n {
        edges.extend((i + 1..n).filter(|&j| graph.adjacent(i, j)).map(|j| (i, j)));
    }
    for _ in 0..8 {
        if edges.is_empty() {
            break;
        }
        let (i, j) = random.choose(&edges);
        let entry = u64::from(inverse[i * n + j]);
        let index = graph.weight_index(i, j);
        let weight = (u64::from(graph.weights[index]) + power(entry, P - 2)) % P;
        if entry != 0 && weight != 0 {
            graph.weights[index] = weight as u16;
            assert!(inverse_of(&graph).is_none(), "the weights do not cancel");
            break;
        }
    }
    graph
}

fn power(base: u64, exponent: u64) -> u64 {
    let (mut base, mut exponent, mut product) = (base % P, exponent, 1);
    while exponent > 0 {
        if exponent % 2 == 1 {
            product = product * base % P;
        }
        base = base * base % P;
        exponent /= 2;
    }
    product
}

pub(crate) fn inverse_of(graph: &Graph) -> Option<Vec<u16>> {
    let n = graph.n;
    let mut inverse = vec![0; n * n];
    let opened = opening::open(
        n as u64,
        &graph.adjacency,
        &graph.weights,
        &mut inverse,
        &mut vec![0; n],
        &mut vec![0; n],
        &mut vec![0; n * n],
    );
    matches!(opened, Ok(Opening::Opened(_))).then_some(inverse)
}
