//! The edges of random graphs.

use crate::random::Random;
use std::collections::BTreeSet;

/// Makes the edges of a graph of n vertices, smaller vertex first.
pub type Edges = Vec<(u8, u8)>;
pub type Shape = fn(&mut Random, usize) -> Edges;

pub const SHAPES: [Shape; 8] = [
    dense,
    sparse,
    matched,
    path,
    hubs,
    bipartite,
    odd_cliques,
    isolated,
];

/// The shapes whose matrix has a low rank.
pub const LOW_RANKS: [Shape; 4] = [hubs, bipartite, odd_cliques, isolated];

fn collect(edges: impl Iterator<Item = (usize, usize)>) -> Edges {
    let ordered: BTreeSet<(u8, u8)> = edges
        .filter(|(i, j)| i != j)
        .map(|(i, j)| (i.min(j) as u8, i.max(j) as u8))
        .collect();
    ordered.into_iter().collect()
}

fn pairs(n: usize) -> impl Iterator<Item = (usize, usize)> {
    (0..n).flat_map(move |i| (i + 1..n).map(move |j| (i, j)))
}

fn dense(random: &mut Random, n: usize) -> Edges {
    let percent = random.between(30, 100);
    collect(pairs(n).filter(|_| random.percent(percent)))
}

/// Makes about zero to four neighbours a vertex.
fn sparse(random: &mut Random, n: usize) -> Edges {
    let count = random.between(0, 2 * n);
    collect((0..count).map(|_| (random.below(n), random.below(n))))
}

/// Makes a perfect matching, without one vertex if n is odd, and some more edges.
fn matched(random: &mut Random, n: usize) -> Edges {
    let order = random.permutation(n);
    let more = sparse(random, n);
    let more = more.into_iter().map(|(i, j)| (i.into(), j.into()));
    collect(
        order
            .chunks_exact(2)
            .map(|pair| (pair[0], pair[1]))
            .chain(more),
    )
}

/// Makes a path through all vertices, sometimes closed to a ring.
fn path(random: &mut Random, n: usize) -> Edges {
    let order = random.permutation(n);
    let closing = random.percent(50).then_some((order[0], order[n - 1]));
    collect(
        order
            .windows(2)
            .map(|pair| (pair[0], pair[1]))
            .chain(closing),
    )
}

/// Makes edges that all have an end among a few vertices: a star, or several.
fn hubs(random: &mut Random, n: usize) -> Edges {
    let order = random.permutation(n);
    let count = random.between(1, 1 + n / 8);
    let percent = random.between(50, 100);
    let (centres, others) = order.split_at(count);
    let edges = centres
        .iter()
        .flat_map(|&i| others.iter().map(move |&j| (i, j)));
    collect(edges.filter(|_| random.percent(percent)))
}

/// Makes edges between two parts only, of any sizes.
fn bipartite(random: &mut Random, n: usize) -> Edges {
    let order = random.permutation(n);
    let (left, right) = order.split_at(random.between(0, n / 2));
    let percent = random.between(30, 100);
    let edges = left
        .iter()
        .flat_map(|&i| right.iter().map(move |&j| (i, j)));
    collect(edges.filter(|_| random.percent(percent)))
}

/// Makes complete graphs beside each other, all of odd sizes.
fn odd_cliques(random: &mut Random, n: usize) -> Edges {
    let order = random.permutation(n);
    let mut rest = &order[..];
    let mut edges = Vec::new();
    while !rest.is_empty() {
        let size = (random.between(0, 7).min(rest.len() - 1)) / 2 * 2 + 1;
        let (clique, others) = rest.split_at(size);
        edges.extend(pairs(size).map(|(i, j)| (clique[i], clique[j])));
        rest = others;
    }
    collect(edges.into_iter())
}

/// Makes a few vertices without an edge, or many.
fn isolated(random: &mut Random, n: usize) -> Edges {
    let most = random.choose(&[1, 3, n.div_ceil(2), n]);
    let left_out: Vec<usize> = (0..most).map(|_| random.below(n)).collect();
    let kept = |vertex: u8| !left_out.contains(&vertex.into());
    let mut edges = dense(random, n);
    edges.retain(|&(i, j)| kept(i) && kept(j));
    edges
}
