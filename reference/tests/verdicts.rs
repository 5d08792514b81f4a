//! Document 02, request 3: what the verdicts F, O and U say of a perfect matching.
//! Every listing is set beside a search over the edges, in which no weight and no
//! matrix has a part.

mod common;

use common::*;
use reference::listing::listing;

type Edge = (u8, u8);

/// How many listings had which verdict: U with a perfect matching, and without one.
#[derive(Debug, Default, PartialEq, Eq)]
struct Met {
    full: usize,
    odd: usize,
    undecided_with: usize,
    undecided_without: usize,
}

impl Met {
    fn total(&self) -> usize {
        self.full + self.odd + self.undecided_with + self.undecided_without
    }

    /// Lists a graph of n vertices, checks the listing, and counts it.
    ///
    /// - F: there is a perfect matching, and the pairs listed are one.
    /// - O: there is none. It is listed exactly if n is odd.
    /// - O and U: a witness is listed, and no pair.
    fn count(&mut self, n: u8, seed: u32, edges: &[Edge]) {
        let text = listing(&records(n, seed, edges));
        let of = format!("n = {n}, seed {seed}, edges {edges:?}\n{text}");
        let (letter, lines) = letter_and_lines(n, edges, &text);
        match (letter, matchings(n, edges) > 0) {
            ("F", true) => {
                check_pairs(n, edges, &lines, &of);
                self.full += 1;
            }
            ("O", false) => self.odd += 1,
            ("U", true) => self.undecided_with += 1,
            ("U", false) => self.undecided_without += 1,
            (_, exists) => panic!("a perfect matching exists: {exists}, {of}"),
        }
        assert_eq!(letter == "O", n % 2 == 1, "{of}");
        if letter != "F" {
            let are_witness = lines.iter().all(|line| line.starts_with("witness "));
            assert!(are_witness && !lines.is_empty(), "{of}");
        }
    }
}

/// Checks the first line of a listing. Returns the letter of the last one, and the
/// lines between.
fn letter_and_lines<'a>(n: u8, edges: &[Edge], text: &'a str) -> (&'a str, Vec<&'a str>) {
    let lines: Vec<&str> = text.lines().collect();
    let [first, between @ .., last] = &lines[..] else {
        panic!("{text}");
    };
    assert_eq!(*first, format!("sleeves {n} links {}", edges.len()));
    let letter = last.strip_prefix("verdict ").expect("a verdict");
    (letter, between.to_vec())
}

/// Checks that the lines are a perfect matching: each is an edge, the smaller vertex
/// first, and every vertex stands in one of them.
fn check_pairs(n: u8, edges: &[Edge], lines: &[&str], of: &str) {
    let mut matched = Vec::new();
    for line in lines {
        let words: Vec<&str> = line.split(' ').collect();
        let ["pair", i, j] = words[..] else {
            panic!("{line}: {of}");
        };
        let [i, j] = [i, j].map(|word| word.parse::<u8>().expect("a vertex"));
        assert!(i < j, "{of}");
        assert!(edges.contains(&(i, j)) || edges.contains(&(j, i)), "{of}");
        matched.extend([i, j]);
    }
    matched.sort_unstable();
    assert_eq!(matched, (0..n).collect::<Vec<u8>>(), "{of}");
}

/// Counts the perfect matchings of a graph of n vertices.
fn matchings(n: u8, edges: &[Edge]) -> u64 {
    let n = usize::from(n);
    let mut table = vec![false; n * n];
    for &(i, j) in edges {
        let (i, j) = (usize::from(i), usize::from(j));
        table[i * n + j] = true;
        table[j * n + i] = true;
    }
    let vertices: Vec<usize> = (0..n).collect();
    perfect_matchings(&vertices, &|i, j| table[i * n + j])
}

fn complete(n: u8) -> Vec<Edge> {
    let others = |i| (i + 1..n).map(move |j| (i, j));
    (0..n).flat_map(others).collect()
}

/// Makes every edge between the first few vertices and the others.
fn bipartite(first: u8, others: u8) -> Vec<Edge> {
    let edges = |i| (first..first + others).map(move |j| (i, j));
    (0..first).flat_map(edges).collect()
}

fn path(n: u8) -> Vec<Edge> {
    (1..n).map(|vertex| (vertex - 1, vertex)).collect()
}

fn ring(n: u8) -> Vec<Edge> {
    [path(n), vec![(0, n - 1)]].concat()
}

/// Makes the squares of a board, which count row by row, adjacent across and down.
fn grid(rows: u8, columns: u8) -> Vec<Edge> {
    let n = rows * columns;
    let across = (0..n).filter(|square| square % columns + 1 < columns);
    let down = 0..n - columns;
    across
        .map(|square| (square, square + 1))
        .chain(down.map(|square| (square, square + columns)))
        .collect()
}

/// Adds more edges.
fn with(edges: Vec<Edge>, more: impl IntoIterator<Item = Edge>) -> Vec<Edge> {
    edges.into_iter().chain(more).collect()
}

/// Adds the edges of another graph, whose vertices count from n.
fn beside(edges: Vec<Edge>, n: u8, other: Vec<Edge>) -> Vec<Edge> {
    with(edges, other.into_iter().map(|(i, j)| (n + i, n + j)))
}

/// Makes every set of edges of n vertices.
fn every_graph(n: u8) -> impl Iterator<Item = Vec<Edge>> {
    let all = complete(n);
    (0..1u32 << all.len()).map(move |set| {
        let chosen = all
            .iter()
            .enumerate()
            .filter(|(index, _)| set >> index & 1 == 1);
        chosen.map(|(_, &edge)| edge).collect()
    })
}

/// A graph, how many perfect matchings it has, and seeds whose weights have a witness
/// all the same. The graph opens with the seed after each of them.
struct Cancelling {
    n: u8,
    edges: Vec<Edge>,
    matchings: u64,
    seeds: [u32; 3],
}

fn cancelling() -> Vec<Cancelling> {
    let of = |n, edges, matchings, seeds| Cancelling {
        n,
        edges,
        matchings,
        seeds,
    };
    let ring_and_edge = with(ring(4), [(4, 5)]);
    let ring_within = with(ring_and_edge.clone(), [(0, 4), (1, 5)]);
    let prism = with(beside(ring(3), 3, ring(3)), (0..3).map(|i| (i, i + 3)));
    let cube = with(beside(ring(4), 4, ring(4)), (0..4).map(|i| (i, i + 4)));
    let wheel = with(ring(5), (0..5).map(|i| (i, 5)));
    let spokes_and_star = (0..5).flat_map(|i| [(i, i + 5), (i + 5, (i + 2) % 5 + 5)]);
    let petersen = with(ring(5), spokes_and_star);
    vec![
        of(4, ring(4), 2, [247_978, 265_525, 334_685]),
        of(4, complete(4), 3, [15_458, 46_597, 99_687]),
        of(6, ring_and_edge, 2, [18_517, 87_727, 93_272]),
        of(6, ring_within, 3, [72_236, 221_287, 245_892]),
        of(6, ring(6), 2, [52_293, 145_512, 186_450]),
        of(6, complete(6), 15, [35_271, 87_273, 115_631]),
        of(6, bipartite(3, 3), 6, [8_581, 59_487, 100_595]),
        of(6, prism, 4, [16_187, 22_984, 87_017]),
        of(6, wheel, 5, [17_682, 69_657, 118_378]),
        of(8, ring(8), 2, [57_718, 80_274, 220_985]),
        of(8, complete(8), 105, [80_660, 118_375, 134_934]),
        of(8, bipartite(4, 4), 24, [1_427, 18_799, 34_429]),
        of(8, cube, 9, [34_800, 65_986, 266_484]),
        of(10, ring(10), 2, [47_609, 100_576, 147_411]),
        of(10, complete(10), 945, [77_867, 219_995, 368_042]),
        of(10, bipartite(5, 5), 120, [3_704, 12_817, 119_945]),
        of(10, petersen, 6, [153_351, 175_885, 194_589]),
        of(10, grid(2, 5), 8, [113_237, 151_883, 179_959]),
        of(12, grid(3, 4), 11, [56_495, 76_008, 217_884]),
    ]
}

/// Makes graphs of even sizes without a perfect matching.
fn unmatched() -> Vec<(u8, Vec<Edge>)> {
    let triangles = beside(ring(3), 3, beside(ring(3), 3, ring(3)));
    let three_triangles = with(triangles, [(0, 9), (3, 9), (6, 9)]);
    vec![
        (2, vec![]),
        (4, vec![]),
        (4, vec![(2, 3)]),
        (4, bipartite(1, 3)),
        (4, ring(3)),
        (6, bipartite(2, 4)),
        (6, beside(ring(3), 3, ring(3))),
        (6, beside(complete(5), 5, vec![])),
        (8, beside(complete(3), 3, complete(5))),
        (8, bipartite(3, 5)),
        (10, bipartite(4, 6)),
        (10, beside(ring(3), 3, complete(7))),
        (10, three_triangles),
    ]
}

/// Counts that are known of the search itself.
#[test]
fn the_search() {
    let counts = |graphs: fn(u8) -> Vec<Edge>, sizes: std::ops::RangeInclusive<u8>| {
        sizes
            .map(|n| matchings(n, &graphs(n)))
            .collect::<Vec<u64>>()
    };
    assert_eq!(
        counts(complete, 0..=10),
        [1, 0, 1, 0, 3, 0, 15, 0, 105, 0, 945]
    );
    assert_eq!(counts(path, 1..=10), [0, 1, 0, 1, 0, 1, 0, 1, 0, 1]);
    assert_eq!(counts(ring, 3..=10), [0, 2, 0, 2, 0, 2, 0, 2]);
    for graph in cancelling() {
        let found = matchings(graph.n, &graph.edges);
        assert_eq!(found, graph.matchings, "{:?}", graph.edges);
    }
    for (n, edges) in unmatched() {
        assert_eq!(matchings(n, &edges), 0, "{edges:?}");
    }
    // Each of three perfect matchings is in 16 graphs, two of them are in 4, all in 1.
    let matched = every_graph(4).filter(|edges| matchings(4, edges) > 0);
    assert_eq!(matched.count(), 3 * 16 - 3 * 4 + 1);
}

/// Three of the seeds cancel the ring of four, so also the ring with one of its two
/// chords, and two cancel the complete graph.
#[test]
fn every_graph_of_up_to_five_vertices() {
    let seeds = [0, u32::MAX, 247_978, 265_525, 334_685, 15_458, 46_597];
    let mut met = Met::default();
    for seed in seeds {
        for n in 0..=5 {
            every_graph(n).for_each(|edges| met.count(n, seed, &edges));
        }
    }
    let expected = Met {
        full: 7 * (1 + 1 + 37) - 11,
        odd: 7 * (1 + 8 + 1024),
        undecided_with: 3 * 3 + 2,
        undecided_without: 7 * (1 + 27),
    };
    assert_eq!(met, expected);
}

/// The seeds cancel the ring of four beside an edge, and the ring of six.
#[test]
fn every_graph_of_six_vertices() {
    let mut met = Met::default();
    for seed in [18_517, 52_293] {
        every_graph(6).for_each(|edges| met.count(6, seed, &edges));
    }
    assert_eq!((met.total(), met.odd), (2 << 15, 0));
    assert!(met.full > 40_000, "{met:?}");
    assert!(met.undecided_with > 100, "{met:?}");
    assert!(met.undecided_without > 10_000, "{met:?}");
}

#[test]
fn random_graphs_of_six_to_ten_vertices() {
    let mut random = Random(301);
    let mut met = Met::default();
    for n in 6..=10 {
        for percent in [5, 15, 25, 40, 60, 80, 100] {
            for _ in 0..60 {
                let mut edges = complete(n);
                edges.retain(|_| random.chance(percent));
                met.count(n, random.next() as u32, &edges);
            }
        }
    }
    assert_eq!((met.total(), met.odd), (5 * 7 * 60, 2 * 7 * 60));
    assert!(met.full > 600, "{met:?}");
    assert!(met.undecided_without > 300, "{met:?}");
}

/// U although there is a perfect matching; the weights of the next seed find one.
#[test]
fn cancelling_weights() {
    let mut met = Met::default();
    for graph in cancelling() {
        for seed in graph.seeds {
            met.count(graph.n, seed, &graph.edges);
            met.count(graph.n, seed + 1, &graph.edges);
        }
    }
    let expected = Met {
        full: 19 * 3,
        undecided_with: 19 * 3,
        ..Met::default()
    };
    assert_eq!(met, expected);
}

/// U whatever the seed, also where the edges leave no doubt.
#[test]
fn even_sizes_without_a_perfect_matching() {
    let mut met = Met::default();
    for seed in [0, 1, 247_978, 0x0403_0201, u32::MAX] {
        for (n, edges) in unmatched() {
            met.count(n, seed, &edges);
        }
        for n in (4..=96).step_by(2) {
            met.count(n, seed, &[]);
            met.count(n, seed, &bipartite(1, n - 1));
        }
    }
    let expected = Met {
        undecided_without: 5 * (13 + 2 * 47),
        ..Met::default()
    };
    assert_eq!(met, expected);
}

/// O whatever the edges. The search would take too long for the complete graphs, and
/// an odd number of vertices has no perfect matching.
#[test]
fn odd_sizes() {
    let mut met = Met::default();
    for n in (1..=95).step_by(2) {
        let seed = u32::from(n);
        for edges in [vec![], path(n), bipartite(1, n - 1)] {
            met.count(n, seed, &edges);
        }
        let text = listing(&records(n, seed, &complete(n)));
        let (letter, _) = letter_and_lines(n, &complete(n), &text);
        assert_eq!(letter, "O", "n = {n}");
    }
    let expected = Met {
        odd: 48 * 3,
        ..Met::default()
    };
    assert_eq!(met, expected);
}

/// F, with the only perfect matching of a path; n = 0 has one without pairs.
#[test]
fn paths_of_even_sizes() {
    let mut met = Met::default();
    for n in (0..=96).step_by(8) {
        met.count(n, 5, &path(n));
    }
    let expected = Met {
        full: 13,
        ..Met::default()
    };
    assert_eq!(met, expected);
    assert_eq!(
        listing(&records(0, 5, &[])),
        "sleeves 0 links 0\nverdict F\n"
    );
}
