//! Sheets that have a perfect matching, and weights with a witness all the same.

use crate::sheet::Sheet;

type Edges = Vec<(u8, u8)>;

/// Makes the sheets. Vertices 0 and 1 are adjacent in each, 2 and 3, and so on: that
/// is a perfect matching. With the seed after its own, each opens.
pub fn sheets() -> Vec<Sheet> {
    let mut sheets = Vec::new();
    let mut add = |size, edges: Edges, seeds: &[u32]| {
        sheets.extend(seeds.iter().map(|&seed| Sheet {
            size,
            seed,
            edges: edges.clone(),
        }));
    };
    let ring_and_edge = with(ring(4), &[(4, 5)]);
    let ring_within = with(ring_and_edge.clone(), &[(0, 4), (1, 5)]);
    add(4, ring(4), &[247_978, 265_525, 334_685]);
    add(4, complete(4), &[15_458, 46_597, 99_687]);
    add(6, ring_and_edge, &[18_517, 87_727, 93_272]);
    add(6, ring_within, &[72_236, 221_287, 245_892]);
    for (size, seed) in [(6, 52_293), (8, 57_718), (10, 47_609), (96, 25_511)] {
        add(size, ring(size), &[seed]);
    }
    for (size, seed) in [(6, 35_271), (8, 80_660), (10, 77_867), (14, 58_303)] {
        add(size, complete(size), &[seed]);
    }
    for (size, seed) in [(20, 7_847), (40, 105_692), (96, 104_644)] {
        add(size, complete(size), &[seed]);
    }
    for (size, seed) in [(10, 6_377), (14, 73_889), (32, 37_167)] {
        add(size, bipartite(size), &[seed]);
    }
    for (rows, columns, seed) in [(3, 4, 56_495), (5, 4, 99_905), (8, 12, 49_704)] {
        add(rows * columns, grid(rows, columns), &[seed]);
    }
    for (size, seed) in [(14, 7_888), (20, 85_629), (48, 125_399), (96, 41_107)] {
        add(size, with(path(size), &[(0, 3)]), &[seed]);
    }
    for (size, seed) in [(20, 84_040), (48, 81_454), (96, 73_288)] {
        add(size, with(path(size), &[(size - 4, size - 1)]), &[seed]);
    }
    sheets
}

fn complete(n: u8) -> Edges {
    Sheet::complete(n, 0).edges
}

fn path(n: u8) -> Edges {
    (1..n).map(|vertex| (vertex - 1, vertex)).collect()
}

fn ring(n: u8) -> Edges {
    with(path(n), &[(n - 1, 0)])
}

/// Makes every edge between an even and an odd vertex.
fn bipartite(n: u8) -> Edges {
    let mut edges = complete(n);
    edges.retain(|(i, j)| i % 2 != j % 2);
    edges
}

/// Makes the squares of a board, which count row by row, adjacent across and down.
fn grid(rows: u8, columns: u8) -> Edges {
    let mut edges = complete(rows * columns);
    edges.retain(|&(i, j)| j - i == columns || (j - i == 1 && j % columns != 0));
    edges
}

fn with(edges: Edges, more: &[(u8, u8)]) -> Edges {
    [&edges, more].concat()
}
