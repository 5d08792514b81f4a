//! The program `graph`: queen and Mycielski graphs in the DIMACS edge format, and
//! the samples that it made.

mod common;

use common::*;
use reference::dimacs::read_dimacs;
use reference::records::Counts;
use std::path::Path;
use std::process::{Command, Output};

/// The name of a graph in the DIMACS benchmarks, the arguments that make it, the
/// numbers of its problem line there, and how many different edges it has.
struct Known {
    name: &'static str,
    arguments: &'static [&'static str],
    problem: (u64, u64),
    edges: u64,
}

const KNOWN: [Known; 8] = [
    known("myciel3", &["mycielski", "3"], (11, 20), 20),
    known("myciel4", &["mycielski", "4"], (23, 71), 71),
    known("myciel5", &["mycielski", "5"], (47, 236), 236),
    known("myciel6", &["mycielski", "6"], (95, 755), 755),
    known("queen5_5", &["queen", "5", "5"], (25, 320), 160),
    known("queen6_6", &["queen", "6", "6"], (36, 580), 290),
    known("queen8_8", &["queen", "8", "8"], (64, 1456), 728),
    known("queen8_12", &["queen", "8", "12"], (96, 2736), 1368),
];

const fn known(
    name: &'static str,
    arguments: &'static [&'static str],
    problem: (u64, u64),
    edges: u64,
) -> Known {
    Known {
        name,
        arguments,
        problem,
        edges,
    }
}

fn run(arguments: &[&str]) -> Output {
    let mut program = Command::new(env!("CARGO_BIN_EXE_graph"));
    program
        .args(arguments)
        .output()
        .expect("the program starts")
}

/// Returns what the program prints.
fn printed(arguments: &[&str]) -> String {
    let output = run(arguments);
    assert_eq!(output.status.code(), Some(0));
    assert!(output.stderr.is_empty());
    String::from_utf8(output.stdout).expect("a text")
}

/// Reads a text, and returns the counts and the adjacency table.
fn read(text: &str) -> (Counts, Vec<u8>) {
    let mut table = vec![JUNK_BYTE; 9216];
    let counts = read_dimacs(text.as_bytes(), 0, &mut table, &mut [0; 4560]);
    let counts = counts.expect("accepted");
    table.truncate((counts.size * counts.size) as usize);
    (counts, table)
}

#[test]
fn as_large_as_the_benchmarks() {
    for graph in &KNOWN {
        let text = printed(graph.arguments);
        let (n, m) = graph.problem;
        assert!(text.starts_with(&format!("c {}: ", graph.name)));
        assert!(text.contains(&format!("\np edge {n} {m}\n")), "{text}");
        let (counts, _) = read(&text);
        assert_eq!(
            (counts.size, counts.edges),
            (n, graph.edges),
            "{}",
            graph.name
        );
    }
}

/// The samples of these graphs are what the program prints.
#[test]
fn samples() {
    let samples = Path::new(env!("CARGO_MANIFEST_DIR")).join("../samples");
    for graph in &KNOWN {
        let path = samples.join(format!("{}.col", graph.name));
        let sample = std::fs::read_to_string(&path);
        let sample = sample.unwrap_or_else(|error| panic!("{}: {error}", path.display()));
        assert_eq!(sample, printed(graph.arguments), "{}", graph.name);
    }
}

/// The edges of myciel3, as the benchmarks list them.
#[test]
fn the_smallest_mycielski_graph() {
    let text = printed(&["mycielski", "3"]);
    let edges: Vec<&str> = text
        .lines()
        .filter_map(|line| line.strip_prefix("e "))
        .collect();
    let listed = "1 2, 1 4, 1 7, 1 9, 2 3, 2 6, 2 8, 3 5, 3 7, 3 10, 4 5, 4 6, 4 10, \
                  5 8, 5 9, 6 11, 7 11, 8 11, 9 11, 10 11";
    assert_eq!(edges.join(", "), listed);
}

#[test]
fn mycielski_graphs_have_no_triangles() {
    for k in ["3", "4", "5", "6"] {
        let (counts, table) = read(&printed(&["mycielski", k]));
        let n = counts.size as usize;
        let adjacent = |i: usize, j: usize| table[i * n + j] == 1;
        for (i, j) in every_two(n).into_iter().filter(|&(i, j)| adjacent(i, j)) {
            assert!(!(0..n).any(|v| adjacent(i, v) && adjacent(j, v)));
        }
    }
}

/// Each edge of a queen graph is listed in both orders. Its rows, columns and
/// diagonals are counted apart: a row of m squares has m(m - 1)/2 edges.
#[test]
fn queen_graphs() {
    let two_of = |m: usize| m * m.saturating_sub(1) / 2;
    for (rows, columns) in [(5, 5), (6, 6), (8, 8), (8, 12), (12, 8), (1, 7), (2, 3)] {
        let text = printed(&["queen", &rows.to_string(), &columns.to_string()]);
        let edges: Vec<&str> = text.lines().filter(|line| line.starts_with('e')).collect();
        for edge in &edges {
            let [_, u, v] = edge.split(' ').collect::<Vec<_>>()[..] else {
                panic!("{edge}");
            };
            assert!(edges.contains(&&*format!("e {v} {u}")));
        }
        // The diagonals that begin in the first row or the first column.
        let starts = (0..columns)
            .map(|column| (0, column))
            .chain((1..rows).map(|row| (row, 0)));
        let diagonals: usize = starts
            .map(|(row, column)| two_of((rows - row).min(columns - column)))
            .sum();
        let lines = rows * two_of(columns) + columns * two_of(rows);
        assert_eq!(edges.len(), 2 * (lines + 2 * diagonals));
        assert_eq!(read(&text).0.edges, (lines + 2 * diagonals) as u64);
    }
}

/// Graphs of more than 96 vertices are refused at their problem line.
#[test]
fn larger_graphs() {
    for arguments in [
        &["mycielski", "7"][..],
        &["queen", "9", "11"],
        &["queen", "20", "20"],
    ] {
        let text = printed(arguments);
        let refusal = read_dimacs(text.as_bytes(), 0, &mut [], &mut []);
        assert_eq!(refusal.expect_err("too large").numbers(), (1, 4));
    }
}

#[test]
fn other_arguments_are_refused() {
    for arguments in [
        &[][..],
        &["queen"],
        &["queen", "8"],
        &["queen", "0", "8"],
        &["queen", "8", "100"],
        &["queen", "8", "8", "8"],
        &["mycielski"],
        &["mycielski", "0"],
        &["mycielski", "10"],
        &["mycielski", "x"],
        &["king", "8", "8"],
    ] {
        let output = run(arguments);
        assert_eq!(output.status.code(), Some(2));
        assert!(output.stdout.is_empty());
        assert!(!output.stderr.is_empty());
    }
}
