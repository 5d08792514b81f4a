//! Prints a well-known graph in the DIMACS edge format, to standard output:
//! `graph queen ROWS COLUMNS` or `graph mycielski K`. The DIMACS benchmarks for
//! colouring have these graphs under the names queenROWS_COLUMNS and mycielK.

use std::env;
use std::io::{self, Write};
use std::process::ExitCode;

const USAGE: &str = "usage: graph queen ROWS COLUMNS, each from 1 to 99, \
                     or graph mycielski K, from 1 to 9";

/// A graph, and lines that say what it is. The vertices count from 1, and an edge
/// may be listed in both orders.
struct Text {
    comment: String,
    n: usize,
    edges: Vec<(usize, usize)>,
}

fn main() -> ExitCode {
    let arguments: Vec<String> = env::args().skip(1).collect();
    let words: Vec<&str> = arguments.iter().map(String::as_str).collect();
    let Some(text) = chosen(&words) else {
        eprintln!("{USAGE}");
        return ExitCode::from(2);
    };
    match io::stdout().lock().write_all(text.lines().as_bytes()) {
        Ok(()) => ExitCode::SUCCESS,
        Err(error) => {
            eprintln!("graph: {error}");
            ExitCode::from(1)
        }
    }
}

/// Makes the graph that the arguments name, if they name one.
fn chosen(arguments: &[&str]) -> Option<Text> {
    let number = |digits: &str, least, most| {
        let number: usize = digits.parse().ok()?;
        (least..=most).contains(&number).then_some(number)
    };
    match arguments {
        ["queen", rows, columns] => Some(queen(number(rows, 1, 99)?, number(columns, 1, 99)?)),
        ["mycielski", k] => Some(mycielski(number(k, 1, 9)?)),
        _ => None,
    }
}

impl Text {
    /// Returns the text: comments, the line of the problem, the lines of edges.
    fn lines(&self) -> String {
        let comments = self.comment.lines().map(|line| format!("c {line}\n"));
        let problem = format!("p edge {} {}\n", self.n, self.edges.len());
        let edges = self.edges.iter().map(|(u, v)| format!("e {u} {v}\n"));
        comments.chain([problem]).chain(edges).collect()
    }
}

/// Makes the queen graph of a board. Lists every edge in both orders, as the
/// benchmarks do.
fn queen(rows: usize, columns: usize) -> Text {
    let squares: Vec<(usize, usize)> = (0..rows)
        .flat_map(|row| (0..columns).map(move |column| (row, column)))
        .collect();
    let mut edges = Vec::new();
    for (u, &from) in squares.iter().enumerate() {
        for (v, &to) in squares.iter().enumerate() {
            if queen_goes(from, to) {
                edges.push((u + 1, v + 1));
            }
        }
    }
    Text {
        comment: format!(
            "queen{rows}_{columns}: the squares of a board of {rows} rows and {columns} columns.\n\
             Two are adjacent if a queen can go from one to the other.\n\
             The squares count row by row. Each edge is listed in both orders."
        ),
        n: squares.len(),
        edges,
    }
}

/// Tells whether a queen can go from one square to another: along a row, a column
/// or a diagonal.
fn queen_goes(from: (usize, usize), to: (usize, usize)) -> bool {
    let (down, across) = (from.0.abs_diff(to.0), from.1.abs_diff(to.1));
    from != to && (down == 0 || across == 0 || down == across)
}

/// Makes mycielK: one edge, and K - 1 steps. Lists every edge once, the smaller
/// vertex first, ascending.
fn mycielski(k: usize) -> Text {
    let (mut n, mut edges) = (2, vec![(1, 2)]);
    for _ in 1..k {
        (n, edges) = mycielski_step(n, &edges);
    }
    edges.sort_unstable();
    Text {
        comment: format!(
            "myciel{k}: made from one edge by {} steps of Mycielski.\n\
             A step adds a copy of each vertex, with edges to that vertex's neighbours,\n\
             and one vertex with edges to all copies.",
            k - 1
        ),
        n,
        edges,
    }
}

/// Adds vertex n + v as a copy of v, adjacent to the neighbours of v, for every v,
/// and vertex 2n + 1, adjacent to all copies.
fn mycielski_step(n: usize, edges: &[(usize, usize)]) -> (usize, Vec<(usize, usize)>) {
    let copies = edges
        .iter()
        .flat_map(|&(u, v)| [(u, v), (u, n + v), (v, n + u)]);
    let last = (1..=n).map(|v| (n + v, 2 * n + 1));
    (2 * n + 1, copies.chain(last).collect())
}
