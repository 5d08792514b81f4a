//! The families of openings. Each yields the same cases every time.

use crate::call::{needed, Call, Outcome};
use crate::cells::{self, SpoiledGraph};
use crate::damage::{any_large_size, damage, KINDS};
use crate::graphs::{self, Graph, SHAPES};
use crate::matrices;
use crate::random::Random;

/// A call with its name.
pub struct Case {
    pub name: String,
    pub call: Call,
    /// The outcome, if the family settles it.
    pub known: Option<Outcome>,
}

impl Case {
    fn new(name: String, call: Call) -> Case {
        Case {
            name,
            call,
            known: None,
        }
    }

    fn with_known(self, outcome: Outcome) -> Case {
        Case {
            known: Some(outcome),
            ..self
        }
    }
}

/// Chains all families.
pub fn all() -> impl Iterator<Item = Case> {
    small_graphs()
        .chain(middle_graphs())
        .chain(large_graphs())
        .chain(largest_graphs())
        .chain(every_size())
        .chain(few_weights())
        .chain(low_ranks())
        .chain(made_by_pairs())
        .chain(all_graphs_of_four())
        .chain(every_first_dependent_column())
        .chain(damaged_calls())
        .chain(every_single_fault())
        .chain(faulty_cells())
        .chain(small_tables())
        .chain(cells_and_other_causes())
        .chain(long_tables())
        .chain(every_length())
        .chain(sizes_above_96())
        .chain(repeated_calls())
}

pub fn small_graphs() -> impl Iterator<Item = Case> {
    any_graphs("small graphs", 1, 6000, 0, 12)
}

pub fn middle_graphs() -> impl Iterator<Item = Case> {
    any_graphs("middle graphs", 2, 3000, 13, 40)
}

pub fn large_graphs() -> impl Iterator<Item = Case> {
    any_graphs("large graphs", 3, 1000, 41, 96)
}

/// Makes count graphs of random shapes, with first to last vertices.
fn any_graphs(
    family: &'static str,
    seed: u64,
    count: usize,
    first: usize,
    last: usize,
) -> impl Iterator<Item = Case> {
    let mut random = Random::new(seed);
    (0..count).map(move |round| {
        let n = random.between(first, last);
        let graph = graphs::any(&mut random, n);
        let most_excess = random.choose(&[0, 1, 2, 40]);
        let call = Call::new(&mut random, &graph, most_excess);
        Case::new(format!("{family}, round {round}, n = {n}"), call)
    })
}

pub fn largest_graphs() -> impl Iterator<Item = Case> {
    let mut random = Random::new(4);
    with_each(0..24, [95, 96]).map(move |(round, n)| {
        let graph = match round % 4 {
            0 => graphs::with_density(&mut random, n, 100),
            1 => graphs::matched(&mut random, n),
            2 => matrices::cancelling(&mut random, n),
            _ => matrices::low_rank(&mut random, n),
        };
        let call = Call::new(&mut random, &graph, 3);
        Case::new(format!("largest graphs, round {round}, n = {n}"), call)
    })
}

/// Makes a graph of every size, with all edges and with none.
pub fn every_size() -> impl Iterator<Item = Case> {
    let mut random = Random::new(5);
    with_each(0..=96, [0, 100]).map(move |(n, percent)| {
        let graph = graphs::with_density(&mut random, n, percent);
        let call = Call::new(&mut random, &graph, 1);
        Case::new(format!("every size, n = {n}, {percent} %"), call)
    })
}

/// Makes graphs of every shape with few weights: all 1, all 65520, and small ones
/// of one sign or of both.
pub fn few_weights() -> impl Iterator<Item = Case> {
    let choices: [&[u16]; 5] = [
        &[1],
        &[65520],
        &[1, 65520],
        &[1, 2, 3],
        &[1, 2, 65519, 65520],
    ];
    let mut random = Random::new(13);
    with_each(0..20 * SHAPES.len(), choices).map(move |(round, weights)| {
        let n = any_size(&mut random);
        let mut graph = SHAPES[round % SHAPES.len()](&mut random, n);
        graph.choose_weights(&mut random, weights);
        let call = Call::new(&mut random, &graph, 3);
        let name = format!("few weights, round {round}, n = {n}, {weights:?}");
        Case::new(name, call)
    })
}

/// Makes matrices of low rank: all columns after the first few are dependent, or
/// some columns here and there.
pub fn low_ranks() -> impl Iterator<Item = Case> {
    let mut random = Random::new(14);
    with_each(0..400, [matrices::low_rank, matrices::repeating]).map(move |(round, matrix)| {
        let n = any_size(&mut random);
        let graph = matrix(&mut random, n);
        let call = Call::new(&mut random, &graph, 3);
        Case::new(format!("low ranks, round {round}, n = {n}"), call)
    })
}

/// Makes matrices from chosen steps of elimination by pairs.
pub fn made_by_pairs() -> impl Iterator<Item = Case> {
    let mut random = Random::new(15);
    with_each(0..200, matrices::ROWS).map(move |(round, rows)| {
        let n = any_size(&mut random);
        let (graph, column) = matrices::made_by_pairs(&mut random, n, rows);
        let call = Call::new(&mut random, &graph, 3);
        let known = match column {
            Some(column) => Outcome::Singular(column as u64),
            None => Outcome::Opened,
        };
        Case::new(format!("made by pairs, round {round}, n = {n}"), call).with_known(known)
    })
}

/// Chooses mostly a small size, often a middle one, rarely one of the largest.
fn any_size(random: &mut Random) -> usize {
    match random.below(40) {
        0 => random.between(94, 96),
        1..=12 => random.between(13, 32),
        _ => random.between(1, 12),
    }
}

/// Makes all graphs of four vertices with all weights of 1 and 65520.
pub fn all_graphs_of_four() -> impl Iterator<Item = Case> {
    let mut random = Random::new(6);
    (0..64 * 64).map(move |number| {
        let (edges, signs) = (number / 64, number % 64);
        let call = Call::new(&mut random, &graph_of_four(edges, signs), 2);
        Case::new(
            format!("four vertices, edges {edges:#x}, signs {signs:#x}"),
            call,
        )
    })
}

/// Makes a graph of four vertices from two bits for every two vertices: whether
/// they are adjacent, and whether the weight is 65520.
fn graph_of_four(edges: usize, signs: usize) -> Graph {
    let pairs = [(0, 1), (0, 2), (0, 3), (1, 2), (1, 3), (2, 3)];
    let mut graph = Graph::empty(4);
    for (bit, &(i, j)) in pairs.iter().enumerate() {
        if edges >> bit & 1 == 1 {
            graph.add_edge(i, j);
        }
        graph.weights[bit] = if signs >> bit & 1 == 1 { 65520 } else { 1 };
    }
    graph
}

/// Makes graphs of every first dependent column: all below n but n - 1 for even n,
/// since the columns before that cannot be independent.
pub fn every_first_dependent_column() -> impl Iterator<Item = Case> {
    let mut random = Random::new(7);
    let columns = |n| (0..n).filter(move |f| f % 2 == 0 || f + 1 < n);
    [1, 2, 5, 8, 33, 96]
        .into_iter()
        .flat_map(move |n| columns(n).map(move |f| (n, f)))
        .map(move |(n, f)| {
            let graph = with_first_isolated(&mut random, n, f);
            let call = Call::new(&mut random, &graph, 2);
            let name = format!("first dependent column {f}, n = {n}");
            Case::new(name, call).with_known(Outcome::Singular(f as u64))
        })
}

/// Makes a graph in which vertex f has no edge. Those before it are matched among
/// themselves; for odd f the last of them is adjacent to the vertex after f.
fn with_first_isolated(random: &mut Random, n: usize, f: usize) -> Graph {
    let mut graph = Graph::empty(n);
    for i in 0..f {
        for j in i + 1..f {
            if i % 2 == 0 && j == i + 1 || random.percent(30) {
                graph.add_edge(i, j);
            }
        }
    }
    if f % 2 == 1 {
        graph.add_edge(f - 1, f + 1);
    }
    for weight in &mut graph.weights {
        *weight = random.between(1, 65520) as u16;
    }
    graph
}

pub fn damaged_calls() -> impl Iterator<Item = Case> {
    let mut random = Random::new(8);
    (0..6000).map(move |round| {
        let kind = round % KINDS;
        let n = if round % 50 < 10 {
            random.between(13, 96)
        } else {
            random.between(0, 12)
        };
        let graph = graphs::any(&mut random, n);
        let most_excess = random.choose(&[0, 1, 40]);
        let mut call = Call::new(&mut random, &graph, most_excess);
        damage(&mut random, &mut call, kind);
        Case::new(
            format!("damaged calls, round {round}, n = {n}, kind {kind}"),
            call,
        )
    })
}

/// Makes every single fault of a small graph, at every place.
pub fn every_single_fault() -> impl Iterator<Item = Case> {
    let mut random = Random::new(9);
    (1..=6).flat_map(move |n| {
        let graph = graphs::matched(&mut random, n);
        let call = Call::new(&mut random, &graph, 1);
        every_cell(call.clone(), n).chain(every_weight(call, n))
    })
}

fn every_cell(call: Call, n: usize) -> impl Iterator<Item = Case> {
    with_each(0..n * n, [0, 1, 2, 128, 255]).map(move |(cell, value)| {
        let mut call = call.clone();
        call.adjacency[cell] = value;
        Case::new(format!("n = {n}, cell {cell} is {value}"), call)
    })
}

fn every_weight(call: Call, n: usize) -> impl Iterator<Item = Case> {
    let weights = [0, 1, 255, 256, 65280, 65519, 65520, 65521, 65522, 65535];
    with_each(0..n * (n - 1) / 2, weights).map(move |(index, weight)| {
        let mut call = call.clone();
        call.set_weight(index, weight);
        Case::new(format!("n = {n}, weight {index} is {weight}"), call)
    })
}

/// Makes tables with faulty cells, of which the first is known.
pub fn faulty_cells() -> impl Iterator<Item = Case> {
    let mut random = Random::new(16);
    cells::every_corner()
        .chain(cells::every_byte())
        .chain(cells::several_cells())
        .flat_map(move |SpoiledGraph { graph, tables }| {
            let whole = Call::new(&mut random, &graph, 40);
            tables.into_iter().map(move |table| {
                let mut call = whole.clone();
                call.adjacency[..table.adjacency.len()].copy_from_slice(&table.adjacency);
                Case::new(format!("n = {}, {}", call.n, table.name), call)
                    .with_known(Outcome::Refused(3, table.cell.place()))
            })
        })
}

/// Makes every table of up to three vertices whose bytes are 0, 1 and 2.
pub fn small_tables() -> impl Iterator<Item = Case> {
    let mut random = Random::new(17);
    cells::small_tables().map(move |(n, table)| {
        let mut call = Call::new(&mut random, &Graph::empty(n), 1);
        call.adjacency[..n * n].copy_from_slice(&table);
        Case::new(format!("table {table:?}"), call)
    })
}

/// Makes a faulty cell together with a size above 96 or a short buffer, which come
/// before it, and with weights out of range, which come after it.
pub fn cells_and_other_causes() -> impl Iterator<Item = Case> {
    let mut random = Random::new(18);
    with_each(0..12, [1, 2, 3, 6, 95, 96]).flat_map(move |(round, n)| {
        let graph = graphs::any(&mut random, n);
        let mut call = Call::new(&mut random, &graph, 3);
        let cell = cells::spoil_any(&mut random, n, &mut call.adjacency);
        let case = |what: &str, call: Call, cause: u8, place: u64| {
            Case::new(format!("cell and {what}, round {round}, n = {n}"), call)
                .with_known(Outcome::Refused(cause, place))
        };
        let mut cases = Vec::new();
        for (number, needed) in (1..).zip(needed(n)) {
            if needed > 0 {
                let mut short = call.clone();
                short.buffers_mut()[number - 1].truncate(needed - 1);
                cases.push(case("short buffer", short, 2, number as u64));
            }
        }
        let mut large = call.clone();
        large.n = any_large_size(&mut random);
        cases.push(case("size", large, 1, 0));
        for weight in [0, 65521, 65535] {
            let mut weights = call.clone();
            for index in 0..n * (n - 1) / 2 {
                weights.set_weight(index, weight);
            }
            cases.push(case("weights", weights, 3, cell.place()));
        }
        cases
    })
}

/// Makes tables as long as the largest, with one byte in all of the excess: a table
/// that is in order, and one with a fault in its last cell.
pub fn long_tables() -> impl Iterator<Item = Case> {
    let mut random = Random::new(19);
    with_each([0, 1, 2, 3, 8, 40, 95].into_iter(), [0, 1, 2, 255]).flat_map(move |(n, byte)| {
        let graph = graphs::any(&mut random, n);
        let mut call = Call::new(&mut random, &graph, 0);
        call.adjacency.resize(96 * 96, byte);
        let name = format!("n = {n}, {byte} in the excess");
        let mut cases = vec![Case::new(name.clone(), call.clone())];
        if let Some(last) = n.checked_sub(1) {
            for damage in &cells::ON_DIAGONAL {
                let mut call = call.clone();
                let cell = damage.spoil(n, &mut call.adjacency, (last, last), 2);
                let known = Outcome::Refused(3, cell.place());
                cases.push(Case::new(format!("{name}, last cell"), call).with_known(known));
            }
        }
        cases
    })
}

/// Makes every length of every buffer, from 0 to a few bytes more than needed. A
/// short one is known to be refused.
pub fn every_length() -> impl Iterator<Item = Case> {
    let mut random = Random::new(10);
    (0..=5).flat_map(move |n| {
        let graph = graphs::matched(&mut random, n);
        let whole = Call::new(&mut random, &graph, 0);
        let excess = random.bytes(5);
        (0..6).flat_map(move |buffer| lengths_of(&whole, buffer, &excess))
    })
}

/// Makes all lengths of one buffer.
fn lengths_of(whole: &Call, buffer: usize, excess: &[u8]) -> Vec<Case> {
    let needed = whole.buffers()[buffer].len();
    let bytes = [whole.buffers()[buffer], excess].concat();
    let with_length = |length: usize| {
        let mut call = whole.clone();
        *call.buffers_mut()[buffer] = bytes[..length].to_vec();
        let number = buffer as u64 + 1;
        let name = format!("n = {}, buffer {number} of {length} bytes", whole.n);
        let case = Case::new(name, call);
        if length < needed {
            case.with_known(Outcome::Refused(2, number))
        } else {
            case
        }
    };
    (0..=bytes.len()).map(with_length).collect()
}

/// Makes sizes above 96 over buffers that are long enough for a small graph.
pub fn sizes_above_96() -> impl Iterator<Item = Case> {
    let mut random = Random::new(11);
    let fixed = [
        97,
        98,
        127,
        128,
        192,
        200,
        255,
        256,
        65536,
        1 << 32,
        1 << 63,
        u64::MAX,
    ];
    (0..400).map(move |round| {
        let n = random.between(0, 6);
        let graph = graphs::any(&mut random, n);
        let mut call = Call::new(&mut random, &graph, 5);
        call.n = match fixed.get(round) {
            Some(&size) => size,
            None => any_large_size(&mut random),
        };
        let name = format!("size {}, round {round}", call.n);
        Case::new(name, call).with_known(Outcome::Refused(1, 0))
    })
}

/// Repeats some calls, in random order.
pub fn repeated_calls() -> impl Iterator<Item = Case> {
    let mut random = Random::new(12);
    let mut any_call = || {
        let n = random.between(0, 20);
        let graph = graphs::any(&mut random, n);
        Call::new(&mut random, &graph, 3)
    };
    let calls: Vec<Call> = (0..200).map(|_| any_call()).collect();
    (0..600).map(move |round| {
        let number = random.below(calls.len());
        let name = format!("repeated calls, round {round}, call {number}");
        Case::new(name, calls[number].clone())
    })
}

/// Combines each of the first with each of the second.
fn with_each<A: Copy, B: Copy, const N: usize>(
    first: impl Iterator<Item = A>,
    second: [B; N],
) -> impl Iterator<Item = (A, B)> {
    first.flat_map(move |a| second.map(|b| (a, b)))
}
