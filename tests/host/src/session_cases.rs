//! The families of session cases. Each yields the same cases every time. The
//! reference says what is expected.

use crate::cell_sessions::{self, CellCase};
use crate::faults::{Fault, FAULTS};
use crate::graphs::Graph;
use crate::lists::{faulty_lists, lists, logs, long_lists, several_causes};
use crate::random::Random;
use crate::requests::{self, ENTRIES};
use crate::runs::{
    deep_runs, every_size, large_runs, largest_runs, middle_runs, singular_graphs, small_runs,
};
use crate::session::{Request, SessionCase, State};
use crate::states::{random_state, seeded, sound_session};

/// Chains all families.
pub fn all() -> impl Iterator<Item = SessionCase> {
    small_runs()
        .chain(middle_runs())
        .chain(large_runs())
        .chain(largest_runs())
        .chain(deep_runs())
        .chain(every_size())
        .chain(sessions_of_four())
        .chain(spoiled_sessions().map(|(case, _)| case))
        .chain(spoiled_middle_sessions().map(|(case, _)| case))
        .chain(spoiled_large_sessions().map(|(case, _)| case))
        .chain(several_faults())
        .chain(every_high_bit())
        .chain(every_length())
        .chain(random_bytes())
        .chain(faulty_cells().map(|faulty| faulty.case))
        .chain(cell_sessions::small_tables())
        .chain(singular_graphs())
        .chain(logs())
        .chain(lists())
        .chain(faulty_lists())
        .chain(several_causes().map(|faulty| faulty.case))
        .chain(long_lists())
}

/// Makes faulty cells by themselves, and together with faults of other causes.
pub fn faulty_cells() -> impl Iterator<Item = CellCase> {
    cell_sessions::faulty_cells()
        .chain(cell_sessions::long_tables())
        .chain(cell_sessions::cells_and_other_faults())
        .chain(cell_sessions::cells_and_faulty_requests())
}

/// Makes every graph of four vertices, every list of its disjoint edges as a
/// session, and every call with numbers up to four. The weights are 1, except
/// for one in the second round.
pub fn sessions_of_four() -> impl Iterator<Item = SessionCase> {
    (0..128).flat_map(|number| {
        let graph = graph_of_four(number);
        let mut random = seeded(5, number as u64);
        let name = format!("graph of four {number}");
        disjoint_edges(&graph)
            .into_iter()
            .flat_map(move |pairs| {
                let (state, _) = State::new(&mut random, &graph, &pairs, 1);
                every_call_of_four(&name, &state)
            })
            .collect::<Vec<_>>()
    })
}

/// Makes a graph from six bits for the edges and one for the weight 65520 of 1, 2.
fn graph_of_four(number: usize) -> Graph {
    let mut graph = Graph::empty(4);
    let pairs = [(0, 1), (0, 2), (0, 3), (1, 2), (1, 3), (2, 3)];
    for (bit, (i, j)) in pairs.into_iter().enumerate() {
        if number >> bit & 1 == 1 {
            graph.add_edge(i, j);
        }
    }
    if number >= 64 {
        graph.set_weight(1, 2, 65520);
    }
    graph
}

/// Lists all lists of disjoint edges of a graph of four vertices, in any order.
fn disjoint_edges(graph: &Graph) -> Vec<Vec<(usize, usize)>> {
    let mut edges = Vec::new();
    for i in 0..4 {
        edges.extend((i + 1..4).filter(|&j| graph.adjacent(i, j)).map(|j| (i, j)));
    }
    let mut lists = vec![Vec::new()];
    for &first in &edges {
        lists.push(vec![first]);
        for &second in &edges {
            let (i, j) = second;
            if first.0 != i && first.0 != j && first.1 != i && first.1 != j {
                lists.push(vec![first, second]);
            }
        }
    }
    lists
}

fn every_call_of_four(name: &str, state: &State) -> Vec<SessionCase> {
    let mut requests = vec![Request::Automatic, Request::Undo];
    for a in 0..5 {
        let row = vec![9; 5];
        requests.push(Request::Row { vertex: a, row });
        requests.extend((0..5).map(|b| Request::Pick(a, b)));
    }
    let pairs = state.pairs();
    requests
        .into_iter()
        .map(|request| SessionCase::new(format!("{name}, pairs {pairs:?}"), state.with(request)))
        .collect()
}

/// A spoiled session with its one fault, or none if there was no place for it.
type Spoiled = (SessionCase, Option<&'static Fault>);

pub fn spoiled_sessions() -> impl Iterator<Item = Spoiled> {
    spoiled("spoiled sessions", 6, 1500, (0, 14))
}

pub fn spoiled_middle_sessions() -> impl Iterator<Item = Spoiled> {
    spoiled("spoiled middle sessions", 7, 30, (15, 40))
}

pub fn spoiled_large_sessions() -> impl Iterator<Item = Spoiled> {
    spoiled("spoiled large sessions", 8, 4, (95, 96))
}

/// Makes every fault on sound sessions, with a call through each entry in turn.
fn spoiled(
    family: &'static str,
    number: u64,
    seeds: u64,
    sizes: (usize, usize),
) -> impl Iterator<Item = Spoiled> {
    (0..seeds).flat_map(move |seed| {
        let mut random = seeded(number, seed);
        let n = random.between(sizes.0, sizes.1);
        let sound = sound_session(&mut random, n);
        FAULTS.iter().enumerate().map(move |(index, fault)| {
            let mut state = sound.clone();
            let entry = (seed as usize + index) % ENTRIES;
            let request = requests::of_entry(&mut random, &sound, entry);
            let applied = (fault.spoil)(&mut random, &mut state);
            let name = format!("{family}, seed {seed}, {}", fault.name);
            let case = SessionCase::new(name, state.with(request));
            (case, applied.then_some(fault))
        })
    })
}

/// Makes two to four faults at once.
pub fn several_faults() -> impl Iterator<Item = SessionCase> {
    (0..12000).map(|seed| {
        let mut random = seeded(9, seed);
        let n = random.between(0, 10);
        let mut state = sound_session(&mut random, n);
        let request = requests::any(&mut random, &state);
        spoil_often(&mut random, &mut state);
        SessionCase::new(format!("several faults, seed {seed}"), state.with(request))
    })
}

/// Makes faults of the inverse and changes that do no harm, and then any fault:
/// after some of those there is no place for others.
pub fn spoil_often(random: &mut Random, state: &mut State) {
    let first: Vec<&Fault> = FAULTS
        .iter()
        .filter(|fault| fault.cause == 6 || fault.cause == 0)
        .collect();
    for _ in 0..random.between(1, 3) {
        (random.choose(&first).spoil)(random, state);
    }
    let last = random.below(FAULTS.len());
    (FAULTS[last].spoil)(random, state);
}

/// Changes one number of sound sessions in each of its bits from 7 on: the size,
/// the pairs made, or a vertex.
pub fn every_high_bit() -> impl Iterator<Item = SessionCase> {
    (0..120).flat_map(|seed| {
        let mut random = seeded(10, seed);
        let n = random.between(0, 8);
        let sound = sound_session(&mut random, n);
        let entry = seed as usize % ENTRIES;
        let request = requests::of_entry(&mut random, &sound, entry);
        (7..64).flat_map(move |bit| {
            let mut size = sound.with(request.clone());
            size.state.n ^= 1 << bit;
            let mut made = sound.with(request.clone());
            made.state.made ^= 1 << bit;
            let mut vertex = sound.with(request.clone());
            flip_vertex(&mut vertex.request, bit);
            [size, made, vertex]
                .map(|call| SessionCase::new(format!("high bits, seed {seed}, bit {bit}"), call))
        })
    })
}

fn flip_vertex(request: &mut Request, bit: usize) {
    match request {
        Request::Pick(a, b) => {
            let vertex = if bit & 1 == 0 { a } else { b };
            *vertex ^= 1 << bit;
        }
        Request::Row { vertex, .. } => *vertex ^= 1 << bit,
        Request::Replay { calls, .. } => {
            if let Some(vertex) = calls.get_mut(1) {
                *vertex ^= 1 << bit;
            }
        }
        _ => {}
    }
}

/// Makes every length of every buffer, from 0 to a few bytes or numbers more than
/// needed, for each entry.
pub fn every_length() -> impl Iterator<Item = SessionCase> {
    (0..8 * ENTRIES).flat_map(|round| {
        let mut random = seeded(11, round as u64);
        let mut state = sound_session(&mut random, round / ENTRIES);
        let request = requests::of_entry(&mut random, &state, round % ENTRIES);
        for buffer in state.buffers_mut() {
            buffer.extend(random.bytes(3));
        }
        let shorter = (0..4).flat_map(|buffer| every_length_in(&state, buffer, &request));
        let other = every_length_of(&request)
            .into_iter()
            .map(|request| SessionCase::new("other lengths".to_string(), state.with(request)));
        shorter.chain(other).collect::<Vec<_>>()
    })
}

/// Makes every length of one buffer of the session.
fn every_length_in(state: &State, buffer: usize, request: &Request) -> Vec<SessionCase> {
    let whole = state.clone().buffers_mut()[buffer].len();
    let cut = |length| {
        let mut call = state.with(request.clone());
        call.state.buffers_mut()[buffer].truncate(length);
        let name = format!("buffer {} of {length} bytes", buffer + 1);
        SessionCase::new(name, call)
    };
    (0..=whole).map(cut).collect()
}

/// Makes every length of the row, of a list and of the room for its answers.
fn every_length_of(request: &Request) -> Vec<Request> {
    match request {
        Request::Row { vertex, row } => (0..=row.len())
            .map(|length| Request::Row {
                vertex: *vertex,
                row: row[..length].to_vec(),
            })
            .collect(),
        Request::Replay { calls, answers } => {
            let shorter = (0..=calls.len()).map(|length| (length, answers.len()));
            let less_room = (0..=answers.len()).map(|room| (calls.len(), room));
            shorter
                .chain(less_room)
                .map(|(length, room)| Request::Replay {
                    calls: calls[..length].to_vec(),
                    answers: answers[..room].to_vec(),
                })
                .collect()
        }
        _ => Vec::new(),
    }
}

/// Makes whole sessions of random bytes: any bytes, or few values so that more is
/// in order, with buffers of any lengths, or of those needed.
pub fn random_bytes() -> impl Iterator<Item = SessionCase> {
    (0..40000).map(|seed| {
        let mut random = seeded(12, seed);
        let state = random_state(&mut random);
        let request = requests::any(&mut random, &state);
        SessionCase::new(format!("random bytes, seed {seed}"), state.with(request))
    })
}
