//! Sessions whose adjacency table has faulty cells. The same ones every time.

use crate::cells::{self, Cell, SpoiledGraph};
use crate::faults::{Fault, FAULTS};
use crate::graphs::{self, Graph};
use crate::random::Random;
use crate::requests::{self, ENTRIES};
use crate::session::{Request, SessionCase, State};
use crate::states::{disjoint, seeded, sound_session};

/// A call on a session with a faulty cell.
pub struct CellCase {
    pub case: SessionCase,
    /// The first faulty cell.
    pub cell: Cell,
    /// The lowest cause: 3, or 1 or 2 if another fault comes before the cell.
    pub cause: u64,
}

/// Makes a call through every entry on each faulty table.
pub fn faulty_cells() -> impl Iterator<Item = CellCase> {
    cells::every_corner()
        .chain(cells::every_byte())
        .chain(cells::several_cells())
        .enumerate()
        .flat_map(|(seed, spoiled)| {
            let mut random = seeded(31, seed as u64);
            every_entry(&mut random, &spoiled)
        })
}

fn every_entry(random: &mut Random, spoiled: &SpoiledGraph) -> Vec<CellCase> {
    let whole = session_on(random, &spoiled.graph);
    let mut cases = Vec::new();
    for table in &spoiled.tables {
        for entry in 0..ENTRIES {
            let request = requests::of_entry(random, &whole, entry);
            let mut call = whole.with(request);
            call.state.adjacency[..table.adjacency.len()].copy_from_slice(&table.adjacency);
            cases.push(CellCase {
                case: SessionCase::new(table.name.clone(), call),
                cell: table.cell,
                cause: 3,
            });
        }
    }
    cases
}

/// Makes a session with some pairs. It need not be sound, and for odd sizes it is
/// not.
pub fn session_on(random: &mut Random, graph: &Graph) -> State {
    let most = random.between(0, graph.n / 2);
    let pairs = disjoint(random, graph, most);
    State::new(random, graph, &pairs, 5).0
}

/// Makes every table of up to three vertices whose bytes are 0, 1 and 2, with a call
/// through each entry in turn.
pub fn small_tables() -> impl Iterator<Item = SessionCase> {
    cells::small_tables()
        .enumerate()
        .map(|(number, (n, table))| {
            let mut random = seeded(32, number as u64);
            let (mut state, _) = State::new(&mut random, &Graph::empty(n), &[], 1);
            let request = requests::of_entry(&mut random, &state, number % ENTRIES);
            state.adjacency[..n * n].copy_from_slice(&table);
            SessionCase::new(format!("table {table:?}"), state.with(request))
        })
}

/// Makes tables as long as the largest, with one byte in all of the excess and a
/// fault in the last cell, with a call through every entry.
pub fn long_tables() -> impl Iterator<Item = CellCase> {
    [1, 2, 3, 8, 40, 95].into_iter().flat_map(|n| {
        let mut random = seeded(35, n as u64);
        let graph = graphs::matched(&mut random, n);
        let whole = session_on(&mut random, &graph);
        let mut cases = Vec::new();
        for byte in [0, 1, 2, 255] {
            for damage in &cells::ON_DIAGONAL {
                let mut state = whole.clone();
                state.adjacency.truncate(n * n);
                state.adjacency.resize(96 * 96, byte);
                let cell = damage.spoil(n, &mut state.adjacency, (n - 1, n - 1), 2);
                for entry in 0..ENTRIES {
                    let request = requests::of_entry(&mut random, &whole, entry);
                    let name = format!("{byte} in the excess, last cell");
                    cases.push(CellCase {
                        case: SessionCase::new(name, state.with(request)),
                        cell,
                        cause: 3,
                    });
                }
            }
        }
        cases
    })
}

/// Makes every fault of another cause together with a faulty cell, with a call
/// through every entry.
pub fn cells_and_other_faults() -> impl Iterator<Item = CellCase> {
    (0..30).flat_map(|seed| {
        let mut random = seeded(33, seed);
        let n = if seed == 0 { 96 } else { random.between(2, 12) };
        let sound = sound_session(&mut random, n);
        let mut cases = Vec::new();
        for fault in FAULTS.iter().filter(|fault| fault.cause != 3) {
            for entry in 0..ENTRIES {
                cases.push(cell_and_fault(&mut random, &sound, fault, entry));
            }
        }
        cases
    })
}

/// Makes a faulty cell and a fault of another cause. The cell comes last, since the
/// other fault may mend it, but before a fault of the size or of a length, after
/// which there is no place for it.
fn cell_and_fault(random: &mut Random, sound: &State, fault: &Fault, entry: usize) -> CellCase {
    let n = sound.n as usize;
    let request = requests::of_entry(random, sound, entry);
    let mut state = sound.clone();
    let comes_first = fault.cause == 1 || fault.cause == 2;
    if !comes_first {
        (fault.spoil)(random, &mut state);
    }
    let cell = cells::spoil_any(random, n, &mut state.adjacency);
    let applied = comes_first && (fault.spoil)(random, &mut state);
    let name = format!("cell and {}", fault.name);
    CellCase {
        case: SessionCase::new(name, state.with(request)),
        cell,
        cause: if applied { fault.cause } else { 3 },
    }
}

/// Makes requests with causes of their own on sessions with a faulty cell.
pub fn cells_and_faulty_requests() -> impl Iterator<Item = CellCase> {
    (0..200).flat_map(|seed| {
        let mut random = seeded(34, seed);
        let n = random.between(2, 10);
        let mut state = sound_session(&mut random, n);
        let requests = faulty_requests(&state);
        let n = state.n as usize;
        let cell = cells::spoil_any(&mut random, n, &mut state.adjacency);
        requests.map(|(request, cause)| CellCase {
            case: SessionCase::new(format!("seed {seed}, cell"), state.with(request)),
            cell,
            cause,
        })
    })
}

/// Lists requests, each with the lowest cause on a session with a faulty cell: too
/// short a row and too little room for answers come before the cell, vertices and
/// lists after it.
fn faulty_requests(state: &State) -> [(Request, u64); 12] {
    let n = state.n;
    let matched = state.pairs().first().map_or(0, |pair| pair.0 as u64);
    let row = |vertex, length: u64| Request::Row {
        vertex,
        row: vec![9; length as usize],
    };
    let replay = |calls: &[u64], room| Request::Replay {
        calls: calls.to_vec(),
        answers: vec![7; room],
    };
    [
        (Request::Pick(n, 0), 3),
        (Request::Pick(300, 300), 3),
        (Request::Pick(matched, u64::MAX), 3),
        (Request::Pick(matched, 1), 3),
        (row(n, n), 3),
        (row(matched, n), 3),
        (row(0, n - 1), 2),
        (row(n, 0), 2),
        (replay(&[9, 0, 0], 1), 3),
        (replay(&[2, 0, 0, 3, 0], 1), 3),
        (replay(&[], 0), 3),
        (replay(&[9, 0, 0, 2, 0, 0, 1], 1), 2),
    ]
}
