//! Runs of session calls, each on the session that the reference leaves after the
//! one before it. The same ones every time.

use crate::graphs::{self, Graph};
use crate::matrices;
use crate::random::Random;
use crate::requests::{self, ENTRIES};
use crate::session::{Request, SessionCase, State};
use crate::states::{disjoint, graph_to_open, seeded, sound_session};

/// Makes runs of calls on graphs of sizes from the first to the last.
fn runs(
    family: &'static str,
    number: u64,
    seeds: u64,
    sizes: (usize, usize),
    calls: usize,
) -> impl Iterator<Item = SessionCase> {
    (0..seeds).flat_map(move |seed| {
        let mut random = seeded(number, seed);
        let n = random.between(sizes.0, sizes.1);
        let name = format!("{family}, seed {seed}");
        run(&mut random, &name, n, calls)
    })
}

pub fn small_runs() -> impl Iterator<Item = SessionCase> {
    runs("small runs", 1, 8000, (0, 16), 24)
}

pub fn middle_runs() -> impl Iterator<Item = SessionCase> {
    runs("middle runs", 2, 200, (17, 32), 40)
}

pub fn large_runs() -> impl Iterator<Item = SessionCase> {
    runs("large runs", 3, 30, (33, 94), 30)
}

pub fn largest_runs() -> impl Iterator<Item = SessionCase> {
    runs("largest runs", 4, 24, (95, 96), 30)
}

/// Makes a short run on graphs of every size.
pub fn every_size() -> impl Iterator<Item = SessionCase> {
    (0..=96).flat_map(|n| {
        let mut random = seeded(18, n as u64);
        let graphs = [
            graphs::with_density(&mut random, n, 100),
            graphs::matched(&mut random, n.max(1)),
        ];
        let mut run = |graph: &Graph| {
            let (state, _) = State::new(&mut random, graph, &[], 1);
            run_from(state, "every size", ENTRIES, |call, state| {
                requests::of_entry(&mut random, state, (call + 3) % ENTRIES)
            })
        };
        graphs.iter().flat_map(&mut run).collect::<Vec<_>>()
    })
}

/// Makes runs on large sessions with pairs already made, through each entry in
/// turn.
pub fn deep_runs() -> impl Iterator<Item = SessionCase> {
    (0..40).flat_map(|seed| {
        let mut random = seeded(20, seed);
        let n = random.between(48, 96) & !1;
        let state = sound_session(&mut random, n);
        let name = format!("deep runs, seed {seed}");
        run_from(state, &name, 2 * ENTRIES, |call, state| {
            requests::of_entry(&mut random, state, (call + 3) % ENTRIES)
        })
    })
}

/// Makes a run from opening, on a graph that mostly opens. If it is singular the
/// session is not sound, and the run is short.
pub fn run(random: &mut Random, name: &str, n: usize, calls: usize) -> Vec<SessionCase> {
    let graph = graph_to_open(random, n);
    let most_excess = random.choose(&[0, 1, 2, 9]);
    let (state, sound) = State::new(random, &graph, &[], most_excess);
    let calls = if sound { calls } else { 3 };
    let next = any_habit(random);
    run_from(state, name, calls, |_, state| next(random, state))
}

/// Makes a run from a session. Each request is chosen by its index and the
/// session.
fn run_from(
    mut state: State,
    name: &str,
    calls: usize,
    mut next: impl FnMut(usize, &State) -> Request,
) -> Vec<SessionCase> {
    let mut cases = Vec::new();
    for call in 0..calls {
        let request = next(call, &state);
        let case = SessionCase::new(format!("{name}, call {call}"), state.with(request));
        state = case.after.state.clone();
        cases.push(case);
    }
    cases
}

type Habit = fn(&mut Random, &State) -> Request;

/// Chooses any request; or an automatic pick or undo; or a pick, with few undos.
fn any_habit(random: &mut Random) -> Habit {
    random.choose(&[
        requests::any as Habit,
        requests::any,
        |random, state| {
            let entry = random.choose(&[1, 1, 1, 2]);
            requests::of_entry(random, state, entry)
        },
        |random, state| {
            let entry = random.choose(&[0, 0, 0, 0, 0, 0, 1, 2]);
            requests::of_entry(random, state, entry)
        },
    ])
}

/// Makes sessions by hand on singular graphs: an undo of their first pair is
/// refused with 10.
pub fn singular_graphs() -> impl Iterator<Item = SessionCase> {
    (0..1500).flat_map(|seed| {
        let mut random = seeded(13, seed);
        let n = 2 * random.between(1, 6);
        let name = format!("singular graphs, seed {seed}");
        singular_run(&mut random, &name, n)
    })
}

/// Makes a few calls, half of them undos.
pub fn singular_run(random: &mut Random, name: &str, n: usize) -> Vec<SessionCase> {
    let graph = matrices::cancelling(random, n);
    let most = random.between(1, n / 2);
    let pairs = disjoint(random, &graph, most);
    let (state, _) = State::new(random, &graph, &pairs, 1);
    run_from(state, name, 8, |_, state| {
        if random.percent(50) {
            Request::Undo
        } else {
            requests::any(random, state)
        }
    })
}
