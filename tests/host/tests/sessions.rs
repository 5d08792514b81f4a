//! The session cases, which tests/c/replay.c runs through the C entries, judged
//! by themselves: faulty cells by their definition, and whether each outcome occurs
//! often enough. And calls through the C entries that no stream of cases has: lists
//! beside the plain model and beside single calls, lists too long for a stream, and
//! every faulty cell of the largest tables.

use host_tests::cell_sessions::{self, session_on, CellCase};
use host_tests::cells::{self, above_one, damages, every_cell};
use host_tests::lists::{self, FaultyList};
use host_tests::random::Random;
use host_tests::requests::{self, ENTRIES};
use host_tests::session::{Request, SessionCase, State};
use host_tests::tally::SessionTally;
use host_tests::{graphs, runs, session_cases as cases};
use reference::graph::Graph;
use reference::model::Model;
use reference::numbers::pair_number;
use reference::session::Outcome;
use reference::words::words_from_bytes;

const PICK: usize = 1;
const AUTOMATIC: usize = 2;
const UNDO: usize = 3;
const ROW: usize = 4;
const REPLAY: usize = 5;

fn check(name: &str, family: impl Iterator<Item = SessionCase>) -> SessionTally {
    let mut tally = SessionTally::default();
    for case in family {
        if case.cause() == 3 {
            let state = &case.call.state;
            cells::certify(case.number, state.n as usize, &state.adjacency, &case.name);
            assert_eq!(case.call, case.after, "{}", case.name);
        }
        tally.count(&case);
    }
    tally.print(name);
    tally
}

#[test]
fn small_runs() {
    let tally = check("small runs", runs::small_runs());
    assert!(tally.total() > 60_000);
    for entry in [PICK, AUTOMATIC, UNDO, ROW, REPLAY] {
        assert!(tally.of(entry, 0) > 1000, "{entry}");
    }
    for cause in [7, 8, 9, 10] {
        assert!(tally.of(PICK, cause) > 300, "{cause}");
    }
    assert!(tally.of(AUTOMATIC, 11) > 1000 && tally.of(UNDO, 11) > 1000);
    assert!(tally.of(ROW, 7) > 100 && tally.of(ROW, 8) > 300);
}

#[test]
fn middle_runs() {
    let tally = check("middle runs", runs::middle_runs());
    assert!(tally.of_cause(0) > 800);
}

#[test]
fn large_runs() {
    let tally = check("large runs", runs::large_runs());
    assert!(tally.of_cause(0) > 50);
}

#[test]
fn largest_runs() {
    let tally = check("largest runs", runs::largest_runs());
    assert!(tally.of_cause(0) > 30);
}

#[test]
fn deep_runs() {
    let tally = check("deep runs", runs::deep_runs());
    assert_eq!(tally.total(), 400);
    for entry in [PICK, AUTOMATIC, UNDO, ROW, REPLAY] {
        assert!(tally.of(entry, 0) > 20, "{entry}");
    }
}

#[test]
fn every_size() {
    let tally = check("every size", runs::every_size());
    assert_eq!(tally.total(), 97 * 10);
    assert!(tally.of_cause(0) > 300);
}

#[test]
fn sessions_of_four() {
    let tally = check("sessions of four", cases::sessions_of_four());
    for cause in [0, 6, 7, 8, 9, 10, 11] {
        assert!(tally.of_cause(cause) > 30, "{cause}");
    }
}

/// Checks that a case is refused with the cause of its fault, and that the session
/// is sound if the fault has none.
fn check_fault(case: &SessionCase, cause: u64) {
    let found = case.cause();
    let list = matches!(case.call.request, Request::Replay { .. });
    if cause == 0 {
        assert!(found == 0 || found > 6 && !list, "{}", case.name);
    } else {
        assert_eq!(found, cause, "{}", case.name);
    }
}

#[test]
fn spoiled_sessions() {
    let mut applied = 0;
    let families = cases::spoiled_sessions()
        .chain(cases::spoiled_middle_sessions())
        .chain(cases::spoiled_large_sessions());
    let checked = families.map(|(case, fault)| {
        if let Some(fault) = fault {
            check_fault(&case, fault.cause);
            applied += 1;
        }
        case
    });
    let tally = check("spoiled sessions", checked);
    assert!(applied > 40_000, "{applied}");
    for cause in 1..=6 {
        assert!(tally.of_cause(cause) > 1000, "{cause}");
    }
    assert!(tally.short[1..=4].iter().all(|&count| count > 100));
    assert!(tally.cells[1..].iter().all(|&count| count > 1000));
}

/// Checks that the cell is returned, or the cause that comes before it, and that
/// nothing is written.
fn check_cell(faulty: &CellCase) {
    let CellCase { case, cell, cause } = faulty;
    assert_eq!(case.cause(), *cause, "{}", case.name);
    if *cause == 3 {
        assert_eq!(case.number, cell.number(), "{}", case.name);
    }
    assert_eq!(case.call, case.after, "{}", case.name);
}

#[test]
fn faulty_cells() {
    let checked = cases::faulty_cells().map(|faulty| {
        check_cell(&faulty);
        faulty.case
    });
    let tally = check("faulty cells", checked);
    for entry in [PICK, AUTOMATIC, UNDO, ROW, REPLAY] {
        for cause in 1..=3 {
            assert!(tally.of(entry, cause) >= 30, "{entry}: {cause}");
        }
    }
    assert!(tally.short[7] == 400 && tally.short[10] == 200);
    assert!(tally.cells[1..].iter().all(|&count| count > 1000));
}

/// Small tables: as many have which fault as for opening.
#[test]
fn small_tables() {
    let tally = check("small tables", cell_sessions::small_tables());
    assert_eq!(tally.cells, [0, 9425, 6707, 3624]);
    assert_eq!(tally.total() - tally.of_cause(3), 1 + 2 + 8);
}

/// Every cell of the largest tables, spoiled in every way, through every entry.
#[test]
fn every_cell_of_the_largest_tables() {
    let mut random = Random::new(2001);
    for n in [95, 96] {
        let graph = graphs::with_density(&mut random, n, 50);
        let state = session_on(&mut random, &graph);
        for entry in 0..ENTRIES {
            let request = requests::of_entry(&mut random, &state, entry);
            let mut call = state.with(request);
            let before = call.clone();
            for (i, j) in every_cell(n) {
                for damage in damages((i, j)) {
                    let above = above_one(&mut random);
                    let cell = damage.spoil(n, &mut call.state.adjacency, (i, j), above);
                    assert_eq!(call.run(), cell.number(), "{cell:?}");
                    call.state.adjacency.copy_from_slice(&state.adjacency);
                }
                assert_eq!(call, before, "({i}, {j}) of {n} is refused and writes");
            }
        }
    }
}

#[test]
fn several_faults() {
    let tally = check("several faults", cases::several_faults());
    for cause in 1..=6 {
        assert!(tally.of_cause(cause) > 150, "{cause}");
    }
}

#[test]
fn every_high_bit() {
    let tally = check("high bits", cases::every_high_bit());
    assert!(tally.of_cause(1) > 6000 && tally.of_cause(5) > 6000);
    assert!(tally.of(PICK, 7) > 500 && tally.of(ROW, 7) > 500);
}

#[test]
fn every_length() {
    let tally = check("every length", cases::every_length());
    for place in [1, 2, 3, 4, 7, 10] {
        assert!(tally.short[place] > 5, "{place}");
    }
    assert!(tally.of_cause(13) > 5);
}

#[test]
fn random_bytes() {
    let tally = check("random bytes", cases::random_bytes());
    assert!(tally.of_cause(0) > 50);
    for cause in 1..=6 {
        assert!(tally.of_cause(cause) > 300, "{cause}");
    }
}

#[test]
fn singular_graphs() {
    let tally = check("singular graphs", runs::singular_graphs());
    assert!(tally.of(UNDO, 10) > 1000);
}

#[test]
fn lists() {
    let tally = check("lists", lists::lists());
    assert!(tally.of(REPLAY, 0) > 4000);
    for cause in [1, 2, 3, 4, 5, 6] {
        assert!(tally.of(REPLAY, cause) > 10, "{cause}");
    }
}

#[test]
fn faulty_lists() {
    let tally = check("faulty lists", lists::faulty_lists());
    assert!(tally.short[10] > 1000);
    assert!(tally.of(REPLAY, 12) > 1000 && tally.of(REPLAY, 13) > 1000);
}

/// Checks that the lowest cause is returned, and that the answers are left as they
/// were.
fn check_several_causes(faulty: &FaultyList) {
    let FaultyList {
        case,
        session,
        list,
    } = faulty;
    let lowest = [*session, *list]
        .into_iter()
        .filter(|&cause| cause != 0)
        .min();
    assert_eq!(case.cause(), lowest.unwrap_or(0), "{}", case.name);
    if lowest == Some(2) {
        let buffer = case.number >> 16;
        assert_eq!(buffer == 10, *session != 2, "{}", case.name);
    }
    if lowest.is_some() {
        assert_eq!(case.call, case.after, "{}", case.name);
    }
}

#[test]
fn several_causes() {
    let mut both = 0;
    let checked = lists::several_causes().map(|faulty| {
        check_several_causes(&faulty);
        both += usize::from(faulty.session != 0 && faulty.list != 0);
        faulty.case
    });
    let tally = check("several causes", checked);
    assert!(both > 5000, "{both}");
    for cause in [0, 1, 2, 3, 4, 5, 6, 12, 13] {
        assert!(tally.of(REPLAY, cause) > 100, "{cause}");
    }
    assert!(tally.short[10] > 1000 && tally.short[1..=4].iter().all(|&count| count > 10));
}

#[test]
fn long_lists() {
    let tally = check("long lists", lists::long_lists());
    assert_eq!(tally.of(REPLAY, 0), 7);
}

#[test]
fn longest_lists() {
    let mut guards = Random::new(2000);
    let family = lists::longest_lists().inspect(|case| case.check(&mut guards));
    let tally = check("longest lists", family);
    assert_eq!((tally.of(REPLAY, 12), tally.of(REPLAY, 13)), (5, 5));
}

/// Returns what the plain model, fed the list only, answers to each call, and the
/// model after them.
fn by_model(graph: &Graph, calls: &[u64]) -> (Vec<u64>, Model) {
    let mut model = Model::new();
    let mut numbers = Vec::new();
    for call in calls.chunks(3) {
        let answer = match call[0] {
            1 => model.pick(graph, call[1], call[2]),
            2 => model.automatic(graph),
            _ => model.undo(graph),
        };
        let session = model.session(graph);
        numbers.push(pair_number(&Outcome { session, answer }));
    }
    (numbers, model)
}

/// Makes automatic picks through their entry until one is refused, and counts
/// them.
fn picks_to_come(state: &State) -> u64 {
    let mut state = state.clone();
    for picks in 0.. {
        let mut next = state.with(Request::Automatic);
        let number = next.run();
        if number & 0xFF != 0 {
            assert_eq!(number, 11);
            return picks;
        }
        state = next.state;
        state.made = number >> 32 & 0xFF;
    }
    unreachable!("the pairs made end at n / 2");
}

/// Lists from opening beside the plain model: every answer, the pairs made, the
/// sequence, the inverse, and the picks to come.
#[test]
fn logs_beside_the_plain_model() {
    let mut made = 0;
    for case in lists::logs() {
        let mut found = case.call.clone();
        let number = found.run();
        let Request::Replay { calls, answers } = &found.request else {
            panic!("{} is no list", case.name);
        };
        let weights = words_from_bytes(&found.state.weights);
        let graph = Graph::checked(found.state.n, &found.state.adjacency, &weights)
            .expect("a graph in order");
        let (numbers, model) = by_model(&graph, calls);
        assert_eq!(answers[..numbers.len()], numbers, "{}", case.name);
        let session = model.session(&graph);
        assert_eq!(number, 0x500 | session.pairs << 32, "{}", case.name);
        let n = graph.size();
        assert_eq!(found.state.sequence[..n], model.sequence(&graph));
        let inverse = words_from_bytes(&found.state.inverse[..2 * n * n]);
        assert_eq!(Some(inverse), model.inverse(&graph), "{}", case.name);
        found.state.made = session.pairs;
        assert_eq!(picks_to_come(&found.state), model.picks_to_come(&graph));
        made += numbers.len();
    }
    assert!(made > 15_000, "{made}");
}

#[test]
fn logs() {
    let tally = check("logs", lists::logs());
    assert_eq!(tally.of(REPLAY, 0), tally.total());
}

/// Makes the calls of a list one by one through their entries. Returns their
/// numbers and the session they leave.
fn one_by_one(case: &SessionCase, calls: &[u64]) -> (Vec<u64>, SessionCase) {
    let mut state = case.call.state.clone();
    let mut numbers = Vec::new();
    for call in calls.chunks(3) {
        let request = match call[0] {
            1 => Request::Pick(call[1], call[2]),
            2 => Request::Automatic,
            _ => Request::Undo,
        };
        let mut single = state.with(request);
        let number = single.run();
        state = single.state;
        if number & 0xFF == 0 {
            state.made = number >> 32 & 0xFF;
        }
        numbers.push(number);
    }
    let left = SessionCase::new(String::new(), state.with(Request::Undo));
    (numbers, left)
}

/// A list through its entry beside its calls through theirs: the answers, every
/// byte left, and the pairs made. A refused list writes no answer, and every
/// single call is refused like it.
#[test]
fn lists_beside_single_calls() {
    let mut made = 0;
    for case in lists::lists().chain(lists::long_lists()) {
        let mut found = case.call.clone();
        let number = found.run();
        let Request::Replay { calls, answers } = &found.request else {
            panic!("{} is no list", case.name);
        };
        let (singles, left) = one_by_one(&case, calls);
        if number & 0xFF == 0 {
            assert_eq!(answers[..singles.len()], singles, "{}", case.name);
            assert_eq!(number, 0x500 | left.call.state.made << 32, "{}", case.name);
            found.state.made = left.call.state.made;
        } else {
            assert_eq!(found.request, case.call.request, "{}", case.name);
            assert!(singles.iter().all(|&single| single == number));
        }
        assert_eq!(found.state, left.call.state, "{}", case.name);
        made += singles.len();
    }
    assert!(made > 30_000, "{made}");
}
