//! Lists of session calls, to be replayed. The same ones every time.

use crate::faults::{Fault, FAULTS};
use crate::graphs;
use crate::random::Random;
use crate::requests::{self, UNKNOWN_KINDS};
use crate::session::{Request, SessionCase, State};
use crate::states::{graph_to_open, seeded, sound_session};

/// Makes lists of calls from opening, on graphs that open.
pub fn logs() -> impl Iterator<Item = SessionCase> {
    (0..3000).filter_map(|seed| {
        let mut random = seeded(19, seed);
        let n = random.between(0, 12);
        let graph = graph_to_open(&mut random, n);
        let (state, sound) = State::new(&mut random, &graph, &[], 1);
        let request = requests::replay(&mut random, &state, 24);
        let name = format!("logs, seed {seed}");
        sound.then(|| SessionCase::new(name, state.with(request)))
    })
}

/// Makes lists of calls on sound sessions and on spoiled ones.
pub fn lists() -> impl Iterator<Item = SessionCase> {
    (0..6000).map(|seed| {
        let mut random = seeded(14, seed);
        let n = random.choose(&[0, 2, 4, 4, 6, 6, 7, 8, 10, 12]);
        let mut state = sound_session(&mut random, n);
        let request = requests::replay(&mut random, &state, 16);
        if random.percent(10) {
            let index = random.below(FAULTS.len());
            (FAULTS[index].spoil)(&mut random, &mut state);
        }
        SessionCase::new(format!("lists, seed {seed}"), state.with(request))
    })
}

/// Makes lists with one fault or several, on sound sessions and on spoiled ones.
pub fn faulty_lists() -> impl Iterator<Item = SessionCase> {
    (0..6000).map(|seed| {
        let mut random = seeded(15, seed);
        let n = random.between(0, 6);
        let mut state = sound_session(&mut random, n);
        let mut request = requests::replay(&mut random, &state, 6);
        requests::spoil_list(&mut random, &mut request, seed as usize % 4);
        if random.percent(30) {
            let index = random.below(FAULTS.len());
            (FAULTS[index].spoil)(&mut random, &mut state);
        }
        SessionCase::new(format!("faulty lists, seed {seed}"), state.with(request))
    })
}

/// A list and its session, each with a fault or none, and the causes of these.
pub struct FaultyList {
    pub case: SessionCase,
    /// The cause of the session's fault, or 0.
    pub session: u64,
    /// The lowest cause of the list's faults, or 0.
    pub list: u64,
}

/// The faults that a list has besides its session's.
#[derive(Clone, Copy, Debug)]
enum ListFault {
    ShortAnswers,
    UnknownKind,
    Cut,
    UnknownKindAndCut,
    All,
    /// No fault.
    Nothing,
}

const LIST_FAULTS: [ListFault; 6] = [
    ListFault::ShortAnswers,
    ListFault::UnknownKind,
    ListFault::Cut,
    ListFault::UnknownKindAndCut,
    ListFault::All,
    ListFault::Nothing,
];

impl ListFault {
    fn cause(self) -> u64 {
        match self {
            ListFault::ShortAnswers | ListFault::All => 2,
            ListFault::UnknownKind | ListFault::UnknownKindAndCut => 12,
            ListFault::Cut => 13,
            ListFault::Nothing => 0,
        }
    }

    /// Makes a list of automatic picks with this fault.
    fn request(self, random: &mut Random) -> Request {
        let count = random.between(1, 4);
        let mut calls = [2, 0, 0].repeat(count);
        let mut room = count + random.below(2);
        if matches!(self, ListFault::ShortAnswers | ListFault::All) {
            room = random.below(count);
        }
        if matches!(
            self,
            ListFault::UnknownKind | ListFault::UnknownKindAndCut | ListFault::All
        ) {
            calls[3 * random.below(count)] = random.choose(&UNKNOWN_KINDS);
        }
        if matches!(
            self,
            ListFault::Cut | ListFault::UnknownKindAndCut | ListFault::All
        ) {
            calls.extend([2, 0].iter().take(random.between(1, 2)));
        }
        Request::Replay {
            calls,
            answers: (0..room).map(|_| random.number()).collect(),
        }
    }
}

/// Makes every fault of a session with every fault of a list.
pub fn several_causes() -> impl Iterator<Item = FaultyList> {
    (0..40).flat_map(|seed| {
        let mut random = seeded(27, seed);
        let n = random.between(2, 8);
        let sound = sound_session(&mut random, n);
        let mut cases = Vec::new();
        for fault in &FAULTS {
            for list in LIST_FAULTS {
                cases.push(faulty_list(&mut random, &sound, fault, list, seed));
            }
        }
        cases
    })
}

/// Spoils a session and a list. Every other size above 96 is 97.
fn faulty_list(
    random: &mut Random,
    sound: &State,
    fault: &Fault,
    list: ListFault,
    seed: u64,
) -> FaultyList {
    let mut state = sound.clone();
    let spoiled = (fault.spoil)(random, &mut state);
    if fault.cause == 1 && seed % 2 == 0 {
        state.n = 97;
    }
    let name = format!("several causes, seed {seed}, {}, {list:?}", fault.name);
    FaultyList {
        case: SessionCase::new(name, state.with(list.request(random))),
        session: if spoiled { fault.cause } else { 0 },
        list: list.cause(),
    }
}

/// Makes whole logs: all automatic picks of a graph, then one that is refused, all
/// undos, and one that is refused; up to 96 vertices.
pub fn long_lists() -> impl Iterator<Item = SessionCase> {
    [0, 2, 8, 20, 40, 64, 96].into_iter().map(|n| {
        let mut random = seeded(16, n as u64);
        let graph = graphs::with_density(&mut random, n, 100);
        let (state, _) = State::new(&mut random, &graph, &[], 3);
        let half = n / 2 + 1;
        let mut calls = [2, 0, 0].repeat(half);
        calls.extend([3, 0, 0].repeat(half));
        let answers = vec![7; 2 * half + 1];
        let request = Request::Replay { calls, answers };
        SessionCase::new("long lists".to_string(), state.with(request))
    })
}

/// Makes lists whose fault lies at 65534 and later calls: too long for the stream.
pub fn longest_lists() -> impl Iterator<Item = SessionCase> {
    [65534, 65535, 65536, 65537, 65536 + 300]
        .into_iter()
        .flat_map(|count| {
            let mut random = seeded(17, count as u64);
            let state = sound_session(&mut random, 4);
            let whole = [2, 0, 0].repeat(count);
            let unknown = [whole.clone(), vec![random.choose(&UNKNOWN_KINDS), 1, 2]].concat();
            let cut = [whole, vec![1]].concat();
            [(unknown, count + 1), (cut, count)].map(|(calls, room)| {
                let answers = vec![7; room];
                let request = Request::Replay { calls, answers };
                SessionCase::new(format!("fault at {count}"), state.with(request))
            })
        })
}
