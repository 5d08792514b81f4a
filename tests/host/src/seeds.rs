//! Session cases by seed, for a long run.

use crate::cells::spoil_several;
use crate::faults::{Fault, FAULTS};
use crate::random::Random;
use crate::requests::{self, ENTRIES};
use crate::runs::{run, singular_run};
use crate::session::{SessionCase, State};
use crate::session_cases::spoil_often;
use crate::states::{random_state, seeded, sound_session};

/// Makes the cases of one seed: a run of calls, mostly of small size, or some
/// other sessions.
pub fn of_seed(seed: u64) -> Vec<SessionCase> {
    let mut random = seeded(100, seed);
    let name = format!("seed {seed}");
    match random.below(2000) {
        0 | 1 => {
            let n = random.between(95, 96);
            run(&mut random, &name, n, 16)
        }
        2..=9 => {
            let n = random.between(33, 94);
            run(&mut random, &name, n, 24)
        }
        10..=149 => {
            let n = random.between(13, 32);
            run(&mut random, &name, n, 32)
        }
        150..=499 => spoiled_one_by_one(&mut random, &name),
        500..=699 => {
            let n = 2 * random.between(1, 6);
            singular_run(&mut random, &name, n)
        }
        700..=899 => some(&mut random, &name, random_state),
        900..=1099 => some(&mut random, &name, |random| {
            let n = random.between(0, 10);
            let mut state = sound_session(random, n);
            spoil_often(random, &mut state);
            state
        }),
        1100..=1199 => some(&mut random, &name, several_cells),
        _ => {
            let n = random.between(0, 12);
            run(&mut random, &name, n, 24)
        }
    }
}

fn spoiled_one_by_one(random: &mut Random, name: &str) -> Vec<SessionCase> {
    let n = random.between(0, 12);
    let sound = sound_session(random, n);
    let spoiled = |fault: &Fault| {
        let mut state = sound.clone();
        let entry = random.below(ENTRIES);
        let mut request = requests::of_entry(random, &sound, entry);
        if random.percent(40) {
            let kind = random.below(4);
            requests::spoil_list(random, &mut request, kind);
        }
        (fault.spoil)(random, &mut state);
        SessionCase::new(format!("{name}, {}", fault.name), state.with(request))
    };
    FAULTS.iter().map(spoiled).collect()
}

/// Makes a session with several faulty cells, half of the time with another fault.
fn several_cells(random: &mut Random) -> State {
    let n = random.between(2, 12);
    let mut state = sound_session(random, n);
    let n = state.n as usize;
    spoil_several(random, n, &mut state.adjacency);
    if random.percent(50) {
        let index = random.below(FAULTS.len());
        (FAULTS[index].spoil)(random, &mut state);
    }
    state
}

/// Makes some sessions with a request each.
fn some(random: &mut Random, name: &str, state: impl Fn(&mut Random) -> State) -> Vec<SessionCase> {
    let mut one = |call| {
        let state = state(random);
        let request = requests::any(random, &state);
        SessionCase::new(format!("{name}, call {call}"), state.with(request))
    };
    (0..20).map(&mut one).collect()
}
