//! A list of session calls: its causes and their order, and the list beside its
//! single calls.

mod common;

use common::*;
use reference::numbers::{pair_number, replay_number};
use reference::replay::replay;
use reference::session::Session;

const PICK: u64 = 1;
const AUTOMATIC: u64 = 2;
const UNDO: u64 = 3;

/// What the answers hold before a call.
const JUNK: u64 = 0xAAAA_AAAA_AAAA_AAAA;

/// Replays a list. Returns the number and the session handed back.
fn run(buffers: &mut Buffers, now: Session, calls: &[u64], answers: &mut [u64]) -> (u64, Session) {
    let outcome = replay(
        now,
        &buffers.adjacency,
        &buffers.weights,
        &mut buffers.inverse,
        &mut buffers.sequence,
        calls,
        answers,
    );
    (replay_number(&outcome), outcome.session)
}

/// Replays a list that is refused. Checks that nothing is written, and that the
/// session is the one sent.
fn refused_on(buffers: &mut Buffers, now: Session, calls: &[u64], room: usize) -> u64 {
    let before = buffers.clone();
    let mut answers = vec![JUNK; room];
    let (number, after) = run(buffers, now, calls, &mut answers);
    assert_ne!(number & 0xFF, 0);
    assert_eq!(*buffers, before);
    assert_eq!(after, now);
    assert!(answers.iter().all(|&answer| answer == JUNK));
    number
}

/// refused_on, with the buffers of four vertices, all adjacent and opened.
fn refused(now: Session, calls: &[u64], room: usize) -> u64 {
    let mut buffers = Buffers::complete(4);
    buffers.opened(4);
    refused_on(&mut buffers, now, calls, room)
}

fn refusal(cause: u64, place: u64) -> u64 {
    cause | place << 16
}

#[test]
fn too_little_room_for_answers() {
    let calls = [AUTOMATIC, 0, 0, UNDO, 0, 0];
    for room in 0..2 {
        assert_eq!(refused(session(4, 0), &calls, room), refusal(2, 10));
    }
    assert_eq!(refused(session(4, 0), &[9, 0, 0, 7], 0), refusal(2, 10));
    assert_eq!(refused(session(4, 9), &calls, 1), refusal(2, 10));
    assert_eq!(refused(session(4, 0), &[9, 0], 0), refusal(13, 0));
}

#[test]
fn unknown_kinds() {
    for kind in [0, 4, 5, 257, (1 << 32) + 1, (1 << 63) + 2, u64::MAX] {
        assert_eq!(refused(session(4, 0), &[kind, 0, 1], 1), refusal(12, 0));
        let calls = [AUTOMATIC, 0, 0, UNDO, 0, 0, kind, 0, 1, kind, 0, 1, 2];
        assert_eq!(refused(session(4, 0), &calls, 4), refusal(12, 2));
        assert_eq!(refused(session(4, 1), &calls, 9), 5);
    }
}

#[test]
fn lists_that_end_inside_a_call() {
    for rest in 1..3 {
        for count in 0..3 {
            let calls = vec![2; 3 * count + rest];
            let number = refused(session(4, 0), &calls, count);
            assert_eq!(number, refusal(13, count as u64));
        }
    }
    assert_eq!(refused(session(4, 0), &[9], 0), refusal(13, 0));
    assert_eq!(refused(session(97, 9), &[1, 0], 5), 1);
}

#[test]
fn places_end_at_65535() {
    for (index, place) in [(65_534, 65_534), (65_535, 65_535), (65_536, 65_535)] {
        let mut calls = vec![AUTOMATIC; 3 * index];
        calls.push(0);
        assert_eq!(refused(session(4, 0), &calls, index), refusal(13, place));
        calls.extend([0, 0]);
        let number = refused(session(4, 0), &calls, index + 1);
        assert_eq!(number, refusal(12, place));
    }
}

#[test]
fn an_empty_list_says_whether_the_session_is_sound() {
    let mut buffers = Buffers::complete(4);
    let now = buffers.opened(4);
    let now = buffers.pick(now, 0, 1).session;
    assert_eq!(run(&mut buffers, now, &[], &mut []), (0x1_0000_0500, now));
    assert_eq!(refused_on(&mut buffers, session(4, 2), &[], 0), 5);
    buffers.inverse[0] = 65_521;
    assert_eq!(refused_on(&mut buffers, now, &[], 0), 6);
}

/// Each spoils one thing more, which has a lower cause than those before it.
#[test]
fn the_lowest_cause_is_returned() {
    let mut buffers = Buffers::complete(4);
    let now = buffers.opened(4);
    let mut calls = vec![AUTOMATIC, 0, 0, 9, 0, 0, 1];
    assert_eq!(refused_on(&mut buffers, now, &calls, 2), refusal(12, 1));
    calls[3] = UNDO;
    assert_eq!(refused_on(&mut buffers, now, &calls, 2), refusal(13, 2));
    calls[3] = 9;
    buffers.inverse[1] ^= 1;
    assert_eq!(refused_on(&mut buffers, now, &calls, 2), 6);
    buffers.sequence[3] = 0;
    assert_eq!(refused_on(&mut buffers, now, &calls, 2), 5);
    buffers.weights[2] = 0;
    assert_eq!(refused_on(&mut buffers, now, &calls, 2), refusal(4, 2));
    buffers.adjacency[7] = 2;
    let number = refused_on(&mut buffers, now, &calls, 2);
    assert_eq!(number, 0x1_0301_0003);
    assert_eq!(refused_on(&mut buffers, now, &calls, 1), refusal(2, 10));
    buffers.sequence.truncate(3);
    assert_eq!(refused_on(&mut buffers, now, &calls, 1), refusal(2, 4));
    buffers.inverse.truncate(15);
    assert_eq!(refused_on(&mut buffers, now, &calls, 1), refusal(2, 3));
    buffers.weights.truncate(5);
    assert_eq!(refused_on(&mut buffers, now, &calls, 1), refusal(2, 2));
    buffers.adjacency.truncate(15);
    assert_eq!(refused_on(&mut buffers, now, &calls, 1), refusal(2, 1));
    assert_eq!(refused_on(&mut buffers, session(97, 0), &calls, 1), 1);
}

/// A size above 96, with lists of every fault and of none.
#[test]
fn a_size_above_96_comes_first() {
    for size in [97, 256, (1 << 32) + 4, u64::MAX] {
        for calls in [
            &[][..],
            &[AUTOMATIC, 0, 0],
            &[9, 0, 0],
            &[9, 0, 0, 1],
            &[AUTOMATIC, 0],
        ] {
            for room in 0..3 {
                assert_eq!(refused(session(size, 0), calls, room), 1);
            }
        }
    }
}

/// A list whose calls are all refused is carried out, and writes its answers
/// alone.
#[test]
fn a_list_of_refused_calls_writes_only_answers() {
    let mut buffers = Buffers::new(4, &[(0, 1), (0, 2), (1, 3)]);
    let now = buffers.opened(4);
    let before = buffers.clone();
    let calls = [[UNDO, 0, 0], [PICK, 0, 1], [PICK, 2, 3], [PICK, 0, 4]];
    let mut answers = [JUNK; 5];
    let (number, after) = run(&mut buffers, now, &calls.concat(), &mut answers);
    assert_eq!((number, after), (0x500, now));
    assert_eq!(buffers, before);
    assert_eq!(answers, [11, 10, 9, 7, JUNK]);
}

/// Picks, refused ones among them, and then undoes them.
#[test]
fn a_log() {
    let mut buffers = Buffers::new(4, &[(0, 1), (0, 2), (1, 3)]);
    let now = buffers.opened(4);
    let calls = [
        [PICK, 0, 1],
        [PICK, 3, 2],
        [PICK, u64::MAX, 0],
        [AUTOMATIC, 9, 9],
        [PICK, 0, 1],
        [PICK, 3, 1],
        [AUTOMATIC, 0, 0],
        [UNDO, 7, 7],
        [UNDO, 0, 0],
        [UNDO, 0, 0],
    ];
    let mut answers = [JUNK; 12];
    let (number, after) = run(&mut buffers, now, &calls.concat(), &mut answers);
    assert_eq!((number, after), (0x500, now));
    let expected = [
        10,
        9,
        7,
        0x1_0200_0300,
        8,
        0x2_0301_0300,
        11,
        0x1_0301_0300,
        0x0200_0300,
        11,
        JUNK,
        JUNK,
    ];
    assert_eq!(answers, expected);
}

fn random_calls(random: &mut Random, n: u64) -> Vec<[u64; 3]> {
    let count = random.below(12);
    let mut any_call = || {
        let kind = random.choose(&[PICK, PICK, PICK, AUTOMATIC, UNDO]);
        [kind, random.below(n + 1), random.below(n + 1)]
    };
    (0..count).map(|_| any_call()).collect()
}

/// On sound sessions each call is answered as a single one; on others nothing is
/// written, and the number is what each single call answers.
#[test]
fn a_list_is_its_single_calls() {
    let mut random = Random(91);
    for _ in 0..2000 {
        let n = random.choose(&[0, 2, 3, 4, 6, 8]);
        let mut buffers = Buffers::random(&mut random, n).with_excess(&mut random);
        buffers.open(n as u64).expect("accepted");
        let start = session(n as u64, random.choose(&[0, 0, 0, 1, 1 << 32]));
        let list = random_calls(&mut random, n as u64);

        let mut single = buffers.clone();
        let mut now = start;
        let mut expected = Vec::new();
        for &[kind, a, b] in &list {
            let outcome = match kind {
                PICK => single.pick(now, a, b),
                AUTOMATIC => single.automatic(now),
                _ => single.undo(now),
            };
            expected.push(pair_number(&outcome));
            now = outcome.session;
        }

        let mut answers = vec![JUNK; list.len()];
        let (number, after) = run(&mut buffers, start, &list.concat(), &mut answers);
        assert_eq!(after, now);
        assert_eq!(buffers, single);
        if number & 0xFF == 0 {
            assert_eq!(number, 0x500 | now.pairs << 32);
            assert_eq!(answers, expected);
        } else {
            assert!(expected.iter().all(|&answer| answer == number));
            assert!(answers.iter().all(|&answer| answer == JUNK));
        }
    }
}

/// Damages nothing, or one of the things that a cause is about.
fn damage(random: &mut Random, buffers: &mut Buffers, now: &mut Session, calls: &mut Vec<u64>) {
    let index = |random: &mut Random, length: usize| random.below(length as u64) as usize;
    match random.below(12) {
        0 => now.size = random.choose(&[97, 1 << 32, u64::MAX]),
        1 => buffers.adjacency.truncate(15),
        2 => buffers.weights.truncate(5),
        3 => buffers.inverse.truncate(15),
        4 => buffers.sequence.truncate(3),
        5 if buffers.adjacency.len() == 16 => buffers.adjacency[index(random, 16)] ^= 1,
        6 if buffers.weights.len() == 6 => buffers.weights[index(random, 6)] = 0,
        7 => now.pairs = random.choose(&[1, 2, 3, u64::MAX]),
        8 if buffers.inverse.len() == 16 => buffers.inverse[index(random, 16)] ^= 1,
        9 if calls.len() >= 3 => {
            let call = index(random, calls.len() / 3);
            calls[3 * call] = random.choose(&[0, 4]);
        }
        10 => calls.push(random.below(5)),
        _ => {}
    }
}

/// Lists the causes of a replay on four vertices, all adjacent and opened, that
/// apply by themselves. Each is checked only if those that it rests on do not
/// apply.
fn causes(buffers: &Buffers, now: Session, calls: &[u64], room: usize) -> Vec<u64> {
    let mut causes = Vec::new();
    let whole = calls.len() / 3;
    if now.size > 96 {
        causes.push(1);
    }
    let lengths = [
        (1, buffers.adjacency.len(), 16),
        (2, buffers.weights.len(), 6),
        (3, buffers.inverse.len(), 16),
        (4, buffers.sequence.len(), 4),
        (10, room, whole),
    ];
    let short = |&&(_, length, needed): &&(u64, usize, usize)| length < needed;
    causes.extend(lengths.iter().filter(short).map(|&(b, _, _)| refusal(2, b)));
    if causes.is_empty() {
        // Any call on the session has the causes 3 to 6; an undo has no others
        // but 10 and 11.
        let answer = buffers.clone().undo(now).answer;
        let numbers = answer.err().map(|refusal| refusal.numbers());
        causes.extend(numbers.map(|(cause, place)| refusal(cause.into(), place)));
        causes.retain(|&number| number & 0xFF <= 6);
    }
    let unknown = (0..whole).find(|&index| !(1..=3).contains(&calls[3 * index]));
    causes.extend(unknown.map(|index| refusal(12, index as u64)));
    if calls.len() % 3 != 0 {
        causes.push(refusal(13, whole as u64));
    }
    causes
}

/// Several damages at once: the lowest cause is returned, and nothing written.
#[test]
fn damaged_replays() {
    let mut random = Random(92);
    let mut several = 0;
    let mut counts = [0; 16];
    for _ in 0..20_000 {
        let mut buffers = Buffers::complete(4);
        let mut now = buffers.opened(4);
        let mut calls = random_calls(&mut random, 4).concat();
        for _ in 0..random.below(4) {
            damage(&mut random, &mut buffers, &mut now, &mut calls);
        }
        let room = (calls.len() / 3 + random.below(3) as usize).saturating_sub(1);
        let causes = causes(&buffers, now, &calls, room);
        several += usize::from(causes.len() > 1);
        match causes.first() {
            Some(&number) => {
                assert_eq!(refused_on(&mut buffers, now, &calls, room), number);
                counts[(number & 0xFF) as usize] += 1;
            }
            None => {
                let (number, _) = run(&mut buffers, now, &calls, &mut vec![JUNK; room]);
                assert_eq!(number & 0xFFFF, 0x500);
                counts[0] += 1;
            }
        }
    }
    assert!(several > 1000, "{several}");
    for cause in [0, 1, 2, 3, 4, 5, 6, 12, 13] {
        assert!(counts[cause] > 50, "cause {cause}: {counts:?}");
    }
}
