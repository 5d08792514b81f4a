//! Calls with spoiled sessions, buffers of any length and any numbers: the
//! answer is the lowest cause that applies, worked out here by other means.

mod common;

use common::*;
use reference::display::displayed_part;
use reference::graph::Graph;
use reference::model::Model;
use reference::residue::Residue;
use reference::session::{is_well_formed, Session};

/// Lists the short buffers, each given as number, length and length needed.
fn short_buffers(lengths: &[(u64, usize, usize)]) -> Vec<(u8, u64)> {
    let is_short = |&&(_, length, needed): &&(u64, usize, usize)| length < needed;
    let places = lengths.iter().filter(is_short);
    places.map(|&(number, _, _)| (2, number)).collect()
}

/// Lists all faults of adjacency and weights: those of the cells row by row, and
/// those of one cell in the order of the paper's table.
fn graph_faults(n: usize, buffers: &Buffers) -> Vec<(u8, u64)> {
    let mut faults = Vec::new();
    for i in 0..n {
        for j in 0..n {
            let byte = buffers.adjacency[i * n + j];
            let mirror = buffers.adjacency[j * n + i];
            let applies = [byte > 1, i == j && byte > 0, byte != mirror];
            let of_cell = (1..).zip(applies).filter(|&(_, applies)| applies);
            faults.extend(of_cell.map(|(fault, _)| cell(i, j, fault)));
        }
    }
    for (index, weight) in buffers.weights[..weight_count(n)].iter().enumerate() {
        if !(1..=65_520).contains(weight) {
            faults.push((4, index as u64));
        }
    }
    faults
}

/// Tells whether the session is well formed, sentence by sentence.
fn well_formed(n: usize, buffers: &Buffers, pairs: u64) -> bool {
    if u128::from(pairs) * 2 > n as u128 {
        return false;
    }
    let used = 2 * pairs as usize;
    let mut seen = vec![false; 256];
    for pair in buffers.sequence[..used].chunks(2) {
        let (i, j) = (usize::from(pair[0]), usize::from(pair[1]));
        if i >= n || j >= n || i >= j || seen[i] || seen[j] {
            return false;
        }
        if buffers.adjacency[i * n + j] != 1 {
            return false;
        }
        seen[i] = true;
        seen[j] = true;
    }
    buffers.sequence[used..n].iter().all(|&byte| byte == 255)
}

/// Tells whether the stored table is the inverse, by a product with the matrix.
fn inverse_fits(graph: &Graph, buffers: &Buffers, unmatched: &[u64]) -> bool {
    let n = graph.size();
    let is_unmatched = |vertex: usize| unmatched.contains(&(vertex as u64));
    for i in 0..n {
        for j in 0..n {
            let word = buffers.inverse[i * n + j];
            if word >= 65_521 {
                return false;
            }
            if !is_unmatched(i) || !is_unmatched(j) {
                if word != 0 {
                    return false;
                }
                continue;
            }
            let mut sum = Residue::ZERO;
            for &k in unmatched {
                let entry = graph.tutte_entry(i, k as usize);
                let word = u64::from(buffers.inverse[k as usize * n + j]);
                sum = sum.plus(entry.times(Residue::new(word)));
            }
            if sum != Residue::new(u64::from(i == j)) {
                return false;
            }
        }
    }
    true
}

/// Lists all causes that apply to a session call, each with its places in order.
fn causes(buffers: &Buffers, session: Session, call: Call) -> Vec<(u8, u64)> {
    if session.size > 96 {
        return vec![(1, 0)];
    }
    let n = session.size as usize;
    let mut lengths = vec![
        (1, buffers.adjacency.len(), n * n),
        (2, buffers.weights.len(), weight_count(n)),
        (3, buffers.inverse.len(), n * n),
        (4, buffers.sequence.len(), n),
    ];
    if let Call::Row(_) = call {
        lengths.push((7, buffers.row.len(), n));
    }
    let short = short_buffers(&lengths);
    if !short.is_empty() {
        return short;
    }
    let faults = graph_faults(n, buffers);
    if !faults.is_empty() {
        return faults;
    }
    let graph = buffers.graph(n);
    let formed = well_formed(n, buffers, session.pairs);
    assert_eq!(
        is_well_formed(&graph, session.pairs, &buffers.sequence),
        formed
    );
    if !formed {
        return vec![(5, 0)];
    }
    let used = &buffers.sequence[..2 * session.pairs as usize];
    let mut model = Model {
        pairs: used
            .chunks(2)
            .map(|bytes| pair(u64::from(bytes[0]), u64::from(bytes[1])))
            .collect(),
    };
    let unmatched = model.unmatched(&graph);
    if !inverse_fits(&graph, buffers, &unmatched) {
        return vec![(6, 0)];
    }
    let answer = match call {
        Call::Pick(a, b) => model.pick(&graph, a, b).err(),
        Call::Automatic => model.automatic(&graph).err(),
        Call::Undo => model.undo(&graph).err(),
        Call::Row(a) if a >= n as u64 => return vec![(7, 0)],
        Call::Row(a) if !unmatched.contains(&a) => return vec![(8, 0)],
        Call::Row(_) => None,
    };
    answer
        .map(|refusal| refusal.numbers())
        .into_iter()
        .collect()
}

/// Finds the lowest cause, with the first of its places.
fn lowest(causes: Vec<(u8, u64)>) -> Option<(u8, u64)> {
    causes.into_iter().min_by_key(|&(cause, _)| cause)
}

/// Makes a sound session on a random graph by random picks.
fn random_session(random: &mut Random) -> (Buffers, Session) {
    loop {
        let n = random.choose(&[0, 2, 3, 4, 4, 5, 6, 6, 8, 8]);
        let mut buffers = Buffers::random(random, n).with_excess(random);
        let answer = buffers.open(n as u64).expect("accepted");
        let mut now = session(n as u64, 0);
        if let reference::opening::Opening::Singular { .. } = answer {
            if random.chance(90) {
                continue;
            }
        }
        for _ in 0..random.below(5) {
            let (a, b) = (random.below(9), random.below(9));
            now = buffers.pick(now, a, b).session;
        }
        return (buffers, now);
    }
}

fn cut<T>(random: &mut Random, buffer: &mut Vec<T>) {
    let length = random.below(buffer.len() as u64 + 1) as usize;
    buffer.truncate(length);
}

fn put<T: Copy>(random: &mut Random, buffer: &mut [T], values: &[T]) {
    if !buffer.is_empty() {
        let index = random.below(buffer.len() as u64) as usize;
        buffer[index] = random.choose(values);
    }
}

fn swap<T>(random: &mut Random, buffer: &mut [T]) {
    if !buffer.is_empty() {
        let first = random.below(buffer.len() as u64) as usize;
        let second = random.below(buffer.len() as u64) as usize;
        buffer.swap(first, second);
    }
}

/// Spoils one thing.
fn spoil(random: &mut Random, buffers: &mut Buffers, session: &mut Session) {
    const NUMBERS: [u64; 12] = [
        0,
        1,
        2,
        3,
        4,
        96,
        97,
        256,
        1 << 32,
        1 << 63,
        (1 << 63) + 1,
        u64::MAX,
    ];
    const BYTES: [u8; 9] = [0, 1, 2, 3, 5, 8, 96, 254, 255];
    const WORDS: [u16; 8] = [0, 1, 2, 32_760, 65_520, 65_521, 65_522, 65_535];
    match random.below(16) {
        0 => session.size = random.choose(&NUMBERS),
        1 => session.pairs = random.choose(&NUMBERS),
        2 => session.pairs = session.pairs.wrapping_add(1),
        3 => session.pairs = session.pairs.wrapping_sub(1),
        4 => cut(random, &mut buffers.adjacency),
        5 => cut(random, &mut buffers.weights),
        6 => cut(random, &mut buffers.inverse),
        7 => cut(random, &mut buffers.sequence),
        8 => cut(random, &mut buffers.row),
        9 => put(random, &mut buffers.adjacency, &BYTES),
        10 => put(random, &mut buffers.weights, &WORDS),
        11 => put(random, &mut buffers.inverse, &WORDS),
        12 => put(random, &mut buffers.sequence, &BYTES),
        13 => swap(random, &mut buffers.sequence),
        14 => swap(random, &mut buffers.inverse),
        _ => session.size = session.size.wrapping_sub(1),
    }
}

fn random_call(random: &mut Random) -> Call {
    const VERTICES: [u64; 14] = [0, 1, 2, 3, 4, 5, 6, 7, 8, 255, 256, 257, 1 << 32, u64::MAX];
    match random.below(4) {
        0 => Call::Pick(random.choose(&VERTICES), random.choose(&VERTICES)),
        1 => Call::Automatic,
        2 => Call::Undo,
        _ => Call::Row(random.choose(&VERTICES)),
    }
}

#[test]
fn session_calls_answer_the_lowest_cause() {
    let mut random = Random(81);
    let mut counts = [0; 12];
    for _ in 0..40_000 {
        let (mut buffers, mut now) = random_session(&mut random);
        for _ in 0..random.below(3) {
            spoil(&mut random, &mut buffers, &mut now);
        }
        for _ in 0..3 {
            let call = random_call(&mut random);
            match lowest(causes(&buffers, now, call)) {
                Some(expected) => {
                    assert_eq!(buffers.refused(now, call), expected, "{call:?} {now:?}");
                    counts[usize::from(expected.0)] += 1;
                }
                None => {
                    let outcome = buffers.call(now, call);
                    assert!(outcome.answer.is_ok(), "{call:?} {now:?} {outcome:?}");
                    now = outcome.session;
                    counts[0] += 1;
                }
            }
        }
    }
    assert!(counts.iter().all(|&count| count > 100), "{counts:?}");
}

/// Lists all causes that apply to opening, each with its places in order.
fn opening_causes(buffers: &Buffers, size: u64) -> Vec<(u8, u64)> {
    if size > 96 {
        return vec![(1, 0)];
    }
    let n = size as usize;
    let lengths = [
        (1, buffers.adjacency.len(), n * n),
        (2, buffers.weights.len(), weight_count(n)),
        (3, buffers.inverse.len(), n * n),
        (4, buffers.sequence.len(), n),
        (5, buffers.witness.len(), n),
        (6, buffers.work.len(), n * n),
    ];
    let short = short_buffers(&lengths);
    if short.is_empty() {
        graph_faults(n, buffers)
    } else {
        short
    }
}

#[test]
fn openings_answer_the_lowest_cause() {
    let mut random = Random(82);
    let mut counts = [0; 5];
    for _ in 0..40_000 {
        let (mut buffers, mut now) = random_session(&mut random);
        for _ in 0..random.below(3) {
            spoil(&mut random, &mut buffers, &mut now);
            match random.below(6) {
                0 => cut(&mut random, &mut buffers.witness),
                1 => cut(&mut random, &mut buffers.work),
                _ => {}
            }
        }
        match lowest(opening_causes(&buffers, now.size)) {
            Some(expected) => {
                assert_eq!(buffers.opening_refused(now.size), expected);
                counts[usize::from(expected.0)] += 1;
            }
            None => {
                assert!(buffers.open(now.size).is_ok());
                counts[0] += 1;
            }
        }
    }
    assert!(counts.iter().all(|&count| count > 100), "{counts:?}");
}

#[test]
fn display_takes_any_lengths() {
    let mut random = Random(83);
    for _ in 0..5000 {
        let size = random.choose(&[0, 1, 2, 3, 96, 97, 1 << 32, u64::MAX]);
        let inverse = vec![random.below(2) as u16; random.below(12) as usize];
        let witness = vec![random.below(2) as u16; random.below(5) as usize];
        let part = displayed_part(size, &inverse, &witness);
        let fits =
            size <= 96 && inverse.len() as u64 >= size * size && witness.len() as u64 >= size;
        let shows_witness = fits && witness.iter().take(size as usize).any(|&word| word != 0);
        let expected = match (fits, shows_witness) {
            (false, _) => &inverse[..0],
            (true, true) => &witness[..size as usize],
            (true, false) => &inverse[..(size * size) as usize],
        };
        assert_eq!(part.as_ptr(), expected.as_ptr());
        assert_eq!(part.len(), expected.len());
    }
}
