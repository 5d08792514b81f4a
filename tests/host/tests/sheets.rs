//! The cases of sheets and draws, which tests/c/replay.c runs through the C
//! entries, judged by themselves: whether each outcome occurs often enough. And
//! what the entries do together.

use host_tests::call::Call;
use host_tests::entry::{self, Written};
use host_tests::filling::{FillingCase, Source};
use host_tests::filling_cases as cases;
use host_tests::graphs::{self, Graph};
use host_tests::random::Random;
use std::collections::BTreeMap;

/// Counts the calls by cause, 0 for those carried out, and place.
type Tally = BTreeMap<(u64, u64), usize>;

fn check(family: impl Iterator<Item = FillingCase>) -> Tally {
    let mut tally = Tally::new();
    for case in family {
        let place = if case.cause() == 0 { 0 } else { case.place() };
        *tally.entry((case.cause(), place)).or_default() += 1;
    }
    tally
}

/// Counts the calls that had a cause, at any place.
fn of_cause(tally: &Tally, cause: u64) -> usize {
    let counts = tally.iter().filter(|((found, _), _)| *found == cause);
    counts.map(|(_, count)| count).sum()
}

#[test]
fn sheets() {
    let tally = check(cases::sheets());
    for (cause, count) in [
        (0, 1500),
        (1, 150),
        (12, 3000),
        (13, 400),
        (14, 200),
        (15, 50),
    ] {
        assert!(of_cause(&tally, cause) > count, "{cause}: {tally:?}");
    }
    assert_eq!(of_cause(&tally, 2), 0);
}

#[test]
fn long_sheets() {
    let tally = check(cases::long_sheets());
    assert_eq!(of_cause(&tally, 0), 1);
    assert_eq!(tally[&(12, 13_688)], 6);
    assert_eq!((tally[&(14, 13_687)], tally[&(15, 13_687)]), (5, 5));
}

#[test]
fn short_buffers() {
    let tally = check(cases::short_buffers());
    assert!(tally[&(2, 1)] > 500 && tally[&(2, 2)] > 100, "{tally:?}");
    for cause in [0, 12, 13, 14, 15] {
        assert!(of_cause(&tally, cause) > 50, "{cause}: {tally:?}");
    }
}

/// Every length: refused exactly if a buffer is short, the adjacency first.
#[test]
fn every_length() {
    let checked = cases::every_length().inspect(|case| {
        let [(_, sheet), (_, adjacency), (_, weights)] = case.call.buffers();
        let n = usize::from(sheet[1]);
        let expected = if adjacency.len() < n * n {
            0x0001_0002
        } else if weights.len() / 2 < n * n.saturating_sub(1) / 2 {
            0x0002_0002
        } else {
            0x600 | ((n * n.saturating_sub(1) / 2) as u64) << 16 | (n as u64) << 32
        };
        assert_eq!(case.number, expected, "{}", case.name);
    });
    let tally = check(checked);
    assert!(of_cause(&tally, 0) > 90 && tally[&(2, 1)] > 500 && tally[&(2, 2)] > 100);
}

#[test]
fn draws() {
    let tally = check(cases::every_draw().chain(cases::draw_lengths()));
    assert!(
        of_cause(&tally, 0) > 200 && tally[&(2, 2)] > 200,
        "{tally:?}"
    );
}

#[test]
fn large_draws() {
    let tally = check(cases::large_draws());
    assert_eq!(tally, Tally::from([((1, 0), 300)]));
}

/// A sheet's weights are the draws of its seed.
#[test]
fn a_seed_gives_a_sheet_and_a_call_the_same_weights() {
    let mut found = 0;
    for case in cases::sheets().filter(|case| case.cause() == 0) {
        let Source::Sheet(sheet) = &case.call.source else {
            continue;
        };
        let seed = u32::from_le_bytes([sheet[3], sheet[4], sheet[5], sheet[6]]);
        let mut weights = case.call.weights.clone();
        entry::draw(sheet[1].into(), seed, &mut weights);
        assert_eq!(weights, case.after.weights, "{}", case.name);
        found += 1;
    }
    assert!(found > 1500, "{found}");
}

/// Tells whether the vertices of a set of bits have a perfect matching.
fn has_perfect_matching(graph: &Graph, left: usize) -> bool {
    let first = left.trailing_zeros() as usize;
    let rest = left & left.wrapping_sub(1);
    let partner = |&j: &usize| rest >> j & 1 == 1 && graph.adjacent(first, j);
    left == 0
        || (0..graph.n)
            .filter(partner)
            .any(|j| has_perfect_matching(graph, rest & !(1 << j)))
}

/// Tells whether a graph opens with these weights.
fn opens(random: &mut Random, graph: &Graph, weights: &[u8]) -> bool {
    let mut call = Call::new(random, graph, 0);
    let written = Written {
        inverse: &mut call.inverse,
        sequence: &mut call.sequence,
        witness: &mut call.witness,
        work: &mut call.work,
    };
    entry::open(call.n, &call.adjacency, weights, written) == 0x100
}

/// Almost all graphs with a perfect matching open with drawn weights, and far
/// fewer with weights that are all 1.
#[test]
fn weights_are_best_drawn() {
    let mut random = Random::new(27);
    let (mut matched, mut drawn, mut ones) = (0, 0, 0);
    for round in 0..2000 {
        let n = random.choose(&[8, 10]);
        let graph = graphs::with_density(&mut random, n, 50);
        if !has_perfect_matching(&graph, (1 << n) - 1) {
            continue;
        }
        let mut weights = vec![0; n * (n - 1)];
        entry::draw(n as u64, round, &mut weights);
        matched += 1;
        drawn += usize::from(opens(&mut random, &graph, &weights));
        ones += usize::from(opens(&mut random, &graph, &[1, 0].repeat(n * (n - 1) / 2)));
    }
    println!("{matched} with a perfect matching: {drawn} opened, with weights 1 {ones}");
    assert!(matched > 1500);
    assert!(drawn + 3 > matched, "{drawn} of {matched}");
    assert!(100 * ones < 80 * matched, "{ones} of {matched}");
}
