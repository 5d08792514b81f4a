//! How sheets came out, and how often.

use crate::matchings;
use crate::sheet::{Sheet, EDGE_LENGTH, FIRST_EDGE};
use std::collections::BTreeMap;

/// Every outcome that is told apart: the verdicts, U by a search for a perfect
/// matching up to 12 vertices, and the refusals of the reader by cause and place.
/// Cause 2 is not among them: the program's buffers are long enough.
pub const OUTCOMES: [&str; 38] = [
    "F without a vertex",
    "F",
    "O",
    "U, with a perfect matching",
    "U, without a perfect matching",
    "U, more than 12 vertices",
    "1",
    "12, a known kind for the size",
    "12, an unknown kind for the size",
    "12, a known kind for the seed",
    "12, an unknown kind for the seed",
    "12, a known kind for the first edge",
    "12, an unknown kind for the first edge",
    "12, a known kind for a later edge",
    "12, an unknown kind for a later edge",
    "12, a known kind after the end",
    "12, an unknown kind after the end",
    "13 at 0",
    "13 at 1",
    "13 at 2",
    "13 at 3",
    "13 at 4",
    "13 at 5",
    "13 at 6",
    "13 at 7",
    "13 behind an edge",
    "13 in an edge, two vertices missing",
    "13 in an edge, one vertex missing",
    "14, first vertex, first edge",
    "14, first vertex, later edge",
    "14, second vertex, first edge",
    "14, second vertex, later edge",
    "14, the same vertex, first edge",
    "14, the same vertex, later edge",
    "15, same order, next edge",
    "15, same order, later edge",
    "15, other order, next edge",
    "15, other order, later edge",
];

/// Names the outcome of these bytes, whose listing is given.
pub fn outcome(bytes: &[u8], listing: &str) -> String {
    let words: Vec<&str> = listing.split_whitespace().collect();
    match words[..] {
        ["refused", cause, "at", place] => {
            let place = place.parse().expect("a place");
            refusal(bytes, cause, place)
        }
        [.., "verdict", "F"] if bytes[1] == 0 => "F without a vertex".to_string(),
        [.., "verdict", "F"] => "F".to_string(),
        [.., "verdict", "O"] => "O".to_string(),
        [.., "verdict", "U"] => undecided(bytes).to_string(),
        _ => panic!("{listing:?} is no listing"),
    }
}

/// Names the outcome of a sheet with verdict U.
fn undecided(bytes: &[u8]) -> &'static str {
    let Sheet { size, edges, .. } = Sheet::read(bytes).expect("a sheet");
    if size > matchings::MOST_SEARCHED {
        "U, more than 12 vertices"
    } else if matchings::exists(size, &edges) {
        "U, with a perfect matching"
    } else {
        "U, without a perfect matching"
    }
}

fn refusal(bytes: &[u8], cause: &str, place: usize) -> String {
    match cause {
        "12" => format!("12, {} {}", known(bytes[place]), due(place)),
        "13" if place <= FIRST_EDGE => format!("13 at {place}"),
        "13" => format!("13 {}", part_of_edge(place)),
        "14" => format!("14, {}, {}", bad_vertex(bytes, place), which(place)),
        "15" => format!("15, {}", repeated(bytes, place)),
        _ => cause.to_string(),
    }
}

fn known(kind: u8) -> &'static str {
    match kind {
        1..=4 => "a known kind",
        _ => "an unknown kind",
    }
}

fn due(place: usize) -> &'static str {
    match place {
        0 => "for the size",
        2 => "for the seed",
        FIRST_EDGE => "for the first edge",
        _ => match (place - FIRST_EDGE) % EDGE_LENGTH {
            0 => "for a later edge",
            _ => "after the end",
        },
    }
}

fn part_of_edge(length: usize) -> &'static str {
    match (length - FIRST_EDGE) % EDGE_LENGTH {
        0 => "behind an edge",
        1 => "in an edge, two vertices missing",
        _ => "in an edge, one vertex missing",
    }
}

fn which(place: usize) -> &'static str {
    match place {
        FIRST_EDGE => "first edge",
        _ => "later edge",
    }
}

fn bad_vertex(bytes: &[u8], place: usize) -> &'static str {
    let (n, first) = (bytes[1], bytes[place + 1]);
    if first >= n {
        "first vertex"
    } else if first == bytes[place + 2] {
        "the same vertex"
    } else {
        "second vertex"
    }
}

/// Says which earlier record, the first of them, names the same edge.
fn repeated(bytes: &[u8], place: usize) -> String {
    let edge = &bytes[place..place + EDGE_LENGTH];
    let is_same = |other: &[u8]| other == edge || other == [2, edge[2], edge[1]];
    let earlier = bytes[FIRST_EDGE..place].chunks(EDGE_LENGTH);
    let index = earlier
        .clone()
        .position(is_same)
        .expect("an earlier record");
    let order = if bytes[FIRST_EDGE + EDGE_LENGTH * index..].starts_with(edge) {
        "same order"
    } else {
        "other order"
    };
    let next = if index + 1 == earlier.len() {
        "next edge"
    } else {
        "later edge"
    };
    format!("{order}, {next}")
}

/// How often each outcome was met.
#[derive(Default)]
pub struct Tally {
    counts: BTreeMap<String, usize>,
}

impl Tally {
    pub fn count(&mut self, outcome: String) {
        assert!(OUTCOMES.contains(&&outcome[..]), "{outcome}");
        *self.counts.entry(outcome).or_default() += 1;
    }

    pub fn add(&mut self, other: Tally) {
        for (outcome, count) in other.counts {
            *self.counts.entry(outcome).or_default() += count;
        }
    }

    pub fn of(&self, outcome: &str) -> usize {
        assert!(OUTCOMES.contains(&outcome), "{outcome}");
        self.counts.get(outcome).copied().unwrap_or(0)
    }

    pub fn total(&self) -> usize {
        self.counts.values().sum()
    }

    /// Lists the outcomes that were met less often than this.
    pub fn below(&self, count: usize) -> Vec<&'static str> {
        let rare = |outcome: &&str| self.of(outcome) < count;
        OUTCOMES.into_iter().filter(rare).collect()
    }
}
