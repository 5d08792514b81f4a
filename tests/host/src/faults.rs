//! Faults for a session, each with the cause that it must have.

mod graph;
mod inverse;
mod places;
mod sequence;

use crate::random::Random;
use crate::session::State;

/// Spoils a session. False if there is no place for the fault, and then nothing
/// is changed.
type Spoil = fn(&mut Random, &mut State) -> bool;

/// A fault of a sound session. Cause 0: the session is still sound.
pub struct Fault {
    pub name: &'static str,
    pub cause: u64,
    pub spoil: Spoil,
}

const fn fault(name: &'static str, cause: u64, spoil: Spoil) -> Fault {
    Fault { name, cause, spoil }
}

pub const FAULTS: [Fault; 43] = [
    fault("size above 96", 1, graph::large_size),
    fault("short buffer", 2, graph::short_buffer),
    fault("adjacency above 1", 3, graph::adjacency_above_one),
    fault(
        "adjacency unlike its mirror",
        3,
        graph::adjacency_unlike_mirror,
    ),
    fault("loop", 3, graph::adjacent_to_itself),
    fault("weight 0", 4, graph::weight_zero),
    fault("weight of 65521 or more", 4, graph::weight_too_large),
    fault("made above n / 2", 5, sequence::made_above_half),
    fault("made with a high bit", 5, sequence::made_with_high_bit),
    fault("made near 2^64", 5, sequence::made_near_the_end),
    fault("one pair more", 5, sequence::one_pair_more),
    fault("one pair fewer", 5, sequence::one_pair_fewer),
    fault("larger vertex first", 5, sequence::larger_first),
    fault("vertex twice in a pair", 5, sequence::twice_in_a_pair),
    fault("pair twice", 5, sequence::pair_twice),
    fault("vertex in two pairs", 5, sequence::vertex_in_two_pairs),
    fault("vertex of n or more", 5, sequence::vertex_too_large),
    fault("255 within the pairs", 5, sequence::unused_within_pairs),
    fault("pair not adjacent", 5, sequence::pair_not_adjacent),
    fault("edge of a pair removed", 5, sequence::edge_of_pair_removed),
    fault("byte after the pairs", 5, sequence::byte_after_pairs),
    fault("last byte of the sequence", 5, sequence::last_byte),
    fault("word of 65521 or more", 6, inverse::word_too_large),
    fault("word plus 65521", 6, inverse::word_plus_modulus),
    fault("word on the diagonal", 6, inverse::word_on_diagonal),
    fault("word above the diagonal", 6, inverse::word_above_diagonal),
    fault("word below the diagonal", 6, inverse::word_below_diagonal),
    fault("word and its mirror", 6, inverse::word_and_mirror),
    fault("word of a matched vertex", 6, inverse::word_of_matched),
    fault(
        "right on and above the diagonal only",
        6,
        inverse::right_above_only,
    ),
    fault(
        "right on and below the diagonal only",
        6,
        inverse::right_below_only,
    ),
    fault("transposed", 6, inverse::transposed),
    fault("all words 0", 6, inverse::all_zero),
    fault("two words exchanged", 6, inverse::words_exchanged),
    fault("inverse of one pair fewer", 6, inverse::inverse_of_fewer),
    fault("inverse of one pair more", 6, inverse::inverse_of_more),
    fault("inverse for another pair", 6, sequence::another_pair),
    fault("edge added or removed", 6, graph::edge_changed),
    fault(
        "weight of an edge changed",
        6,
        graph::weight_of_edge_changed,
    ),
    fault("two pairs exchanged", 0, sequence::pairs_exchanged),
    fault(
        "weight without an edge changed",
        0,
        graph::weight_without_edge,
    ),
    fault(
        "edge of matched vertices added",
        0,
        graph::edge_of_matched_added,
    ),
    fault("bytes past those needed", 0, graph::excess_changed),
];
