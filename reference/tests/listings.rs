//! Document 01, "Listing", and document 02, request 3: whole outputs.

mod common;

use common::records;
use reference::listing::listing;

const LISTED: [u8; 17] = [
    0x01, 0x04, 0x03, 0x00, 0x00, 0x00, 0x00, 0x02, 0x00, 0x01, 0x02, 0x00, 0x02, 0x02, 0x01, 0x03,
    0x04,
];

#[test]
fn listed_input_gives_the_listed_output() {
    let expected = "sleeves 4 links 3\npair 0 2\npair 1 3\nverdict F\n";
    assert_eq!(listing(&LISTED), expected);
}

#[test]
fn empty_input_is_refused() {
    assert_eq!(listing(&[]), "refused 13 at 0\n");
}

#[test]
fn every_cut_of_the_listed_input_stops_at_its_length() {
    for length in 0..LISTED.len() {
        let expected = format!("refused 13 at {length}\n");
        assert_eq!(listing(&LISTED[..length]), expected);
    }
}

#[test]
fn no_vertices_have_a_perfect_matching() {
    let expected = "sleeves 0 links 0\nverdict F\n";
    assert_eq!(listing(&records(0, 7, &[])), expected);
}

#[test]
fn one_vertex_has_a_witness() {
    let expected = "sleeves 1 links 0\nwitness 0 1\nverdict O\n";
    assert_eq!(listing(&records(1, 7, &[])), expected);
}

#[test]
fn path_of_three_has_a_witness_of_two_words() {
    let expected = "sleeves 3 links 2\nwitness 0 13128\nwitness 2 1\nverdict O\n";
    assert_eq!(listing(&records(3, 0, &[(0, 1), (1, 2)])), expected);
}

#[test]
fn two_vertices_without_an_edge_are_undecided() {
    let expected = "sleeves 2 links 0\nwitness 0 1\nverdict U\n";
    assert_eq!(listing(&records(2, 7, &[])), expected);
}

#[test]
fn zero_words_of_a_witness_are_passed_over() {
    let expected = "sleeves 4 links 1\nwitness 0 1\nverdict U\n";
    assert_eq!(listing(&records(4, 0, &[(2, 3)])), expected);
}

#[test]
fn cancelling_ring_has_a_witness_although_it_has_a_perfect_matching() {
    let edges = [(0, 1), (1, 2), (2, 3), (3, 0)];
    let expected = "sleeves 4 links 4\nwitness 0 45208\nwitness 2 1\nverdict U\n";
    assert_eq!(listing(&records(4, 247_978, &edges)), expected);
    let other_seed = listing(&records(4, 0, &edges));
    assert_eq!(
        other_seed,
        "sleeves 4 links 4\npair 0 1\npair 2 3\nverdict F\n"
    );
}

#[test]
fn vertices_of_an_edge_record_may_stand_in_either_order() {
    let ascending = listing(&records(4, 3, &[(0, 1), (0, 2), (1, 3)]));
    let mixed = listing(&records(4, 3, &[(1, 0), (2, 0), (3, 1)]));
    assert_eq!(ascending, mixed);
}

#[test]
fn largest_good_input() {
    let mut edges = Vec::new();
    for i in 0..96 {
        for j in i + 1..96 {
            edges.push((i, j));
        }
    }
    let bytes = records(96, 1, &edges);
    assert_eq!(bytes.len(), 13_688);
    let text = listing(&bytes);
    assert!(text.starts_with("sleeves 96 links 4560\npair 0 1\n"));
    assert!(text.ends_with("\nverdict F\n"));
    assert_eq!(text.lines().count(), 1 + 48 + 1);
}

#[test]
fn refusals_print_one_line() {
    assert_eq!(listing(&[1, 97]), "refused 1 at 0\n");
    assert_eq!(listing(&[9]), "refused 12 at 0\n");
    assert_eq!(listing(&records(2, 0, &[(0, 2)])), "refused 14 at 7\n");
    let twice = records(2, 0, &[(0, 1), (1, 0)]);
    assert_eq!(listing(&twice), "refused 15 at 10\n");
    let mut after_end = records(2, 0, &[(0, 1)]);
    after_end.push(4);
    assert_eq!(listing(&after_end), "refused 12 at 11\n");
}
