//! Document 01, "Causes, numbers, and what is untouched": opening, 1 to 4.

mod common;

use common::*;

const HOSTILE_SIZES: [u64; 6] = [97, 98, 255, 256, 1 << 32, u64::MAX];

#[test]
fn size_above_96() {
    for size in HOSTILE_SIZES {
        assert_eq!(Buffers::complete(4).opening_refused(size), (1, 0));
        assert_eq!(Buffers::new(0, &[]).opening_refused(size), (1, 0));
    }
}

#[test]
fn each_short_buffer_in_the_order_of_its_number() {
    let shorten: [fn(&mut Buffers); 6] = [
        |buffers| buffers.adjacency.truncate(15),
        |buffers| buffers.weights.truncate(5),
        |buffers| buffers.inverse.truncate(15),
        |buffers| buffers.sequence.truncate(3),
        |buffers| buffers.witness.truncate(3),
        |buffers| buffers.work.truncate(15),
    ];
    for (index, shorten_one) in shorten.iter().enumerate() {
        let mut buffers = Buffers::complete(4);
        shorten_one(&mut buffers);
        assert_eq!(buffers.opening_refused(4), (2, 1 + index as u64));
        for shorten_later in &shorten[index..] {
            shorten_later(&mut buffers);
            assert_eq!(buffers.opening_refused(4), (2, 1 + index as u64));
        }
    }
}

#[test]
fn a_row_is_not_lent_to_opening() {
    let mut buffers = Buffers::complete(4);
    buffers.row.clear();
    buffers.opened(4);
}

#[test]
fn adjacency_entry_not_0_or_1() {
    let mut buffers = Buffers::complete(3);
    buffers.adjacency[1] = 2;
    buffers.adjacency[3] = 2;
    assert_eq!(buffers.opening_refused(3), cell(0, 1, 1));
}

#[test]
fn adjacency_diagonal_not_0() {
    let mut buffers = Buffers::complete(3);
    buffers.adjacency[4] = 1;
    assert_eq!(buffers.opening_refused(3), cell(1, 1, 2));
    buffers.adjacency[4] = 255;
    assert_eq!(buffers.opening_refused(3), cell(1, 1, 1));
    buffers.adjacency[0] = 1;
    assert_eq!(buffers.opening_refused(3), cell(0, 0, 2));
}

#[test]
fn a_fault_below_the_diagonal_is_found_at_its_mirror() {
    let mut buffers = Buffers::new(3, &[]);
    buffers.adjacency[3] = 2;
    assert_eq!(buffers.opening_refused(3), cell(0, 1, 3));
    let mut buffers = Buffers::complete(3);
    buffers.adjacency[7] = 0;
    assert_eq!(buffers.opening_refused(3), cell(1, 2, 3));
}

#[test]
fn the_first_adjacency_fault_row_by_row() {
    let mut buffers = Buffers::complete(4);
    buffers.adjacency[15] = 1;
    assert_eq!(buffers.opening_refused(4), cell(3, 3, 2));
    buffers.adjacency[11] = 0;
    assert_eq!(buffers.opening_refused(4), cell(2, 3, 3));
    buffers.adjacency[12] = 7;
    assert_eq!(buffers.opening_refused(4), cell(0, 3, 3));
}

#[test]
fn last_cell_of_the_largest_table() {
    let mut buffers = Buffers::complete(96);
    buffers.adjacency[9215] = 1;
    assert_eq!(buffers.opening_refused(96), cell(95, 95, 2));
}

#[test]
fn weights_out_of_range() {
    for weight in [0, 65_521, 65_535] {
        for index in 0..6 {
            let mut buffers = Buffers::complete(4);
            buffers.weights[index] = weight;
            assert_eq!(buffers.opening_refused(4), (4, index as u64));
            buffers.weights[5] = weight;
            assert_eq!(buffers.opening_refused(4), (4, index as u64));
        }
    }
}

#[test]
fn weights_without_an_edge_are_checked() {
    let mut buffers = Buffers::new(4, &[(0, 1), (2, 3)]);
    buffers.weights[2] = 0;
    assert_eq!(buffers.opening_refused(4), (4, 2));
}

#[test]
fn the_lowest_cause_is_returned() {
    let mut buffers = Buffers::complete(4);
    buffers.weights[0] = 0;
    assert_eq!(buffers.opening_refused(4), (4, 0));
    buffers.adjacency[15] = 1;
    assert_eq!(buffers.opening_refused(4), cell(3, 3, 2));
    buffers.work.truncate(15);
    assert_eq!(buffers.opening_refused(4), (2, 6));
    assert_eq!(buffers.opening_refused(97), (1, 0));
}

#[test]
fn faults_in_the_excess_are_not_looked_at() {
    let mut buffers = Buffers::complete(4);
    buffers.adjacency.extend([9, 9]);
    buffers.weights.extend([0, 65_535]);
    buffers.opened(4);
}

#[test]
fn accepted_openings_write_all_and_nothing_past_it() {
    let mut random = Random(1);
    for n in 0..8 {
        for _ in 0..40 {
            let exact = Buffers::random(&mut random, n);
            let mut long = exact.clone().with_excess(&mut random);
            let before = long.clone();
            let mut exact = exact;
            let answer = exact.open(n as u64);
            assert_eq!(long.open(n as u64), answer);
            let mut expected = before;
            expected.inverse[..n * n].copy_from_slice(&exact.inverse);
            expected.sequence[..n].copy_from_slice(&exact.sequence);
            expected.witness[..n].copy_from_slice(&exact.witness);
            expected.work[..n * n].copy_from_slice(&exact.work);
            assert_eq!(long, expected);
            assert_eq!(exact.sequence, vec![255; n]);
            assert_eq!(exact.work, vec![0; n * n]);
        }
    }
}
