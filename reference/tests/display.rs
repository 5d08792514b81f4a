//! Document 01, "Opening", last paragraph: the part that is shown.

mod common;

use common::*;
use reference::display::displayed_part;

/// Tells whether a part is the beginning of a buffer.
fn is_start_of(part: &[u16], buffer: &[u16], length: usize) -> bool {
    part.as_ptr() == buffer.as_ptr() && part.len() == length
}

#[test]
fn inverse_is_shown_after_opening() {
    let mut buffers = Buffers::complete(4);
    buffers.opened(4);
    let part = displayed_part(4, &buffers.inverse, &buffers.witness);
    assert!(is_start_of(part, &buffers.inverse, 16));
}

#[test]
fn witness_is_shown_for_a_singular_matrix() {
    let mut buffers = Buffers::new(3, &[(0, 1), (1, 2)]);
    buffers.open(3).expect("accepted");
    let part = displayed_part(3, &buffers.inverse, &buffers.witness);
    assert!(is_start_of(part, &buffers.witness, 3));
    assert_eq!(part, [1, 0, 1]);
}

#[test]
fn only_the_first_n_words_of_the_witness_decide() {
    let inverse = [7; 5];
    let witness = [0, 0, 9];
    assert!(is_start_of(
        displayed_part(2, &inverse, &witness),
        &inverse,
        4
    ));
    let witness = [0, 65_535, 0];
    assert!(is_start_of(
        displayed_part(2, &inverse, &witness),
        &witness,
        2
    ));
}

#[test]
fn either_buffer_short_gives_the_empty_part_of_the_inverse() {
    let inverse = [7; 4];
    let witness = [1, 1];
    assert!(is_start_of(
        displayed_part(2, &inverse[..3], &witness),
        &inverse,
        0
    ));
    assert!(is_start_of(
        displayed_part(2, &inverse, &witness[..1]),
        &inverse,
        0
    ));
}

#[test]
fn sizes_above_the_limit_give_the_empty_part_of_the_inverse() {
    let inverse = [7; 10_000];
    let witness = [1; 100];
    for size in [97, 100, 1 << 32, (1 << 32) + 2, u64::MAX] {
        assert!(is_start_of(
            displayed_part(size, &inverse, &witness),
            &inverse,
            0
        ));
    }
    assert!(is_start_of(
        displayed_part(96, &inverse, &witness),
        &witness,
        96
    ));
}

#[test]
fn no_vertices_show_the_empty_part_of_the_inverse() {
    let inverse = [7, 7];
    assert!(is_start_of(displayed_part(0, &inverse, &[1]), &inverse, 0));
    assert!(displayed_part(0, &[], &[]).is_empty());
}
