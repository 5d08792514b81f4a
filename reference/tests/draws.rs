//! Document 01, "Draw roll".

use reference::draws::{fill_weights, next_state, weight_of, weights};
use reference::numbers::draws_number;

#[test]
fn printed_numbers_of_seed_0() {
    assert_eq!(next_state(0), 1_013_904_223);
    assert_eq!(next_state(1_013_904_223), 1_196_435_762);
    assert_eq!(weight_of(1_013_904_223), 15_471);
    assert_eq!(weight_of(1_196_435_762), 18_257);
    assert_eq!(weights(0).take(2).collect::<Vec<_>>(), [15_471, 18_257]);
}

#[test]
fn more_numbers_of_seed_0() {
    let expected = [15471, 18257, 53709, 43770, 25171, 40751, 22527, 41946];
    assert_eq!(weights(0).take(8).collect::<Vec<_>>(), expected);
}

#[test]
fn the_first_weight_comes_from_the_state_after_the_seed() {
    assert_eq!(weights(1_013_904_223).next(), Some(18_257));
}

#[test]
fn the_state_wraps_at_2_to_the_32() {
    for state in [0, 1, 2580, 65_536, 1 << 31, u32::MAX - 1, u32::MAX] {
        let expected = 1_664_525u32.wrapping_mul(state).wrapping_add(1_013_904_223);
        assert_eq!(next_state(state), expected);
    }
}

#[test]
fn high_halves_at_the_upper_end() {
    for low_half in [0, 1, 65_535] {
        assert_eq!(weight_of(65_519 << 16 | low_half), 65_520);
        for high_half in 65_520..=65_535u32 {
            let expected = (high_half - 65_519) as u16;
            assert_eq!(weight_of(high_half << 16 | low_half), expected);
        }
    }
}

#[test]
fn every_high_half_gives_a_weight_in_range() {
    for high_half in 0..=65_535u32 {
        assert!((1..=65_520).contains(&weight_of(high_half << 16)));
    }
    assert_eq!(weight_of(0), 1);
}

#[test]
fn weights_of_a_graph_are_filled() {
    let mut words = [7; 8];
    let answer = fill_weights(4, 0, &mut words);
    assert_eq!(words, [15471, 18257, 53709, 43770, 25171, 40751, 7, 7]);
    assert_eq!(draws_number(answer), 0x0006_0700);
    for size in [0, 1] {
        assert_eq!(draws_number(fill_weights(size, 9, &mut [])), 0x700);
    }
    let mut most = vec![0; 4560];
    assert_eq!(draws_number(fill_weights(96, 1, &mut most)), 0x11d0_0700);
    assert_eq!(Some(most[4559]), weights(1).nth(4559));
}

#[test]
fn a_size_above_96_comes_before_too_few_words() {
    let mut words = [7; 5];
    assert_eq!(draws_number(fill_weights(4, 0, &mut words)), 0x0002_0002);
    for size in [97, 256, 1 << 32, u64::MAX] {
        assert_eq!(draws_number(fill_weights(size, 0, &mut words)), 1);
        assert_eq!(draws_number(fill_weights(size, 0, &mut [])), 1);
    }
    assert_eq!(words, [7; 5]);
}
