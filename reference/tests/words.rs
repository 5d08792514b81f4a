//! Document 01, "For the host": words as two bytes, low first.

use reference::words::{bytes_from_words, word_count, words_from_bytes, write_words};

#[test]
fn low_byte_first() {
    assert_eq!(words_from_bytes(&[0xF1, 0xFF, 0x01, 0x00]), [65_521, 1]);
    assert_eq!(bytes_from_words(&[65_521, 1]), [0xF1, 0xFF, 0x01, 0x00]);
}

#[test]
fn an_odd_last_byte_holds_no_word() {
    for (length, count) in [(0, 0), (1, 0), (2, 1), (3, 1), (4, 2), (5, 2)] {
        let bytes = vec![1; length];
        assert_eq!(word_count(&bytes), count);
        assert_eq!(words_from_bytes(&bytes), vec![257; count]);
    }
}

#[test]
fn bytes_past_the_words_are_not_written() {
    let mut bytes = [9; 5];
    write_words(&[0x0201], &mut bytes);
    assert_eq!(bytes, [1, 2, 9, 9, 9]);
    write_words(&[0x0403, 0x0605, 0x0807], &mut bytes);
    assert_eq!(bytes, [3, 4, 5, 6, 9]);
}

#[test]
fn every_word_comes_back() {
    let words: Vec<u16> = (0..=u16::MAX).collect();
    assert_eq!(words_from_bytes(&bytes_from_words(&words)), words);
}
