//! Words as two bytes, low first (document 01, "For the host").

/// Counts the words of a byte slice: half its length, rounded down.
pub fn word_count(bytes: &[u8]) -> usize {
    bytes.len() / 2
}

/// Unpacks the words of a byte slice. Leaves out an odd last byte.
pub fn words_from_bytes(bytes: &[u8]) -> Vec<u16> {
    bytes
        .chunks_exact(2)
        .map(|pair| u16::from_le_bytes([pair[0], pair[1]]))
        .collect()
}

/// Packs words into bytes.
pub fn bytes_from_words(words: &[u16]) -> Vec<u8> {
    words.iter().flat_map(|word| word.to_le_bytes()).collect()
}

/// Writes words at the start of a byte slice, up to its last whole word. Leaves
/// the bytes past them, and an odd last byte, as they are.
pub fn write_words(words: &[u16], bytes: &mut [u8]) {
    for (pair, word) in bytes.chunks_exact_mut(2).zip(words) {
        pair.copy_from_slice(&word.to_le_bytes());
    }
}
