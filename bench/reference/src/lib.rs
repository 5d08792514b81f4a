//! The opening of the reference as a C function.

use reference::opening::{self, Opening};
use reference::words::{words_from_bytes, write_words};
use std::slice::from_raw_parts_mut;

/// A buffer of length bytes.
#[repr(C)]
pub struct Buffer {
    bytes: *mut u8,
    length: usize,
}

/// Opens a graph of n vertices. The buffers are those of the C entry, in its
/// order; the first two are only read.
///
/// # Safety
///
/// Each buffer's pointer with its length is a slice that nothing else uses
/// during the call; no two of them overlap.
#[no_mangle]
pub unsafe extern "C" fn reference_open(n: u64, buffers: &[Buffer; 6]) -> u64 {
    let [adjacency, weights, inverse, sequence, witness, work] = buffers
        .each_ref()
        .map(|buffer| from_raw_parts_mut(buffer.bytes, buffer.length));
    let mut inverse_words = words_from_bytes(inverse);
    let mut witness_words = words_from_bytes(witness);
    let mut work_words = words_from_bytes(work);
    let answer = opening::open(
        n,
        adjacency,
        &words_from_bytes(weights),
        &mut inverse_words,
        sequence,
        &mut witness_words,
        &mut work_words,
    );
    write_words(&inverse_words, inverse);
    write_words(&witness_words, witness);
    write_words(&work_words, work);
    match answer {
        Ok(Opening::Opened(_)) => 1 << 8,
        Ok(Opening::Singular { column }) => 2 << 8 | column << 16,
        Err(refusal) => {
            let (cause, place) = refusal.numbers();
            u64::from(cause) | place << 16
        }
    }
}
