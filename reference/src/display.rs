//! The part of a buffer that is shown (document 01, "Opening", last paragraph).

use crate::graph::checked_size;

/// Returns the first n words of the witness if any of them is not 0, else the
/// first n times n of the inverse. Returns the empty part at the start of the
/// inverse if the size is above 96 or either buffer is too short.
pub fn displayed_part<'a>(size: u64, inverse: &'a [u16], witness: &'a [u16]) -> &'a [u16] {
    let empty = &inverse[..0];
    let Ok(n) = checked_size(size) else {
        return empty;
    };
    if inverse.len() < n * n || witness.len() < n {
        return empty;
    }
    if witness[..n].iter().any(|&word| word != 0) {
        &witness[..n]
    } else {
        &inverse[..n * n]
    }
}
