//! The C entries of the library as safe functions.

extern "C" {
    fn saszvigom_open(
        n: u64,
        adjacency: *const u8,
        adjacency_len: usize,
        weights: *const u8,
        weights_len: usize,
        inverse: *mut u8,
        inverse_len: usize,
        sequence: *mut u8,
        sequence_len: usize,
        witness: *mut u8,
        witness_len: usize,
        work: *mut u8,
        work_len: usize,
    ) -> u64;

    fn saszvigom_pick(
        n: u64,
        made: u64,
        a: u64,
        b: u64,
        adjacency: *const u8,
        adjacency_len: usize,
        weights: *const u8,
        weights_len: usize,
        inverse: *mut u8,
        inverse_len: usize,
        sequence: *mut u8,
        sequence_len: usize,
    ) -> u64;

    fn saszvigom_automatic(
        n: u64,
        made: u64,
        adjacency: *const u8,
        adjacency_len: usize,
        weights: *const u8,
        weights_len: usize,
        inverse: *mut u8,
        inverse_len: usize,
        sequence: *mut u8,
        sequence_len: usize,
    ) -> u64;

    fn saszvigom_undo(
        n: u64,
        made: u64,
        adjacency: *const u8,
        adjacency_len: usize,
        weights: *const u8,
        weights_len: usize,
        inverse: *mut u8,
        inverse_len: usize,
        sequence: *mut u8,
        sequence_len: usize,
    ) -> u64;

    fn saszvigom_row(
        n: u64,
        made: u64,
        a: u64,
        adjacency: *const u8,
        adjacency_len: usize,
        weights: *const u8,
        weights_len: usize,
        inverse: *const u8,
        inverse_len: usize,
        sequence: *const u8,
        sequence_len: usize,
        row: *mut u8,
        row_len: usize,
    ) -> u64;

    fn saszvigom_replay(
        n: u64,
        made: u64,
        adjacency: *const u8,
        adjacency_len: usize,
        weights: *const u8,
        weights_len: usize,
        inverse: *mut u8,
        inverse_len: usize,
        sequence: *mut u8,
        sequence_len: usize,
        calls: *const u64,
        calls_len: usize,
        answers: *mut u64,
        answers_len: usize,
    ) -> u64;

    fn saszvigom_read(
        sheet: *const u8,
        sheet_len: usize,
        adjacency: *mut u8,
        adjacency_len: usize,
        weights: *mut u8,
        weights_len: usize,
    ) -> u64;

    fn saszvigom_read_dimacs(
        text: *const u8,
        text_len: usize,
        seed: u32,
        adjacency: *mut u8,
        adjacency_len: usize,
        weights: *mut u8,
        weights_len: usize,
    ) -> u64;

    fn saszvigom_draws(n: u64, seed: u32, weights: *mut u8, weights_len: usize) -> u64;
}

/// The buffers that opening writes.
pub struct Written<'a> {
    pub inverse: &'a mut [u8],
    pub sequence: &'a mut [u8],
    pub witness: &'a mut [u8],
    pub work: &'a mut [u8],
}

/// Opens a graph. Words are two bytes, low first.
pub fn open(n: u64, adjacency: &[u8], weights: &[u8], written: Written) -> u64 {
    let Written {
        inverse,
        sequence,
        witness,
        work,
    } = written;
    // SAFETY: each pointer with its length is a slice that is borrowed for the
    // call; those written are borrowed mutably, so no two overlap them.
    unsafe {
        saszvigom_open(
            n,
            adjacency.as_ptr(),
            adjacency.len(),
            weights.as_ptr(),
            weights.len(),
            inverse.as_mut_ptr(),
            inverse.len(),
            sequence.as_mut_ptr(),
            sequence.len(),
            witness.as_mut_ptr(),
            witness.len(),
            work.as_mut_ptr(),
            work.len(),
        )
    }
}

/// What every session call is lent.
pub struct Lent<'a> {
    pub n: u64,
    pub made: u64,
    pub adjacency: &'a [u8],
    pub weights: &'a [u8],
    pub inverse: &'a mut [u8],
    pub sequence: &'a mut [u8],
}

/// Picks two vertices.
pub fn pick(lent: Lent, a: u64, b: u64) -> u64 {
    // SAFETY: as for opening.
    unsafe {
        saszvigom_pick(
            lent.n,
            lent.made,
            a,
            b,
            lent.adjacency.as_ptr(),
            lent.adjacency.len(),
            lent.weights.as_ptr(),
            lent.weights.len(),
            lent.inverse.as_mut_ptr(),
            lent.inverse.len(),
            lent.sequence.as_mut_ptr(),
            lent.sequence.len(),
        )
    }
}

/// Picks the lowest unmatched vertex and its lowest partner.
pub fn automatic(lent: Lent) -> u64 {
    // SAFETY: as for opening.
    unsafe {
        saszvigom_automatic(
            lent.n,
            lent.made,
            lent.adjacency.as_ptr(),
            lent.adjacency.len(),
            lent.weights.as_ptr(),
            lent.weights.len(),
            lent.inverse.as_mut_ptr(),
            lent.inverse.len(),
            lent.sequence.as_mut_ptr(),
            lent.sequence.len(),
        )
    }
}

/// Undoes the last pair.
pub fn undo(lent: Lent) -> u64 {
    // SAFETY: as for opening.
    unsafe {
        saszvigom_undo(
            lent.n,
            lent.made,
            lent.adjacency.as_ptr(),
            lent.adjacency.len(),
            lent.weights.as_ptr(),
            lent.weights.len(),
            lent.inverse.as_mut_ptr(),
            lent.inverse.len(),
            lent.sequence.as_mut_ptr(),
            lent.sequence.len(),
        )
    }
}

/// Writes the row of a vertex: which vertices may be matched with it.
pub fn row(lent: Lent, a: u64, row: &mut [u8]) -> u64 {
    // SAFETY: as for opening.
    unsafe {
        saszvigom_row(
            lent.n,
            lent.made,
            a,
            lent.adjacency.as_ptr(),
            lent.adjacency.len(),
            lent.weights.as_ptr(),
            lent.weights.len(),
            lent.inverse.as_ptr(),
            lent.inverse.len(),
            lent.sequence.as_ptr(),
            lent.sequence.len(),
            row.as_mut_ptr(),
            row.len(),
        )
    }
}

/// Replays a list of calls, three numbers a call, and writes their answers.
pub fn replay(lent: Lent, calls: &[u64], answers: &mut [u64]) -> u64 {
    // SAFETY: as for opening; slices of numbers are aligned.
    unsafe {
        saszvigom_replay(
            lent.n,
            lent.made,
            lent.adjacency.as_ptr(),
            lent.adjacency.len(),
            lent.weights.as_ptr(),
            lent.weights.len(),
            lent.inverse.as_mut_ptr(),
            lent.inverse.len(),
            lent.sequence.as_mut_ptr(),
            lent.sequence.len(),
            calls.as_ptr(),
            calls.len(),
            answers.as_mut_ptr(),
            answers.len(),
        )
    }
}

/// Reads a sheet into an adjacency table and weights.
pub fn read(sheet: &[u8], adjacency: &mut [u8], weights: &mut [u8]) -> u64 {
    // SAFETY: as for opening.
    unsafe {
        saszvigom_read(
            sheet.as_ptr(),
            sheet.len(),
            adjacency.as_mut_ptr(),
            adjacency.len(),
            weights.as_mut_ptr(),
            weights.len(),
        )
    }
}

/// Reads a text in the DIMACS edge format into an adjacency table, and draws the
/// weights from a seed.
pub fn read_dimacs(text: &[u8], seed: u32, adjacency: &mut [u8], weights: &mut [u8]) -> u64 {
    // SAFETY: as for opening.
    unsafe {
        saszvigom_read_dimacs(
            text.as_ptr(),
            text.len(),
            seed,
            adjacency.as_mut_ptr(),
            adjacency.len(),
            weights.as_mut_ptr(),
            weights.len(),
        )
    }
}

/// Draws the weights of n vertices.
pub fn draw(n: u64, seed: u32, weights: &mut [u8]) -> u64 {
    // SAFETY: as for opening.
    unsafe { saszvigom_draws(n, seed, weights.as_mut_ptr(), weights.len()) }
}
