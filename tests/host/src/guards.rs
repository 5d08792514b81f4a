//! A buffer between guards, and what it must hold after a call.

use crate::random::Random;
use std::fmt::Display;

const GUARD: usize = 24;

/// A buffer between random guards. The one before it has an odd or an even
/// length.
pub struct Guarded<T> {
    found: Vec<T>,
    wanted: Vec<T>,
    start: usize,
    end: usize,
}

impl<T: Copy + PartialEq + Display> Guarded<T> {
    /// Guards a buffer, given as it is before a call and as it must be after it.
    pub fn new(
        random: &mut Random,
        before: &[T],
        after: &[T],
        guard: impl Fn(&mut Random) -> T,
    ) -> Guarded<T> {
        let length = GUARD + random.below(2);
        let front: Vec<T> = (0..length).map(|_| guard(random)).collect();
        let back: Vec<T> = (0..GUARD).map(|_| guard(random)).collect();
        Guarded {
            found: [&front, before, &back].concat(),
            wanted: [&front, after, &back].concat(),
            start: length,
            end: length + before.len(),
        }
    }

    pub fn values(&mut self) -> &mut [T] {
        &mut self.found[self.start..self.end]
    }

    /// Compares every value and the guards.
    pub fn compare(&self, buffer: &str, name: &str) {
        if self.found == self.wanted {
            return;
        }
        let differs = |&i: &usize| self.found[i] != self.wanted[i];
        let at = (0..self.found.len())
            .find(differs)
            .expect("equal lengths differ somewhere");
        panic!(
            "{buffer} of {name}: {} at {} instead of {}",
            self.found[at],
            at as isize - self.start as isize,
            self.wanted[at]
        );
    }
}
