//! How often session calls and texts had which outcome.

use crate::filling::FillingCase;
use crate::session::SessionCase;

/// Entries 1 to 5, causes 0 to 13: 0 is carried out.
#[derive(Default)]
pub struct SessionTally {
    counts: [[usize; 14]; 6],
    /// Counts of cause 2, by its place.
    pub short: [usize; 11],
    /// Counts of cause 3, by the cell's fault.
    pub cells: [usize; 4],
}

impl SessionTally {
    pub fn count(&mut self, case: &SessionCase) {
        let (entry, cause) = (case.call.request.entry(), case.cause());
        self.counts[entry as usize][cause as usize] += 1;
        match cause {
            2 => self.short[(case.number >> 16) as usize] += 1,
            3 => self.cells[(case.number >> 32) as usize] += 1,
            _ => {}
        }
    }

    pub fn add(&mut self, other: &SessionTally) {
        for (counts, others) in self.counts.iter_mut().zip(&other.counts) {
            for (count, other) in counts.iter_mut().zip(others) {
                *count += other;
            }
        }
        for (count, other) in self.short.iter_mut().zip(&other.short) {
            *count += other;
        }
        for (count, other) in self.cells.iter_mut().zip(&other.cells) {
            *count += other;
        }
    }

    pub fn total(&self) -> usize {
        self.counts.iter().flatten().sum()
    }

    /// Counts the calls of all entries that had a cause, or were carried out for 0.
    pub fn of_cause(&self, cause: usize) -> usize {
        self.counts.iter().map(|counts| counts[cause]).sum()
    }

    /// Counts the calls of an entry that had a cause.
    pub fn of(&self, entry: usize, cause: usize) -> usize {
        self.counts[entry][cause]
    }

    pub fn print(&self, name: &str) {
        let causes: Vec<usize> = (1..14).map(|cause| self.of_cause(cause)).collect();
        println!(
            "{name}: {} calls: {} carried out, refused with 1 to 13: {causes:?}",
            self.total(),
            self.of_cause(0)
        );
    }
}

/// Causes 0 to 17 of texts: 0 is read.
#[derive(Debug, Default)]
pub struct TextTally([usize; 18]);

impl TextTally {
    pub fn count(&mut self, case: &FillingCase) {
        self.0[case.cause() as usize] += 1;
    }

    pub fn add(&mut self, other: &TextTally) {
        for (count, other) in self.0.iter_mut().zip(other.0) {
            *count += other;
        }
    }

    /// Counts the texts that had a cause, or were read for 0.
    pub fn of_cause(&self, cause: usize) -> usize {
        self.0[cause]
    }

    pub fn print(&self, name: &str) {
        let [read, refused @ ..] = &self.0;
        println!(
            "{name}: {} texts: {read} read, refused with 1 to 17: {refused:?}",
            self.0.iter().sum::<usize>()
        );
    }
}
