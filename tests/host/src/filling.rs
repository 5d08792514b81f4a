//! A call that fills a graph from a sheet or a text, or its weights from a seed,
//! and what it must write.

use crate::entry;
use crate::guards::Guarded;
use crate::random::Random;
use reference::dimacs::read_dimacs;
use reference::draws::fill_weights;
use reference::listing::INPUT_LIMIT;
use reference::numbers::{draws_number, read_number, LAST_PLACE};
use reference::records::read_graph;
use reference::words::{words_from_bytes, write_words};

/// What is read.
#[derive(Clone, Debug, PartialEq, Eq)]
pub enum Source {
    Sheet(Vec<u8>),
    /// A text in the DIMACS edge format, with a seed beside it.
    Text {
        bytes: Vec<u8>,
        seed: u32,
    },
    Seed {
        n: u64,
        seed: u32,
    },
}

/// A source, and the buffers to be filled. A seed fills only the weights.
#[derive(Clone, Debug, PartialEq, Eq)]
pub struct Filling {
    pub source: Source,
    pub adjacency: Vec<u8>,
    pub weights: Vec<u8>,
}

/// A call with its name, the number expected, and all buffers after the call.
pub struct FillingCase {
    pub name: String,
    pub call: Filling,
    pub number: u64,
    pub after: Filling,
}

impl Filling {
    /// Returns the bytes that are read, none for a seed.
    pub fn source_bytes(&self) -> &[u8] {
        match &self.source {
            Source::Sheet(bytes) | Source::Text { bytes, .. } => bytes,
            Source::Seed { .. } => &[],
        }
    }

    /// Lists all buffers with their names.
    pub fn buffers(&self) -> [(&'static str, &[u8]); 3] {
        [
            ("source", self.source_bytes()),
            ("adjacency", &self.adjacency),
            ("weights", &self.weights),
        ]
    }

    fn run_by_reference(&mut self) -> u64 {
        let mut words = words_from_bytes(&self.weights);
        let number = match &self.source {
            Source::Sheet(sheet) => {
                let sheet = &sheet[..sheet.len().min(INPUT_LIMIT)];
                read_number(read_graph(sheet, &mut self.adjacency, &mut words))
            }
            Source::Text { bytes, seed } => {
                read_number(read_dimacs(bytes, *seed, &mut self.adjacency, &mut words))
            }
            Source::Seed { n, seed } => draws_number(fill_weights(*n, *seed, &mut words)),
        };
        write_words(&words, &mut self.weights);
        number
    }
}

impl FillingCase {
    pub fn new(name: String, call: Filling) -> FillingCase {
        let mut after = call.clone();
        let number = after.run_by_reference();
        FillingCase {
            name,
            call,
            number,
            after,
        }
    }

    pub fn cause(&self) -> u64 {
        self.number & 0xFF
    }

    /// Returns the place of a refusal.
    pub fn place(&self) -> u64 {
        self.number >> 16 & LAST_PLACE
    }

    /// Runs the call with its buffers between guards and compares the number and
    /// every byte.
    pub fn check(&self, random: &mut Random) {
        let byte = |random: &mut Random| random.number() as u8;
        let (before, after) = (self.call.buffers(), self.after.buffers());
        let mut guarded = [0, 1, 2].map(|b| Guarded::new(random, before[b].1, after[b].1, byte));
        let [source, adjacency, weights] = guarded.each_mut().map(Guarded::values);

        let number = match self.call.source {
            Source::Sheet(_) => entry::read(source, adjacency, weights),
            Source::Text { seed, .. } => entry::read_dimacs(source, seed, adjacency, weights),
            Source::Seed { n, seed } => entry::draw(n, seed, weights),
        };

        assert_eq!(number, self.number, "number of {}", self.name);
        for (guarded, (buffer, _)) in guarded.iter().zip(before) {
            guarded.compare(buffer, &self.name);
        }
    }
}
