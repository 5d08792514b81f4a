//! A sheet that is in order.

use crate::random::Random;

/// Size, seed and edges, with the vertices of an edge in the order of the bytes.
#[derive(Clone, Debug, PartialEq, Eq)]
pub struct Sheet {
    pub size: u8,
    pub seed: u32,
    pub edges: Vec<(u8, u8)>,
}

/// Where the first edge record stands, and the length of one.
pub const FIRST_EDGE: usize = 7;
pub const EDGE_LENGTH: usize = 3;

impl Sheet {
    /// Makes the sheet that document 01 lists.
    pub fn listed() -> Sheet {
        Sheet {
            size: 4,
            seed: 0,
            edges: vec![(0, 1), (0, 2), (1, 3)],
        }
    }

    /// Reads the bytes of a sheet: size, seed, edges, end. Does not judge the size and
    /// the vertices.
    pub fn read(bytes: &[u8]) -> Option<Sheet> {
        let &[1, size, 3, a, b, c, d, ref records @ .., 4] = bytes else {
            return None;
        };
        let edge = |record: &[u8]| match record {
            &[2, i, j] => Some((i, j)),
            _ => None,
        };
        let edges: Option<_> = records.chunks(EDGE_LENGTH).map(edge).collect();
        Some(Sheet {
            size,
            seed: u32::from_le_bytes([a, b, c, d]),
            edges: edges?,
        })
    }

    pub fn has_edge(&self, i: u8, j: u8) -> bool {
        self.edges.contains(&(i, j)) || self.edges.contains(&(j, i))
    }

    /// Makes a sheet of n vertices, all adjacent.
    pub fn complete(size: u8, seed: u32) -> Sheet {
        let edges = (0..size).flat_map(|i| (i + 1..size).map(move |j| (i, j)));
        Sheet {
            size,
            seed,
            edges: edges.collect(),
        }
    }

    /// Shuffles the edges, each with either vertex first.
    pub fn shuffled(&self, random: &mut Random) -> Sheet {
        let turned = |&(i, j): &(u8, u8), turn: bool| if turn { (j, i) } else { (i, j) };
        let order = random.permutation(self.edges.len());
        let edges = order
            .into_iter()
            .map(|index| turned(&self.edges[index], random.percent(50)));
        Sheet {
            edges: edges.collect(),
            ..*self
        }
    }

    pub fn bytes(&self) -> Vec<u8> {
        let mut bytes = vec![1, self.size, 3];
        bytes.extend(self.seed.to_le_bytes());
        for &(i, j) in &self.edges {
            bytes.extend([2, i, j]);
        }
        bytes.push(4);
        bytes
    }

    /// Lists the offset of every record, and the length.
    pub fn offsets(&self) -> Vec<usize> {
        let edges = (0..=self.edges.len()).map(|index| FIRST_EDGE + EDGE_LENGTH * index);
        let mut offsets = vec![0, 2];
        offsets.extend(edges);
        offsets.push(self.bytes().len());
        offsets
    }
}
