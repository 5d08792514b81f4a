//! The reader of a sheet (document 01, "Sheet records").

use crate::causes::{Cause, Refusal};
use crate::draws::fill_weights;
use crate::graph::{check_lengths, graph_buffers, MAX_VERTICES};

/// The two vertices of an edge record, in the order of the bytes.
#[derive(Clone, Copy, Debug, PartialEq, Eq)]
pub struct EdgeBody {
    pub first: u8,
    pub second: u8,
}

/// A record with its body.
#[derive(Clone, Copy, Debug, PartialEq, Eq)]
pub enum Record {
    /// Kind 1.
    Size(u8),
    /// Kind 2 (document 01: "may share").
    Edge(EdgeBody),
    /// Kind 3.
    Seed(u32),
    /// Kind 4.
    End,
}

/// Which kinds may stand at a place.
#[derive(Clone, Copy, Debug, PartialEq, Eq)]
pub enum Due {
    Size,
    Seed,
    EdgeOrEnd,
}

impl Due {
    fn includes(self, kind: u8) -> bool {
        match self {
            Due::Size => kind == 1,
            Due::Seed => kind == 3,
            Due::EdgeOrEnd => kind == 2 || kind == 4,
        }
    }
}

/// What was read: the size and the number of different edges (document 01:
/// "number of links").
#[derive(Clone, Copy, Debug, PartialEq, Eq)]
pub struct Counts {
    pub size: u64,
    pub edges: u64,
}

/// The bytes and a place in them.
#[derive(Clone, Copy, Debug)]
pub struct Reader<'a> {
    bytes: &'a [u8],
    place: usize,
}

impl<'a> Reader<'a> {
    pub fn new(bytes: &'a [u8]) -> Reader<'a> {
        Reader { bytes, place: 0 }
    }

    /// Returns the offset of the next record.
    pub fn place(&self) -> u64 {
        self.place as u64
    }

    /// Reads the next record. Refuses with cause 12 if its kind is not due, with 13
    /// if the data stops before or inside it. Moves only past a whole record.
    pub fn next_record(&mut self, due: Due) -> Result<Record, Refusal> {
        let stops = Cause::DataStops.at(self.bytes.len() as u64);
        let (&kind, rest) = self.bytes[self.place..].split_first().ok_or(stops)?;
        if !due.includes(kind) {
            return Err(self.not_due());
        }
        let (record, length) = match (kind, rest) {
            (1, &[size, ..]) => (Record::Size(size), 2),
            (2, &[first, second, ..]) => (Record::Edge(EdgeBody { first, second }), 3),
            (3, &[a, b, c, d, ..]) => (Record::Seed(u32::from_le_bytes([a, b, c, d])), 5),
            (4, _) => (Record::End, 1),
            _ => return Err(stops),
        };
        self.place += length;
        Ok(record)
    }

    /// Refuses bytes after the end record: cause 12.
    pub fn finish(&self) -> Result<(), Refusal> {
        if self.place < self.bytes.len() {
            return Err(self.not_due());
        }
        Ok(())
    }

    fn not_due(&self) -> Refusal {
        Cause::KindNotDue.at(self.place())
    }
}

/// A graph while it is read: n vertices, and the edges so far.
pub(crate) struct Draft {
    pub(crate) n: usize,
    adjacency: Vec<u8>,
    edges: u64,
}

impl Draft {
    /// Begins a graph of n vertices, without edges.
    pub(crate) fn new(n: usize) -> Draft {
        Draft {
            n,
            adjacency: vec![0; n * n],
            edges: 0,
        }
    }

    /// Adds the edge of i and j, which differ and are below n. Returns whether it
    /// is new.
    pub(crate) fn add_edge(&mut self, i: usize, j: usize) -> bool {
        let is_new = self.adjacency[i * self.n + j] == 0;
        self.adjacency[i * self.n + j] = 1;
        self.adjacency[j * self.n + i] = 1;
        self.edges += u64::from(is_new);
        is_new
    }

    /// Fills the adjacency table, and the weights with the draws of a seed. Refuses a
    /// short buffer: cause 2.
    pub(crate) fn fill(
        &self,
        seed: u32,
        adjacency: &mut [u8],
        weights: &mut [u16],
    ) -> Result<Counts, Refusal> {
        check_lengths(self.n, &graph_buffers(adjacency, weights))?;
        adjacency[..self.n * self.n].copy_from_slice(&self.adjacency);
        fill_weights(self.n as u64, seed, weights)?;
        Ok(Counts {
            size: self.n as u64,
            edges: self.edges,
        })
    }
}

/// Reads a sheet and fills the adjacency table and the weights. Refuses the first
/// faulty record; looks at the lengths of the buffers last.
pub fn read_graph(
    bytes: &[u8],
    adjacency: &mut [u8],
    weights: &mut [u16],
) -> Result<Counts, Refusal> {
    let (graph, seed) = parse(bytes)?;
    graph.fill(seed, adjacency, weights)
}

/// Reads the records in order: size, seed, edges, end, nothing.
fn parse(bytes: &[u8]) -> Result<(Draft, u32), Refusal> {
    let mut reader = Reader::new(bytes);
    let mut graph = Draft::new(read_size(&mut reader)?);
    let seed = read_seed(&mut reader)?;
    loop {
        let offset = reader.place();
        match reader.next_record(Due::EdgeOrEnd)? {
            Record::Edge(body) => add_edge(&mut graph, body, offset)?,
            _ => break,
        }
    }
    reader.finish()?;
    Ok((graph, seed))
}

/// Reads the size record. Refuses a size above 96: cause 1 at its offset.
fn read_size(reader: &mut Reader) -> Result<usize, Refusal> {
    let offset = reader.place();
    match reader.next_record(Due::Size)? {
        Record::Size(size) if u64::from(size) <= MAX_VERTICES => Ok(usize::from(size)),
        _ => Err(Cause::SizeTooLarge.at(offset)),
    }
}

/// Reads the seed record.
fn read_seed(reader: &mut Reader) -> Result<u32, Refusal> {
    let not_due = reader.not_due();
    match reader.next_record(Due::Seed)? {
        Record::Seed(seed) => Ok(seed),
        _ => Err(not_due),
    }
}

/// Adds the edge of a record. Refuses with cause 14, then 15, at its offset.
fn add_edge(graph: &mut Draft, body: EdgeBody, offset: u64) -> Result<(), Refusal> {
    let (i, j) = (usize::from(body.first), usize::from(body.second));
    if i >= graph.n || j >= graph.n || i == j {
        return Err(Cause::RecordVertexInvalid.at(offset));
    }
    if !graph.add_edge(i, j) {
        return Err(Cause::EdgeRepeated.at(offset));
    }
    Ok(())
}
