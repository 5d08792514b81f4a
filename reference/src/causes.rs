//! Why a call is refused, and at which place (document 01, "Causes, numbers,
//! and what is untouched"; document 02, requests 1 and 2).

/// The causes, by their numbers in the paper's table.
#[derive(Clone, Copy, Debug, PartialEq, Eq, PartialOrd, Ord)]
#[repr(u8)]
pub enum Cause {
    /// Size above 96.
    SizeTooLarge = 1,
    /// A lent buffer is too short; the place is the buffer's number.
    BufferTooShort = 2,
    /// An adjacency cell is not 0 or 1, not 0 on the diagonal, or unequal to its
    /// mirror; the place is that cell.
    AdjacencyFault = 3,
    /// A weight is outside 1..65520.
    WeightOutOfRange = 4,
    /// The session is not well formed.
    SessionMalformed = 5,
    /// The inverse is not that of the unmatched vertices, or they have none.
    InverseWrong = 6,
    /// A vertex is not below n, or named twice.
    VertexInvalid = 7,
    /// A vertex is already matched.
    VertexMatched = 8,
    /// The two vertices are not adjacent.
    NotAdjacent = 9,
    /// The vertices unmatched after the call would have no inverse.
    RestSingular = 10,
    /// No vertex is unmatched, or there is no pair to undo.
    NothingLeft = 11,
    /// A record's kind is unknown or not due, or bytes follow the end. Or a call
    /// of a replay has an unknown kind.
    KindNotDue = 12,
    /// The data stops inside a body or before the end record. Or the list of a
    /// replay ends inside a call.
    DataStops = 13,
    /// A record or a line names a vertex that the graph does not have, or the same
    /// vertex twice.
    RecordVertexInvalid = 14,
    /// A record names an edge that an earlier one named.
    EdgeRepeated = 15,
    /// A line has none of the three forms or may not stand where it does, or no
    /// line tells the number of vertices.
    LineInvalid = 16,
    /// The lines of edges are not as many as announced.
    LineCountWrong = 17,
}

impl Cause {
    /// Returns the number in the paper's table.
    pub fn number(self) -> u8 {
        self as u8
    }

    /// Refuses for this cause, at place 0.
    pub fn refusal(self) -> Refusal {
        self.at(0)
    }

    /// Refuses for this cause, at the given index.
    pub fn at(self, index: u64) -> Refusal {
        Refusal {
            cause: self,
            place: Place::Index(index),
        }
    }
}

/// The faults of an adjacency cell, by their numbers: the order in which the
/// paper's table names them.
#[derive(Clone, Copy, Debug, PartialEq, Eq, PartialOrd, Ord)]
#[repr(u8)]
pub enum CellFault {
    /// It is not 0 or 1.
    NotZeroOrOne = 1,
    /// It is on the diagonal, and not 0.
    DiagonalNotZero = 2,
    /// It is unequal to its mirror.
    UnequalToMirror = 3,
}

impl CellFault {
    /// Returns the number: 1, 2 or 3.
    pub fn number(self) -> u8 {
        self as u8
    }
}

/// The place of a refusal.
#[derive(Clone, Copy, Debug, PartialEq, Eq)]
pub enum Place {
    /// A buffer's number, an index, an offset or a line; 0 if the cause has none.
    Index(u64),
    /// A cell of the adjacency table, row and column counted from 0, and the first
    /// fault that it has. Cause 3, and no other, has a cell.
    Cell {
        row: u64,
        column: u64,
        fault: CellFault,
    },
}

impl Place {
    /// Returns the place as one number. That of a cell has the row in bits 0 to 7,
    /// the column in bits 8 to 15, and the fault in bits 16 to 23.
    pub fn number(self) -> u64 {
        match self {
            Place::Index(index) => index,
            Place::Cell { row, column, fault } => {
                row | column << 8 | u64::from(fault.number()) << 16
            }
        }
    }
}

/// A cause and its place.
#[derive(Clone, Copy, Debug, PartialEq, Eq)]
pub struct Refusal {
    pub cause: Cause,
    pub place: Place,
}

impl Refusal {
    /// Refuses an adjacency cell for its first fault: cause 3.
    pub fn of_cell(row: usize, column: usize, fault: CellFault) -> Refusal {
        Refusal {
            cause: Cause::AdjacencyFault,
            place: Place::Cell {
                row: row as u64,
                column: column as u64,
                fault,
            },
        }
    }

    /// Returns the cause's number and the place's.
    pub fn numbers(self) -> (u8, u64) {
        (self.cause.number(), self.place.number())
    }
}

/// The numbers of the lent buffers, the places of cause 2.
pub mod buffer {
    /// Document 01: "share".
    pub const ADJACENCY: u64 = 1;
    /// Document 01: "draws".
    pub const WEIGHTS: u64 = 2;
    /// Document 01: "held".
    pub const INVERSE: u64 = 3;
    /// Document 01: "strip".
    pub const SEQUENCE: u64 = 4;
    /// Document 01: "witness".
    pub const WITNESS: u64 = 5;
    /// Document 01: "work".
    pub const WORK: u64 = 6;
    /// Document 01: "row".
    pub const ROW: u64 = 7;
    /// The answers of a replay, which document 01 does not number.
    pub const ANSWERS: u64 = 10;
}
