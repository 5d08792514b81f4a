//! Faulty cells of adjacency tables: ways to make one, and the cell that a refusal
//! with cause 3 must name.

use crate::graphs::{self, Graph};
use crate::random::Random;
use crate::states::seeded;

/// The faults of a cell, by their numbers.
pub const NOT_ZERO_OR_ONE: u64 = 1;
pub const NOT_ZERO_ON_DIAGONAL: u64 = 2;
pub const UNEQUAL_TO_MIRROR: u64 = 3;

/// A faulty cell as a refusal names it, with its first fault. Cells compare row by
/// row.
#[derive(Clone, Copy, Debug, PartialEq, Eq, PartialOrd, Ord)]
pub struct Cell {
    pub row: usize,
    pub column: usize,
    pub fault: u64,
}

impl Cell {
    /// Returns the place of the refusal by docs/HOST.md: the row in bits 0 to 7, the
    /// column in bits 8 to 15, the fault in bits 16 to 23.
    pub fn place(self) -> u64 {
        self.row as u64 | (self.column as u64) << 8 | self.fault << 16
    }

    /// Returns the number of the refusal.
    pub fn number(self) -> u64 {
        3 | self.place() << 16
    }
}

/// Checks the number of a refusal with cause 3 by the definition: it has no bits but
/// those of a cell; this is the first faulty cell of the table, row by row; and it
/// has this fault and none before it. The column is not below the row, since a cell
/// below the diagonal is faulty only if its mirror is.
pub fn certify(number: u64, n: usize, table: &[u8], name: &str) {
    let [row, column, fault] = [16, 24, 32].map(|bit| number >> bit & 0xFF);
    assert_eq!(number, 3 | row << 16 | column << 24 | fault << 32, "{name}");
    let (row, column) = (row as usize, column as usize);
    assert!(row <= column && column < n, "{name}: {number:#x}");
    let first = (0..n * n).find(|&at| !is_good(n, table, at / n, at % n));
    assert_eq!(first, Some(row * n + column), "{name}: {number:#x}");
    let (byte, mirror) = (table[row * n + column], table[column * n + row]);
    let holds = match fault {
        NOT_ZERO_OR_ONE => byte > 1,
        NOT_ZERO_ON_DIAGONAL => byte == 1 && row == column,
        UNEQUAL_TO_MIRROR => byte <= 1 && row != column && byte != mirror,
        _ => false,
    };
    assert!(holds, "{name}: {number:#x} for {byte} and {mirror}");
}

/// Tells whether a cell has no fault.
fn is_good(n: usize, table: &[u8], row: usize, column: usize) -> bool {
    match (table[row * n + column], table[column * n + row]) {
        (0, 0) => true,
        (1, 1) => row != column,
        _ => false,
    }
}

/// A way to spoil a cell (i, j), its mirror or both, where i <= j.
pub struct CellDamage {
    name: &'static str,
    /// The first fault that cell (i, j) then has.
    pub fault: u64,
    /// Makes the bytes of the cell and of its mirror from the bit that the cell has,
    /// and a byte above 1.
    bytes: fn(u8, u8) -> (u8, u8),
}

const fn damage(name: &'static str, fault: u64, bytes: fn(u8, u8) -> (u8, u8)) -> CellDamage {
    CellDamage { name, fault, bytes }
}

pub const ON_DIAGONAL: [CellDamage; 2] = [
    damage("1", NOT_ZERO_ON_DIAGONAL, |_, _| (1, 1)),
    damage("above 1", NOT_ZERO_OR_ONE, |_, above| (above, above)),
];

pub const OFF_DIAGONAL: [CellDamage; 8] = [
    damage("above 1", NOT_ZERO_OR_ONE, |bit, above| (above, bit)),
    damage("above 1, mirror flipped", NOT_ZERO_OR_ONE, |bit, above| {
        (above, 1 - bit)
    }),
    damage("above 1, mirror equal", NOT_ZERO_OR_ONE, |_, above| {
        (above, above)
    }),
    damage("above 1, mirror too", NOT_ZERO_OR_ONE, |_, above| {
        (above, if above == 255 { 2 } else { above + 1 })
    }),
    damage("flipped", UNEQUAL_TO_MIRROR, |bit, _| (1 - bit, bit)),
    damage("mirror flipped", UNEQUAL_TO_MIRROR, |bit, _| (bit, 1 - bit)),
    damage("mirror above 1", UNEQUAL_TO_MIRROR, |bit, above| {
        (bit, above)
    }),
    damage(
        "flipped, mirror above 1",
        UNEQUAL_TO_MIRROR,
        |bit, above| (1 - bit, above),
    ),
];

/// Lists the ways to spoil a cell (i, j), where i <= j.
pub fn damages((i, j): (usize, usize)) -> &'static [CellDamage] {
    if i == j {
        &ON_DIAGONAL
    } else {
        &OFF_DIAGONAL
    }
}

impl CellDamage {
    /// Spoils cell (i, j) of a table, and returns it with its fault.
    pub fn spoil(&self, n: usize, table: &mut [u8], (i, j): (usize, usize), above: u8) -> Cell {
        let bit = u8::from(table[i * n + j] == 1);
        let (byte, mirror) = (self.bytes)(bit, above);
        table[j * n + i] = mirror;
        table[i * n + j] = byte;
        Cell {
            row: i,
            column: j,
            fault: self.fault,
        }
    }

    fn has_byte_above_one(&self) -> bool {
        (self.bytes)(0, 2) != (self.bytes)(0, 3)
    }
}

/// Chooses a byte above 1.
pub fn above_one(random: &mut Random) -> u8 {
    random.between(2, 255) as u8
}

/// Spoils a random cell of a table of at least one vertex, and returns it with its
/// fault.
pub fn spoil_any(random: &mut Random, n: usize, table: &mut [u8]) -> Cell {
    let (i, j) = (random.below(n), random.below(n));
    let cell = (i.min(j), i.max(j));
    let damages = damages(cell);
    let damage = &damages[random.below(damages.len())];
    damage.spoil(n, table, cell, above_one(random))
}

/// Spoils several random cells, some of them perhaps more than once. Returns the
/// first one, row by row, with the fault that it then has.
pub fn spoil_several(random: &mut Random, n: usize, table: &mut [u8]) -> Cell {
    let mut cells: Vec<Cell> = Vec::new();
    for _ in 0..random.between(2, 6) {
        let cell = spoil_any(random, n, table);
        cells.retain(|other| (other.row, other.column) != (cell.row, cell.column));
        cells.push(cell);
    }
    cells.into_iter().min().expect("at least one cell")
}

/// A graph, and adjacency tables that differ from its own in faulty cells.
pub struct SpoiledGraph {
    pub graph: Graph,
    pub tables: Vec<FaultyTable>,
}

/// An adjacency table with its first faulty cell.
pub struct FaultyTable {
    pub name: String,
    pub adjacency: Vec<u8>,
    pub cell: Cell,
}

impl FaultyTable {
    /// Spoils cell (i, j) of a graph's table.
    fn new(graph: &Graph, damage: &CellDamage, (i, j): (usize, usize), above: u8) -> FaultyTable {
        let mut adjacency = graph.adjacency.clone();
        let cell = damage.spoil(graph.n, &mut adjacency, (i, j), above);
        FaultyTable {
            name: format!("({i}, {j}) {}, {above}", damage.name),
            adjacency,
            cell,
        }
    }
}

/// The sizes whose corners are spoiled. Of the smallest, every cell is.
const SIZES: [usize; 24] = [
    1, 2, 3, 4, 5, 6, 7, 8, 9, 15, 16, 17, 31, 32, 33, 47, 48, 49, 63, 64, 65, 94, 95, 96,
];

/// Spoils every corner of tables of many sizes in every damage.
pub fn every_corner() -> impl Iterator<Item = SpoiledGraph> {
    SIZES.into_iter().map(|n| {
        let mut random = seeded(28, n as u64);
        let graph = graphs::matched(&mut random, n);
        let mut tables = Vec::new();
        for (i, j) in corners(n) {
            for damage in damages((i, j)) {
                let above = above_one(&mut random);
                tables.push(FaultyTable::new(&graph, damage, (i, j), above));
            }
        }
        SpoiledGraph { graph, tables }
    })
}

/// Lists cells i <= j: the first and the last, the ends of rows and of the diagonal,
/// and some in the middle. All cells of a small table.
fn corners(n: usize) -> Vec<(usize, usize)> {
    let near_end = |k: usize| n <= 4 || k < 2 || k == n / 2 || k + 2 >= n;
    let is_corner = |&(i, j): &(usize, usize)| near_end(i) && (near_end(j) || j <= i + 1);
    every_cell(n).filter(is_corner).collect()
}

/// Lists the cells i <= j of a table, row by row.
pub fn every_cell(n: usize) -> impl Iterator<Item = (usize, usize)> {
    (0..n).flat_map(move |i| (i..n).map(move |j| (i, j)))
}

/// Spoils cells with every byte above 1, in every way that has such a byte.
pub fn every_byte() -> impl Iterator<Item = SpoiledGraph> {
    (2..=255).map(|above: u8| {
        let mut random = seeded(29, above.into());
        let n = random.between(2, 6);
        let graph = graphs::matched(&mut random, n);
        let last = n - 1;
        let cells = [(0, 0), (last, last), (0, last)];
        let tables = cells
            .into_iter()
            .flat_map(|cell| damages(cell).iter().map(move |damage| (cell, damage)))
            .filter(|(_, damage)| damage.has_byte_above_one())
            .map(|(cell, damage)| FaultyTable::new(&graph, damage, cell, above))
            .collect();
        SpoiledGraph { graph, tables }
    })
}

/// Spoils several cells at once, mostly of small tables.
pub fn several_cells() -> impl Iterator<Item = SpoiledGraph> {
    (0..400).map(|round| {
        let mut random = seeded(30, round);
        let n = match round % 40 {
            0 => random.between(95, 96),
            1..=9 => random.between(13, 40),
            _ => random.between(1, 12),
        };
        let graph = graphs::any(&mut random, n);
        let table = |number| {
            let mut adjacency = graph.adjacency.clone();
            let cell = spoil_several(&mut random, n, &mut adjacency);
            FaultyTable {
                name: format!("several cells, round {round}, table {number}"),
                adjacency,
                cell,
            }
        };
        let tables = (0..5).map(table).collect();
        SpoiledGraph { graph, tables }
    })
}

/// Makes every table of n vertices, from 1 to 3, whose bytes are 0, 1 and 2.
pub fn small_tables() -> impl Iterator<Item = (usize, Vec<u8>)> {
    (1..=3).flat_map(|n: usize| {
        let cells = n * n;
        (0..3_usize.pow(cells as u32)).map(move |number| {
            let mut digits = number;
            let mut next = || {
                let digit = digits % 3;
                digits /= 3;
                digit as u8
            };
            (n, (0..cells).map(|_| next()).collect())
        })
    })
}
