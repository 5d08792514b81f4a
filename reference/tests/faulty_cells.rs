//! Document 02, request 2: the row, the column and the fault of cause 3, for
//! opening and every session call, and the host's number of them.

mod common;

use common::*;
use reference::causes::{Cause, CellFault, Place, Refusal};
use reference::numbers::{pair_number, replay_number, row_number};
use reference::replay::replay;
use reference::session::Session;

const NOT_ZERO_OR_ONE: u64 = 1;
const DIAGONAL_NOT_ZERO: u64 = 2;
const UNEQUAL_TO_MIRROR: u64 = 3;

/// Sets the cell (i, j) and its mirror.
fn set(buffers: &mut Buffers, n: usize, i: usize, j: usize, byte: u8, mirror: u8) {
    buffers.adjacency[j * n + i] = mirror;
    buffers.adjacency[i * n + j] = byte;
}

/// Makes the bytes of the cells (i, j) and (j, i), i < j, and says which fault (i, j)
/// then has. Its arguments are the bit that both held, and two bytes above 1.
type Spoiled = fn(u8, u8, u8) -> (u8, u8, u64);

const OFF_DIAGONAL: [Spoiled; 8] = [
    |bit, above, _| (above, bit, NOT_ZERO_OR_ONE),
    |bit, above, _| (above, 1 - bit, NOT_ZERO_OR_ONE),
    |_, above, _| (above, above, NOT_ZERO_OR_ONE),
    |_, above, other| (above, other, NOT_ZERO_OR_ONE),
    |bit, _, _| (1 - bit, bit, UNEQUAL_TO_MIRROR),
    |bit, _, _| (bit, 1 - bit, UNEQUAL_TO_MIRROR),
    |bit, above, _| (bit, above, UNEQUAL_TO_MIRROR),
    |bit, above, _| (1 - bit, above, UNEQUAL_TO_MIRROR),
];

/// Lists all faulty bytes for the cells i <= j of a table, with their fault.
fn spoiled_cells(i: usize, j: usize, bit: u8, above: u8, other: u8) -> Vec<(u8, u8, u64)> {
    if i == j {
        vec![
            (1, 1, DIAGONAL_NOT_ZERO),
            (above, above, NOT_ZERO_OR_ONE),
            (other, other, NOT_ZERO_OR_ONE),
        ]
    } else {
        let spoiled = |spoil: &Spoiled| spoil(bit, above, other);
        OFF_DIAGONAL.iter().map(spoiled).collect()
    }
}

/// Every faulty pair of bytes at every cell, in a table with all edges and in one
/// with none.
#[test]
fn every_cell() {
    for n in [1, 2, 3, 4, 7, 16, 31] {
        for (bit, graph) in [(1, Buffers::complete(n)), (0, Buffers::new(n, &[]))] {
            let mut buffers = graph.clone();
            for i in 0..n {
                for j in i..n {
                    for (byte, mirror, fault) in spoiled_cells(i, j, bit, 2, 255) {
                        set(&mut buffers, n, i, j, byte, mirror);
                        assert_eq!(buffers.opening_refused(n as u64), cell(i, j, fault));
                    }
                    buffers.adjacency.copy_from_slice(&graph.adjacency);
                }
            }
        }
    }
}

/// Every byte above 1 is the first fault, and below the diagonal the third, at the
/// mirror.
#[test]
fn every_byte() {
    for above in 2..=255 {
        let other = 257 - u16::from(above);
        for n in 1..4 {
            for (i, j) in [(0, 0), (n - 1, n - 1), (0, n - 1)] {
                let spoiled = spoiled_cells(i, j, 1, above, other as u8);
                for (byte, mirror, fault) in spoiled {
                    let mut buffers = Buffers::complete(n);
                    set(&mut buffers, n, i, j, byte, mirror);
                    assert_eq!(buffers.opening_refused(n as u64), cell(i, j, fault));
                }
            }
        }
    }
}

/// The first and the last cell, the ends of the rows and of the diagonal, for every
/// size.
#[test]
fn corners_of_every_size() {
    for n in 1..=96 {
        let graph = Buffers::complete(n);
        let mut buffers = graph.clone();
        let rows = [0, 1, n / 2, n.saturating_sub(2), n - 1];
        for i in rows {
            for j in [i, i + 1, n - 1] {
                if i >= n || j >= n {
                    continue;
                }
                for (byte, mirror, fault) in spoiled_cells(i, j, 1, 7, 128) {
                    set(&mut buffers, n, i, j, byte, mirror);
                    assert_eq!(buffers.opening_refused(n as u64), cell(i, j, fault));
                }
                buffers.adjacency.copy_from_slice(&graph.adjacency);
            }
        }
    }
}

/// Finds the first faulty cell among the i <= j alone: no cell below the diagonal
/// is the first. There the three faults exclude each other.
fn first_above(n: usize, table: &[u8]) -> Option<(u8, u64)> {
    for i in 0..n {
        for j in i..n {
            let fault = match (table[i * n + j], table[j * n + i]) {
                (0, 0) => continue,
                (1, _) if i == j => DIAGONAL_NOT_ZERO,
                (1, 1) => continue,
                (0 | 1, _) => UNEQUAL_TO_MIRROR,
                _ => NOT_ZERO_OR_ONE,
            };
            return Some(cell(i, j, fault));
        }
    }
    None
}

/// Every table of up to three vertices whose bytes are 0, 1 and 2.
#[test]
fn every_small_table() {
    let mut counts = [0; 4];
    for n in 1..4_usize {
        let cells = n * n;
        for number in 0..3_usize.pow(cells as u32) {
            let digit = |place: usize| (number / 3_usize.pow(place as u32) % 3) as u8;
            let mut buffers = Buffers::new(n, &[]);
            buffers.adjacency = (0..cells).map(digit).collect();
            match first_above(n, &buffers.adjacency) {
                Some(expected) => {
                    assert_eq!(buffers.opening_refused(n as u64), expected);
                    counts[(expected.1 >> 16) as usize] += 1;
                }
                None => {
                    assert!(buffers.open(n as u64).is_ok());
                    counts[0] += 1;
                }
            }
        }
    }
    assert_eq!(counts, [11, 9_425, 6_707, 3_624]);
}

/// Several faulty cells: the first one row by row, whichever fault the others
/// have.
#[test]
fn the_first_of_several_cells() {
    let mut random = Random(95);
    for _ in 0..20_000 {
        let n = 1 + random.below(9) as usize;
        let bit = random.below(2) as u8;
        let mut buffers = if bit == 1 {
            Buffers::complete(n)
        } else {
            Buffers::new(n, &[])
        };
        buffers = buffers.with_excess(&mut random);
        let mut first = None;
        for i in 0..n {
            for j in i..n {
                if random.chance(20) {
                    let (above, other) = (2 + random.below(254) as u8, 2 + random.below(254) as u8);
                    let spoiled = spoiled_cells(i, j, bit, above, other);
                    let (byte, mirror, fault) = random.choose(&spoiled);
                    set(&mut buffers, n, i, j, byte, mirror);
                    first = first.or(Some(cell(i, j, fault)));
                }
            }
        }
        if let Some(expected) = first {
            assert_eq!(buffers.opening_refused(n as u64), expected);
        }
    }
}

/// Returns the numbers of all session calls and of a list of calls. Checks that
/// nothing is written.
fn all_numbers(buffers: &Buffers, now: Session) -> Vec<u64> {
    let mut after = buffers.clone();
    let mut answers = [9; 3];
    let numbers = vec![
        pair_number(&after.pick(now, 0, 1)),
        pair_number(&after.automatic(now)),
        pair_number(&after.undo(now)),
        row_number(&after.row(now, 0)),
        replay_number(&replay(
            now,
            &after.adjacency,
            &after.weights,
            &mut after.inverse,
            &mut after.sequence,
            &[2, 0, 0, 3, 0, 0],
            &mut answers,
        )),
    ];
    assert_eq!(after, *buffers);
    assert_eq!(answers, [9; 3]);
    numbers
}

/// Every call passes on the cell: the row in bits 16 to 23, the column in bits 24 to
/// 31, the fault in bits 32 to 39.
#[test]
fn numbers_of_every_call() {
    let cells = [
        (0, 0, 1, 1, 0x2_0000_0003),
        (0, 0, 2, 2, 0x1_0000_0003),
        (0, 3, 0, 1, 0x3_0300_0003),
        (2, 3, 1, 0, 0x3_0302_0003),
        (2, 3, 1, 200, 0x3_0302_0003),
        (2, 3, 200, 1, 0x1_0302_0003),
        (3, 3, 1, 1, 0x2_0303_0003),
    ];
    for (i, j, byte, mirror, number) in cells {
        let mut buffers = Buffers::complete(4);
        let now = buffers.opened(4);
        set(&mut buffers, 4, i, j, byte, mirror);
        assert_eq!(all_numbers(&buffers, now), [number; 5]);
    }
}

#[test]
fn numbers_of_the_largest_table() {
    let cells = [
        (95, 95, 1, 1, 0x2_5f5f_0003),
        (95, 95, 95, 95, 0x1_5f5f_0003),
        (0, 95, 2, 2, 0x1_5f00_0003),
        (94, 95, 0, 0x5f, 0x3_5f5e_0003),
    ];
    for (i, j, byte, mirror, number) in cells {
        let mut buffers = Buffers::new(96, &[]);
        set(&mut buffers, 96, i, j, byte, mirror);
        assert_eq!(all_numbers(&buffers, session(96, 0)), [number; 5]);
    }
}

#[test]
fn the_refusal_itself() {
    let mut buffers = Buffers::complete(4);
    set(&mut buffers, 4, 2, 3, 1, 0);
    let refusal = buffers.open(4).expect_err("a refusal");
    assert_eq!(refusal.cause, Cause::AdjacencyFault);
    let place = Place::Cell {
        row: 2,
        column: 3,
        fault: CellFault::UnequalToMirror,
    };
    assert_eq!(refusal.place, place);
    assert_eq!(refusal, Refusal::of_cell(2, 3, CellFault::UnequalToMirror));
    assert_eq!(refusal.numbers(), (3, 0x3_0302));
}
