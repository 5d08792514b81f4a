//! Damage to the bytes of a sheet.

use crate::random::Random;
use crate::sheet::{Sheet, EDGE_LENGTH, FIRST_EDGE};

/// How many kinds of damage there are.
pub const KINDS: usize = 9;

/// Damages the bytes of a sheet in one way, or in several with the last kind.
pub fn damaged(random: &mut Random, sheet: &Sheet, kind: usize) -> Vec<u8> {
    let mut bytes = sheet.bytes();
    damage(random, sheet, &mut bytes, kind);
    bytes
}

fn damage(random: &mut Random, sheet: &Sheet, bytes: &mut Vec<u8>, kind: usize) {
    let at = random.below(bytes.len().max(1));
    match kind {
        0 => bytes.truncate(at),
        1 => set(bytes, at, random.number() as u8),
        2 => set(bytes, at, random.below(6) as u8),
        3 => insert(bytes, at, random.below(6) as u8),
        4 if at < bytes.len() => {
            bytes.remove(at);
        }
        5 => bytes.extend(random.choose(&[&[0][..], &[2, 0, 1], &[4], &[1, 4], &[3]])),
        6 => set_vertex(random, sheet, bytes),
        7 => repeat_edge(random, sheet, bytes),
        8 => {
            for _ in 0..random.between(2, 4) {
                let kind = random.below(8);
                damage(random, sheet, bytes, kind);
            }
        }
        _ => {}
    }
}

fn set(bytes: &mut [u8], at: usize, value: u8) {
    if let Some(byte) = bytes.get_mut(at) {
        *byte = value;
    }
}

fn insert(bytes: &mut Vec<u8>, at: usize, value: u8) {
    bytes.insert(at.min(bytes.len()), value);
}

/// Chooses the offset of an edge record.
fn edge_offset(random: &mut Random, sheet: &Sheet) -> Option<usize> {
    let count = sheet.edges.len();
    (count > 0).then(|| FIRST_EDGE + EDGE_LENGTH * random.below(count))
}

/// Changes a vertex of an edge record to the other one, n, or any number.
fn set_vertex(random: &mut Random, sheet: &Sheet, bytes: &mut [u8]) {
    let Some(offset) = edge_offset(random, sheet) else {
        return;
    };
    let (this, other) = random.choose(&[(offset + 1, offset + 2), (offset + 2, offset + 1)]);
    let same = bytes.get(other).copied().unwrap_or(0);
    let any = random.number() as u8;
    let value = random.choose(&[same, sheet.size, 255, any]);
    set(bytes, this, value);
}

/// Repeats an edge record, in either order, somewhere after it.
fn repeat_edge(random: &mut Random, sheet: &Sheet, bytes: &mut Vec<u8>) {
    let Some(offset) = edge_offset(random, sheet) else {
        return;
    };
    let Some(&[_, i, j]) = bytes.get(offset..offset + EDGE_LENGTH) else {
        return;
    };
    let last = FIRST_EDGE + EDGE_LENGTH * sheet.edges.len();
    let choices = (last - offset) / EDGE_LENGTH;
    let target = offset + EDGE_LENGTH * random.between(1, choices.max(1));
    let (i, j) = random.choose(&[(i, j), (j, i)]);
    let target = target.min(bytes.len());
    bytes.splice(target..target, [2, i, j]);
}
