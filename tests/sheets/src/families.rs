//! The families of sheets. Each yields the same cases every time.

use crate::cancelling;
use crate::damage::{damaged, KINDS};
use crate::random::Random;
use crate::shapes::{Shape, LOW_RANKS, SHAPES};
use crate::sheet::Sheet;
use reference::draws::next_state;

/// Bytes with their name.
#[derive(Clone)]
pub struct Case {
    pub name: String,
    pub bytes: Vec<u8>,
}

impl Case {
    fn new(name: String, bytes: Vec<u8>) -> Case {
        Case { name, bytes }
    }
}

/// Makes a sheet of n vertices in a random shape, with its records shuffled.
fn of_shape(random: &mut Random, n: usize, shape: Shape) -> Sheet {
    let edges = if n == 0 { Vec::new() } else { shape(random, n) };
    let sheet = Sheet {
        size: n as u8,
        seed: random.number() as u32,
        edges,
    };
    sheet.shuffled(random)
}

fn any_sheet(random: &mut Random, n: usize) -> Sheet {
    let shape = random.choose(&SHAPES);
    of_shape(random, n, shape)
}

pub fn small_sheets() -> impl Iterator<Item = Case> {
    any_sheets("small sheets", 1, 1000, 0, 12)
}

pub fn middle_sheets() -> impl Iterator<Item = Case> {
    any_sheets("middle sheets", 2, 200, 13, 40)
}

pub fn large_sheets() -> impl Iterator<Item = Case> {
    any_sheets("large sheets", 3, 40, 41, 96)
}

fn any_sheets(
    family: &'static str,
    seed: u64,
    count: usize,
    first: usize,
    last: usize,
) -> impl Iterator<Item = Case> {
    let mut random = Random::new(seed);
    (0..count).map(move |round| {
        let n = random.between(first, last);
        let sheet = any_sheet(&mut random, n);
        Case::new(format!("{family}, round {round}, n = {n}"), sheet.bytes())
    })
}

/// Makes sheets whose matrix has a low rank, and so a witness.
pub fn low_ranks() -> impl Iterator<Item = Case> {
    let mut random = Random::new(4);
    (0..200).map(move |round| {
        let n = random.between(3, 30);
        let sheet = of_shape(&mut random, n, LOW_RANKS[round % LOW_RANKS.len()]);
        Case::new(format!("low ranks, round {round}, n = {n}"), sheet.bytes())
    })
}

/// Makes sheets with a perfect matching whose weights have a witness all the same,
/// and each with the next seed.
pub fn cancelling() -> impl Iterator<Item = Case> {
    let mut random = Random::new(10);
    cancelling::sheets().into_iter().flat_map(move |sheet| {
        [sheet.seed, sheet.seed + 1].map(|seed| {
            let name = format!("cancelling, n = {}, seed {seed}", sheet.size);
            let sheet = Sheet {
                seed,
                ..sheet.shuffled(&mut random)
            };
            Case::new(name, sheet.bytes())
        })
    })
}

/// Makes every size byte, with a path through the vertices. A size above 96 is
/// refused.
pub fn every_size() -> impl Iterator<Item = Case> {
    (0..=255u8).map(|size| {
        let edges = (1..size.min(96)).map(|vertex| (vertex - 1, vertex));
        let sheet = Sheet {
            size,
            seed: u32::from(size),
            edges: edges.collect(),
        };
        Case::new(format!("every size, n = {size}"), sheet.bytes())
    })
}

/// Makes seeds of every bit, at the ends, and some whose first weight comes from a
/// high half above 65519. All vertices are adjacent, so the witness depends on
/// every weight.
pub fn seeds() -> impl Iterator<Item = Case> {
    let mut random = Random::new(5);
    let mut seeds: Vec<u32> = (0..32).map(|bit| 1 << bit).collect();
    seeds.extend([0, u32::MAX, 0x0403_0201, 247_978]);
    let wraps = |seed: &u32| next_state(*seed) >> 16 >= 65_520;
    seeds.extend(
        std::iter::repeat_with(|| random.number() as u32)
            .filter(wraps)
            .take(16),
    );
    seeds.into_iter().flat_map(|seed| {
        [3, 5].map(|n| Case::new(format!("seed {seed}"), Sheet::complete(n, seed).bytes()))
    })
}

/// Makes every byte in place of a record-kind: before each record of a good
/// sheet and after its end, with what follows there and without it.
pub fn every_kind() -> impl Iterator<Item = Case> {
    let sheet = Sheet::listed();
    sheet.offsets().into_iter().flat_map(move |offset| {
        let (before, behind) = (
            sheet.bytes()[..offset].to_vec(),
            sheet.bytes()[offset..].to_vec(),
        );
        (0..=255u8).flat_map(move |kind| {
            let followed = [&before[..], &[kind], &behind].concat();
            let last = [&before[..], &[kind]].concat();
            let name = format!("kind {kind} at {offset}");
            [followed, last].map(|bytes| Case::new(name.clone(), bytes))
        })
    })
}

/// Makes every prefix of good sheets, and some of the largest.
pub fn every_prefix() -> impl Iterator<Item = Case> {
    let mut random = Random::new(6);
    let sheets = [
        Sheet::listed(),
        Sheet::complete(0, 7),
        Sheet::complete(1, 7),
        Sheet::complete(2, 0x0403_0201),
        Sheet {
            size: 97,
            ..Sheet::complete(0, 7)
        },
        any_sheet(&mut random, 7),
        any_sheet(&mut random, 12),
    ];
    let prefixes = |sheet: &Sheet| {
        let bytes = sheet.bytes();
        (0..=bytes.len()).map(move |length| bytes[..length].to_vec())
    };
    let largest = Sheet::complete(96, 1).bytes();
    let some = (0..12).map(move |cut| largest[..largest.len() - 1000 * cut - cut].to_vec());
    let all: Vec<Vec<u8>> = sheets.iter().flat_map(prefixes).chain(some).collect();
    all.into_iter()
        .map(|bytes| Case::new(format!("prefix of {} bytes", bytes.len()), bytes))
}

/// Makes an edge record of every two of a few vertices: as the first one, and
/// after two others.
pub fn every_edge() -> impl Iterator<Item = Case> {
    let sizes: [(u8, &[u8]); 4] = [
        (0, &[0, 1, 255]),
        (1, &[0, 1, 255]),
        (5, &[0, 1, 2, 4, 5, 6, 128, 133, 255]),
        (96, &[0, 1, 95, 96, 97, 128, 255]),
    ];
    let vertices = |(size, vertices): (u8, &'static [u8])| {
        let others = move |i: u8| vertices.iter().map(move |&j| (size, i, j));
        vertices.iter().flat_map(move |&i| others(i))
    };
    sizes
        .into_iter()
        .flat_map(vertices)
        .flat_map(|(size, i, j)| {
            let earlier: [&[(u8, u8)]; 2] = [&[], &[(1, 0), (0, 2)]];
            earlier.map(|earlier| {
                let sheet = Sheet {
                    size,
                    seed: 3,
                    edges: [earlier, &[(i, j)]].concat(),
                };
                let name = format!("edge {i} {j} of {size} vertices");
                Case::new(name, sheet.bytes())
            })
        })
}

pub fn damaged_sheets(count: usize) -> impl Iterator<Item = Case> {
    let mut random = Random::new(8);
    (0..count).map(move |round| {
        let n = random.between(0, 9);
        let sheet = any_sheet(&mut random, n);
        let kind = round % KINDS;
        let bytes = damaged(&mut random, &sheet, kind);
        Case::new(format!("damaged sheets, round {round}, kind {kind}"), bytes)
    })
}

/// Makes any bytes, or small ones, or small ones after a good beginning.
pub fn random_bytes(count: usize) -> impl Iterator<Item = Case> {
    let mut random = Random::new(9);
    (0..count).map(move |round| {
        let length = random.between(0, 40);
        let bound = random.choose(&[5, 5, 256]);
        let rest: Vec<u8> = (0..length).map(|_| random.below(bound) as u8).collect();
        let bytes = match round % 3 {
            0 => rest,
            1 => [&[1, 4, 3][..], &rest].concat(),
            _ => [&[1, 4, 3, 0, 0, 0, 0][..], &rest].concat(),
        };
        Case::new(format!("random bytes, round {round}"), bytes)
    })
}

/// Makes the largest sheet, with a byte more and a byte less, and inputs about as
/// long as the program reads, and longer.
pub fn long_inputs() -> impl Iterator<Item = Case> {
    let largest = Sheet::complete(96, 1).bytes();
    let [mut longer, mut unended] = [largest.clone(), largest.clone()];
    longer.push(4);
    unended.pop();
    let filled = |beginning: &[u8], filling: &[u8], length: usize| {
        let mut bytes = beginning.to_vec();
        bytes.extend(filling.iter().cycle().take(length - beginning.len()));
        Case::new(format!("{length} bytes, filled with {filling:?}"), bytes)
    };
    let long = [16_383, 16_384, 16_385, 20_000, 40_000].map(|length| {
        [
            filled(&[], &[0], length),
            filled(&Sheet::listed().bytes(), &[4], length),
            filled(&[1, 96, 3, 0, 0, 0, 0], &[2, 0, 1], length),
            filled(&largest, &[0, 2, 255], length),
            filled(&unended, &[2, 95, 94], length),
            filled(&unended, &[2, 95, 96], length),
        ]
    });
    let ends = [
        Case::new("the largest sheet".to_string(), largest),
        Case::new("a byte more".to_string(), longer),
        Case::new("a byte less".to_string(), unended),
    ];
    ends.into_iter().chain(long.into_iter().flatten())
}
