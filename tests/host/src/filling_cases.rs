//! The families of sheets to read and of weights to draw. Each yields the same
//! cases every time.

use crate::damage::any_large_size;
use crate::filling::{Filling, FillingCase, Source};
use crate::random::Random;
use crate::stream::LONGEST_BUFFER;
use sheet_tests::families;
use sheet_tests::sheet::Sheet;

/// Chains all families, without the longest sheets.
pub fn all() -> impl Iterator<Item = FillingCase> {
    sheets()
        .chain(long_sheets().filter(|case| case.call.source_bytes().len() <= LONGEST_BUFFER))
        .chain(short_buffers())
        .chain(every_length())
        .chain(every_draw())
        .chain(draw_lengths())
        .chain(large_draws())
}

/// Returns how many bytes the adjacency and the weights of n vertices need.
fn needed(n: usize) -> [usize; 2] {
    [n * n, n * n.saturating_sub(1)]
}

/// Returns the size that a sheet names, or a small one.
fn size_named(sheet: &[u8]) -> usize {
    match sheet.get(1) {
        Some(&n) if n <= 96 => n.into(),
        _ => 4,
    }
}

fn filling(random: &mut Random, source: Source, lengths: [usize; 2]) -> Filling {
    let [adjacency, weights] = lengths.map(|length| random.bytes(length));
    Filling {
        source,
        adjacency,
        weights,
    }
}

/// Reads into buffers that are as long as n vertices need, or up to most bytes
/// longer.
fn with_excess(
    random: &mut Random,
    name: String,
    source: Source,
    n: usize,
    most: usize,
) -> FillingCase {
    let lengths = needed(n).map(|length| length + random.between(0, most));
    let call = filling(random, source, lengths);
    FillingCase::new(name, call)
}

/// with_excess, of a random number of bytes.
pub(crate) fn read_with_excess(
    random: &mut Random,
    name: String,
    source: Source,
    n: usize,
) -> FillingCase {
    let most = random.choose(&[0, 1, 2, 40]);
    with_excess(random, name, source, n, most)
}

/// Reads into buffers that are often shorter than n vertices need.
pub(crate) fn read_with_short_buffers(
    random: &mut Random,
    name: String,
    source: Source,
    n: usize,
) -> FillingCase {
    let lengths = needed(n).map(|length| match random.below(4) {
        0 => 0,
        1 => length.saturating_sub(1),
        2 => length.saturating_sub(2),
        _ => length + random.below(3),
    });
    let call = filling(random, source, lengths);
    FillingCase::new(format!("{name}, {lengths:?} bytes"), call)
}

/// Reads into buffers of every length, from 0 to a few bytes more than n vertices
/// need.
pub(crate) fn every_length_of(random: &mut Random, n: usize, source: &Source) -> Vec<FillingCase> {
    let [adjacency, weights] = needed(n);
    let lengths = (0..adjacency + 4).flat_map(|a| (0..weights + 4).map(move |w| [a, w]));
    let case = |lengths| {
        let call = filling(random, source.clone(), lengths);
        FillingCase::new(format!("n = {n}, {lengths:?} bytes"), call)
    };
    lengths.map(case).collect()
}

/// Reads the sheets that the listing program is given too.
pub fn sheets() -> impl Iterator<Item = FillingCase> {
    let mut random = Random::new(20);
    families::small_sheets()
        .chain(families::middle_sheets())
        .chain(families::large_sheets())
        .chain(families::every_size())
        .chain(families::seeds())
        .chain(families::every_kind())
        .chain(families::every_prefix())
        .chain(families::every_edge())
        .chain(families::damaged_sheets(12000))
        .chain(families::random_bytes(3000))
        .map(move |case| {
            let n = size_named(&case.bytes);
            read_with_excess(&mut random, case.name, Source::Sheet(case.bytes), n)
        })
}

pub fn long_sheets() -> impl Iterator<Item = FillingCase> {
    let mut random = Random::new(21);
    families::long_inputs().map(move |case| {
        let n = size_named(&case.bytes);
        with_excess(&mut random, case.name, Source::Sheet(case.bytes), n, 3)
    })
}

/// Reads good and damaged sheets into short buffers: the sheet's own fault comes
/// first.
pub fn short_buffers() -> impl Iterator<Item = FillingCase> {
    let mut random = Random::new(22);
    families::small_sheets()
        .chain(families::damaged_sheets(3000))
        .chain(families::every_edge())
        .map(move |case| {
            let n = size_named(&case.bytes);
            read_with_short_buffers(&mut random, case.name, Source::Sheet(case.bytes), n)
        })
}

/// Makes every length of both buffers, from 0 to a few bytes more than needed.
pub fn every_length() -> impl Iterator<Item = FillingCase> {
    let mut random = Random::new(23);
    (0..=5).flat_map(move |n| {
        let sheet = Sheet::complete(n, 5).shuffled(&mut random).bytes();
        every_length_of(&mut random, n.into(), &Source::Sheet(sheet))
    })
}

/// Draws for every number of vertices, with several seeds and lengths.
pub fn every_draw() -> impl Iterator<Item = FillingCase> {
    let mut random = Random::new(24);
    (0..=96).flat_map(move |n: usize| {
        let any = random.number() as u32;
        let [_, weights] = needed(n);
        let lengths = [weights, weights + 1, weights + 7, weights.saturating_sub(1)];
        [0, u32::MAX, any].map(|seed| {
            let length = random.choose(&lengths);
            draw(&mut random, n as u64, seed, length)
        })
    })
}

/// Makes every length of the weights, from 0 to a few bytes more than needed.
pub fn draw_lengths() -> impl Iterator<Item = FillingCase> {
    let mut random = Random::new(25);
    let lengths = |n: usize| (0..needed(n)[1] + 5).map(move |length| (n, length));
    (0..=8).flat_map(lengths).map(move |(n, length)| {
        let seed = random.number() as u32;
        draw(&mut random, n as u64, seed, length)
    })
}

/// Draws for sizes above 96, among them small ones with a high bit.
pub fn large_draws() -> impl Iterator<Item = FillingCase> {
    let mut random = Random::new(26);
    let bits = (7..64).map(|bit| 1u64 << bit);
    let sizes: Vec<u64> = bits
        .flat_map(|bit| [bit, bit | 4])
        .chain([97, 98, 192])
        .collect();
    (0..300).map(move |round| {
        let size = match sizes.get(round) {
            Some(&size) => size,
            None => any_large_size(&mut random),
        };
        let length = random.choose(&[0, 12, 13, 40]);
        draw(&mut random, size, 7, length)
    })
}

fn draw(random: &mut Random, n: u64, seed: u32, length: usize) -> FillingCase {
    let call = filling(random, Source::Seed { n, seed }, [0, length]);
    FillingCase::new(format!("draws of {seed}, n = {n}, {length} bytes"), call)
}
