//! The families of texts in the DIMACS edge format. Each yields the same cases
//! every time.

use crate::filling::{FillingCase, Source};
use crate::filling_cases::{every_length_of, read_with_excess, read_with_short_buffers};
use crate::random::Random;
use crate::states::seeded;
use crate::stream::LONGEST_BUFFER;
use crate::texts::{damaged, good, Text, KINDS};

/// Chains all families.
pub fn all() -> impl Iterator<Item = FillingCase> {
    good_texts()
        .chain(every_size())
        .chain(damaged_texts())
        .chain(every_prefix())
        .chain(every_byte())
        .chain(every_number())
        .chain(random_pieces())
        .chain(short_buffers())
        .chain(every_length())
        .filter(|case| case.call.source_bytes().len() <= LONGEST_BUFFER)
}

/// Reads a text with a random seed into buffers that are long enough for n
/// vertices, or for 4 if n is above 96.
fn read(random: &mut Random, name: String, bytes: Vec<u8>, n: usize) -> FillingCase {
    let source = any_seed(random, bytes);
    let n = if n <= 96 { n } else { 4 };
    read_with_excess(random, name, source, n)
}

fn any_seed(random: &mut Random, bytes: Vec<u8>) -> Source {
    let any = random.number() as u32;
    let seed = random.choose(&[0, 1, u32::MAX, any, any]);
    Source::Text { bytes, seed }
}

/// Chooses a number of vertices, mostly a small one.
fn any_size(random: &mut Random) -> usize {
    match random.below(20) {
        0 => random.between(90, 96),
        1 => random.between(13, 96),
        2 => random.between(97, 130),
        _ => random.between(0, 12),
    }
}

pub fn good_texts() -> impl Iterator<Item = FillingCase> {
    let mut random = Random::new(40);
    (0..8000).map(move |round| {
        let n = any_size(&mut random);
        let bytes = good(&mut random, n).bytes();
        let name = format!("good texts, round {round}, n = {n}");
        read(&mut random, name, bytes, n)
    })
}

/// Makes texts of every size up to 96, and of some above.
pub fn every_size() -> impl Iterator<Item = FillingCase> {
    let mut random = Random::new(41);
    (0..=140).flat_map(move |n| {
        [0, 1, 2].map(|round| {
            let bytes = good(&mut random, n).bytes();
            read(&mut random, format!("n = {n}, round {round}"), bytes, n)
        })
    })
}

pub fn damaged_texts() -> impl Iterator<Item = FillingCase> {
    let mut random = Random::new(42);
    (0..30_000).map(move |round| {
        let name = format!("damaged texts, round {round}");
        any_damaged(&mut random, name, round % KINDS)
    })
}

fn any_damaged(random: &mut Random, name: String, kind: usize) -> FillingCase {
    let n = any_size(random);
    let text = good(random, n);
    let bytes = damaged(random, text, kind);
    read(random, format!("{name}, n = {n}, kind {kind}"), bytes, n)
}

/// A text with every form, for damage at every place.
const SMALL: &[u8] = b"c a\np edge 3 04\ne 1 2\nc\ne 02 1\ne 3 1\ne 2 3\ncc\n";

/// Cuts texts after every byte.
pub fn every_prefix() -> impl Iterator<Item = FillingCase> {
    let mut random = Random::new(43);
    let texts = [
        SMALL.to_vec(),
        b"p edge 0 0\n".to_vec(),
        good(&mut random, 7).bytes(),
        good(&mut random, 12).bytes(),
    ];
    texts.into_iter().flat_map(move |text| {
        let mut prefix = |length: usize| {
            let name = format!("the first {length} of {} bytes", text.len());
            read(&mut random, name, text[..length].to_vec(), 12)
        };
        (0..=text.len()).map(&mut prefix).collect::<Vec<_>>()
    })
}

/// Puts every byte in place of every byte of a small text, or before it, or after
/// the last.
pub fn every_byte() -> impl Iterator<Item = FillingCase> {
    let mut random = Random::new(44);
    let places = (0..=SMALL.len()).flat_map(|at| (0..=255).map(move |byte| (at, byte)));
    places.flat_map(move |(at, byte)| {
        let (before, after) = SMALL.split_at(at);
        let replaced = [before, &[byte], after.get(1..).unwrap_or_default()].concat();
        let inserted = [before, &[byte], after].concat();
        [("for", replaced), ("before", inserted)].map(|(place, text)| {
            let name = format!("byte {byte} {place} byte {at}");
            read(&mut random, name, text, 3)
        })
    })
}

/// Puts numbers of every length in each of the four fields.
pub fn every_number() -> impl Iterator<Item = FillingCase> {
    let mut random = Random::new(45);
    numbers().into_iter().flat_map(move |number| {
        let n = number.parse().unwrap_or(97);
        let edge = format!("e {number} {number}\n");
        let texts = [
            (n, format!("p edge {number} 0\n")),
            (3, format!("p edge 3 {number}\ne 1 2\ne 2 1\n")),
            (3, format!("p edge 3 1\ne {number} 2\n")),
            (12, format!("p edge 12 1\ne 2 {number}\n")),
            (n, format!("p edge {number} {number}\n{edge}")),
        ];
        texts.map(|(n, text)| {
            let name = format!("numbers of {} digits", number.len());
            read(&mut random, name, text.into_bytes(), n)
        })
    })
}

/// Lists small numbers, those around powers of 2 and 10, and some with many
/// digits.
fn numbers() -> Vec<String> {
    let of_2 = (0..127).map(|bit| 1_u128 << bit);
    let of_10 = (0..38).map(|digits| 10_u128.pow(digits));
    let around = |power| (power - 1)..=(power + 3);
    let short = (0..=130).chain(of_2.chain(of_10).flat_map(around));
    let many = [40, 100, 1000, 4000];
    let long = many.into_iter().flat_map(|digits| {
        [0, 1, 2, 3, 96, 97].into_iter().flat_map(move |number| {
            let zeros = format!("{number:0digits$}");
            [format!("1{zeros}"), format!("{number}{zeros}"), zeros]
        })
    });
    short.map(|number| number.to_string()).chain(long).collect()
}

/// Joins random pieces of texts, most of them whole lines.
pub fn random_pieces() -> impl Iterator<Item = FillingCase> {
    const LINES: [&str; 5] = ["e 1 2\n", "e 2 1\n", "e 2 3\n", "c\n", "e 3 3\n"];
    const PARTS: [&str; 8] = ["p edge 3 2\n", "p edge ", "e ", " ", "\n", "1", "p", "c"];
    let mut random = Random::new(46);
    (0..3000).map(move |round| {
        let mut text = format!("p edge 3 {}\n", random.below(4));
        for _ in 0..random.below(5) {
            let part = random.percent(10);
            text += random.choose(if part { &PARTS[..] } else { &LINES[..] });
        }
        let name = format!("random pieces, round {round}");
        read(&mut random, name, text.into_bytes(), 3)
    })
}

/// Reads good and damaged texts into short buffers: the text's own fault comes
/// first.
pub fn short_buffers() -> impl Iterator<Item = FillingCase> {
    let mut random = Random::new(47);
    (0..3000).map(move |round| {
        let n = any_size(&mut random);
        let text = good(&mut random, n);
        let bytes = if round % 4 == 0 {
            damaged(&mut random, text, round % KINDS)
        } else {
            text.bytes()
        };
        let name = format!("short buffers, round {round}");
        let source = any_seed(&mut random, bytes);
        read_with_short_buffers(&mut random, name, source, n)
    })
}

/// Makes every length of both buffers, from 0 to a few bytes more than needed.
pub fn every_length() -> impl Iterator<Item = FillingCase> {
    let mut random = Random::new(48);
    (0..=5).flat_map(move |n| {
        let bytes = complete(n).bytes();
        every_length_of(&mut random, n, &Source::Text { bytes, seed: 5 })
    })
}

/// Makes the text of a complete graph.
pub fn complete(n: usize) -> Text {
    let edges: Vec<(usize, usize)> = (1..=n).flat_map(|u| (1..u).map(move |v| (u, v))).collect();
    Text::plain(n, &edges)
}

/// Makes some texts of one seed, for a long run.
pub fn of_seed(seed: u64) -> Vec<FillingCase> {
    let mut random = seeded(101, seed);
    let mut one = |round: usize| {
        let kind = random.below(KINDS);
        any_damaged(&mut random, format!("seed {seed}, text {round}"), kind)
    };
    (0..10).map(&mut one).collect()
}
