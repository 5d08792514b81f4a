//! The cases of texts in the DIMACS edge format, which tests/c/replay.c runs
//! through the C entry, judged by themselves: whether each outcome occurs often
//! enough. And texts that are too long for a stream of cases.

use host_tests::call::Call;
use host_tests::entry::{self, Written};
use host_tests::filling::{Filling, FillingCase, Source};
use host_tests::graphs::Graph;
use host_tests::random::Random;
use host_tests::tally::TextTally;
use host_tests::text_cases as cases;
use host_tests::texts::{self, Text};
use sheet_tests::sheet::Sheet;
use std::collections::BTreeSet;
use std::fs;
use std::path::Path;

/// Checks that each cause occurs more often than said, and no other at all. 0 is
/// read.
fn check_tally(family: impl Iterator<Item = FillingCase>, least: &[(usize, usize)]) {
    let mut tally = TextTally::default();
    family.for_each(|case| tally.count(&case));
    for cause in 0..18 {
        let count = tally.of_cause(cause);
        match least.iter().find(|(named, _)| *named == cause) {
            Some((_, least)) => assert!(count > *least, "{cause}: {tally:?}"),
            None => assert_eq!(count, 0, "{cause}: {tally:?}"),
        }
    }
}

#[test]
fn good_texts() {
    check_tally(cases::good_texts(), &[(0, 7000), (1, 300)]);
    check_tally(cases::every_size(), &[(0, 290), (1, 130)]);
}

#[test]
fn damaged_texts() {
    let refused = [(1, 2000), (2, 1), (14, 3000), (16, 10_000), (17, 3000)];
    check_tally(
        cases::damaged_texts(),
        &[&[(0, 3000)], &refused[..]].concat(),
    );
}

#[test]
fn small_texts() {
    check_tally(cases::every_prefix(), &[(0, 3), (16, 300), (17, 30)]);
    let bytes = [(0, 300), (2, 10), (14, 200), (16, 3000), (17, 50)];
    check_tally(cases::every_byte(), &bytes);
    let numbers = [(0, 100), (1, 1000), (14, 1000), (17, 1000)];
    check_tally(cases::every_number(), &numbers);
    let pieces = [(0, 300), (14, 300), (16, 300), (17, 300)];
    check_tally(cases::random_pieces(), &pieces);
}

#[test]
fn short_buffers() {
    let least = [(0, 200), (1, 100), (2, 1000), (14, 50), (16, 200), (17, 50)];
    check_tally(cases::short_buffers(), &least);
}

/// Every length: refused exactly if a buffer is short, the adjacency first.
#[test]
fn every_length() {
    for case in cases::every_length() {
        let [(_, text), (_, adjacency), (_, weights)] = case.call.buffers();
        let n = usize::from(text[7] - b'0');
        let expected = if adjacency.len() < n * n {
            0x0001_0002
        } else if weights.len() / 2 < n * n.saturating_sub(1) / 2 {
            0x0002_0002
        } else {
            0x600 | ((n * n.saturating_sub(1) / 2) as u64) << 16 | (n as u64) << 32
        };
        assert_eq!(case.number, expected, "{}", case.name);
    }
}

/// Damage is found in any line, and in none.
#[test]
fn lines_at_fault() {
    let places: BTreeSet<u64> = cases::damaged_texts()
        .filter(|case| matches!(case.cause(), 1 | 14 | 16))
        .map(|case| case.place())
        .collect();
    assert!((0..60).all(|line| places.contains(&line)), "{places:?}");
}

/// Runs a text through the C entry, between guards, beside the reference. Returns
/// the case.
fn check(name: &str, text: Vec<u8>) -> FillingCase {
    let mut random = Random::new(text.len() as u64);
    let call = Filling {
        source: Source::Text {
            bytes: text,
            seed: 0x1234_5678,
        },
        adjacency: random.bytes(96 * 96 + 3),
        weights: random.bytes(96 * 95 + 5),
    };
    let case = FillingCase::new(name.to_string(), call);
    case.check(&mut random);
    case
}

/// Checks that a text is read, and returns n and the number of edges.
fn accepted(name: &str, text: Vec<u8>) -> (u64, u64) {
    let case = check(name, text);
    assert_eq!(case.number >> 8 & 0xFF, 6, "{name}: {:#x}", case.number);
    (case.number >> 32, case.number >> 16 & 0xFFFF)
}

/// Checks that a text is refused, and returns the cause and the place.
fn refused(name: &str, text: Vec<u8>) -> (u64, u64) {
    let case = check(name, text);
    assert_ne!(case.cause(), 0, "{name}");
    (case.cause(), case.place())
}

/// Reads a sample of samples/, a text.
fn sample(name: &str) -> Vec<u8> {
    let samples = Path::new(env!("CARGO_MANIFEST_DIR")).join("../../samples");
    fs::read(samples.join(name)).unwrap_or_else(|error| panic!("{name}: {error}"))
}

#[test]
fn well_known_graphs() {
    for (name, n, edges) in [
        ("myciel3", 11, 20),
        ("myciel4", 23, 71),
        ("myciel5", 47, 236),
        ("myciel6", 95, 755),
        ("queen5_5", 25, 160),
        ("queen6_6", 36, 290),
        ("queen8_8", 64, 728),
        ("queen8_12", 96, 1368),
    ] {
        let text = sample(&format!("{name}.col"));
        assert_eq!(accepted(name, text), (n, edges));
    }
}

/// A file that was read in part: every prefix of several texts.
#[test]
fn every_prefix() {
    let mut random = Random::new(50);
    let mut texts: Vec<Vec<u8>> = (0..12)
        .map(|n| texts::good(&mut random, n).bytes())
        .collect();
    texts.push(sample("myciel4.col"));
    for text in texts {
        for length in 0..text.len() {
            let case = check("a prefix", text[..length].to_vec());
            let feeds = text[..length].iter().filter(|&&byte| byte == b'\n').count() as u64;
            if length > 0 && text[length - 1] != b'\n' {
                assert_eq!((case.cause(), case.place()), (16, feeds + 1));
            }
        }
        check("the whole text", text);
    }
}

#[test]
fn all_edges_of_96_vertices() {
    let edges: Vec<(usize, usize)> = (1..=96)
        .flat_map(|u| (1..=96).map(move |v| (u, v)))
        .filter(|(u, v)| u != v)
        .collect();
    let whole = Text::plain(96, &edges).bytes();
    assert_eq!(
        accepted("all edges in both orders", whole.clone()),
        (96, 4560)
    );
    for cut in (1..whole.len()).step_by(997) {
        refused("all edges, cut", whole[..cut].to_vec());
    }
    let complete = cases::complete(96).bytes();
    assert_eq!(accepted("all edges once", complete), (96, 4560));
}

/// Lines above 2^16 and 2^24 come back exactly.
#[test]
fn late_lines() {
    for before in [65_534, 65_535, 65_536, (1 << 24) - 1, 1 << 24] {
        let line = before as u64 + 1;
        let name = format!("a fault in line {line}");
        let comments = b"c\n".repeat(before);
        let with = |last: &[u8]| [&comments, last].concat();
        assert_eq!(refused(&name, with(b"x\n")), (16, line));
        assert_eq!(refused(&name, with(b"p edge 97 0\n")), (1, line));
        if before <= 65_536 {
            let with = |last: &[u8]| [b"p edge 3 1\n", &comments[..], last].concat();
            assert_eq!(refused(&name, with(b"e 1 4\n")), (14, line + 1));
            assert_eq!(refused(&name, with(b"e 1 2")), (16, line + 1));
            assert_eq!(accepted(&name, with(b"e 1 2\n")), (3, 1));
        }
    }
}

/// A text of 40 MB: comments, and millions of lines with the same few edges.
#[test]
fn a_long_text() {
    let lines = 4_000_000;
    let comment = [&b"c "[..], &b"long".repeat(2_000_000), b"\n"].concat();
    let edges = b"e 1 2\ne 3 1\ne 2 1\ne 96 1\n".repeat(lines / 4);
    let with = |m: usize| {
        let problem = format!("p edge 96 {m}\n").into_bytes();
        [&problem[..], &comment, &edges, &comment].concat()
    };
    let text = with(lines);
    assert!(text.len() > 40_000_000);
    assert_eq!(accepted("a long text", text), (96, 3));
    for m in [lines - 1, lines + 1, lines + (1 << 32)] {
        assert_eq!(refused("a long text, another M", with(m)), (17, 0));
    }
}

/// Numbers of 100,000 digits, in every field.
#[test]
fn long_numbers() {
    let zeros = "0".repeat(100_000);
    let text = format!("p edge {zeros}96 {zeros}2\ne {zeros}96 {zeros}1\ne {zeros}1 {zeros}96\n");
    assert_eq!(accepted("zeros", text.into_bytes()), (96, 1));
    for high in ["1", "18446744073709551616", "9", &"9".repeat(100_000)] {
        let text = |line: &str| line.replace('#', &format!("{high}{zeros}")).into_bytes();
        assert_eq!(refused("N", text("c\np edge #3 0\n")), (1, 2));
        assert_eq!(refused("M", text("p edge 3 #1\ne 1 2\n")), (17, 0));
        assert_eq!(refused("u", text("p edge 3 1\ne #1 2\n")), (14, 2));
        assert_eq!(refused("v", text("p edge 3 1\nc\ne 1 #2\n")), (14, 3));
        assert_eq!(refused("no feed", text("p edge 3 1\ne 1 #2")), (16, 2));
        assert_eq!(refused("no digit", text("p edge 3 1\ne 1 #2x\n")), (16, 2));
    }
}

/// Numbers that equal a right one in their last bits.
#[test]
fn numbers_that_wrap() {
    for bit in 7..=126 {
        let beyond = |number: u128| (number + (1 << bit)).to_string();
        let text = |line: String| line.into_bytes();
        let (zero, one, three) = (beyond(0), beyond(1), beyond(3));
        assert_eq!(refused("N", text(format!("p edge {three} 0\n"))), (1, 1));
        assert_eq!(refused("M", text(format!("p edge 3 {zero}\n"))), (17, 0));
        assert_eq!(
            refused("M", text(format!("p edge 3 {one}\ne 1 2\n"))),
            (17, 0)
        );
        assert_eq!(
            refused("u", text(format!("p edge 3 1\ne {one} 2\n"))),
            (14, 2)
        );
        assert_eq!(
            refused("v", text(format!("p edge 3 1\ne 2 {one}\n"))),
            (14, 2)
        );
    }
}

/// A text and a sheet with the same graph and seed fill the same bytes, and the
/// weights are those of a call that draws.
#[test]
fn a_text_and_a_sheet_of_the_same_graph() {
    let mut random = Random::new(51);
    for n in 0..=96_u8 {
        let seed = random.number() as u32;
        let sheet = Sheet::complete(n, seed).shuffled(&mut random).bytes();
        let mut from_sheet = (vec![7; 9216], vec![9; 9120]);
        let mut from_text = from_sheet.clone();
        let text = cases::complete(n.into()).bytes();
        let number = entry::read(&sheet, &mut from_sheet.0, &mut from_sheet.1);
        let same = entry::read_dimacs(&text, seed, &mut from_text.0, &mut from_text.1);
        assert_eq!(number, same);
        assert_eq!(from_sheet, from_text);
        let mut drawn = vec![9; 9120];
        entry::draw(n.into(), seed, &mut drawn);
        assert_eq!(drawn, from_text.1);
    }
}

/// Opening refuses no graph that was read.
#[test]
fn what_is_read_opens() {
    let mut random = Random::new(52);
    let mut opened = [0; 2];
    for case in cases::good_texts().filter(|case| case.cause() == 0) {
        let n = (case.number >> 32) as usize;
        let mut call = Call::new(&mut random, &Graph::empty(n), 0);
        let written = Written {
            inverse: &mut call.inverse,
            sequence: &mut call.sequence,
            witness: &mut call.witness,
            work: &mut call.work,
        };
        let number = entry::open(
            n as u64,
            &case.after.adjacency,
            &case.after.weights,
            written,
        );
        match number & 0xFFFF {
            0x100 => opened[0] += 1,
            0x200 => opened[1] += 1,
            _ => panic!("{}: {number:#x}", case.name),
        }
    }
    assert!(opened[0] > 1000 && opened[1] > 1000, "{opened:?}");
}
