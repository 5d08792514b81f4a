//! The listing program beside the reference: what it prints for every sheet, byte
//! for byte. What it says of a perfect matching is judged without the reference too.

use sheet_tests::families::{self, Case};
use sheet_tests::matchings::exists;
use sheet_tests::outcomes::{outcome, Tally};
use sheet_tests::program::Program;
use sheet_tests::sheet::Sheet;
use sheet_tests::{cancelling, verdicts};

/// The input and the output that document 01 prints.
const LISTED: [u8; 17] = [
    0x01, 0x04, 0x03, 0x00, 0x00, 0x00, 0x00, 0x02, 0x00, 0x01, 0x02, 0x00, 0x02, 0x02, 0x01, 0x03,
    0x04,
];
const LISTING: &str = "sleeves 4 links 3\npair 0 2\npair 1 3\nverdict F\n";

const LIMIT: u64 = 16_384;

fn check(family: impl Iterator<Item = Case>) -> Tally {
    let program = Program::named();
    let mut tally = Tally::default();
    for case in family {
        let listing = program.check(&case.name, &case.bytes);
        tally.count(outcome(&case.bytes, &listing));
    }
    tally
}

#[test]
fn the_listed_input() {
    assert_eq!(Program::named().check("listed", &LISTED), LISTING);
    let empty = Program::named().check("empty", &[]);
    assert_eq!(empty, "refused 13 at 0\n");
}

/// Tells whether a listing of the path through n vertices is wrong in what it says of
/// a perfect matching. Its first line is right, and the others are given.
fn is_wrong(n: u8, lines: &[&str]) -> bool {
    let edges = (1..n).map(|vertex| (vertex, vertex - 1));
    let path = Sheet {
        size: n,
        seed: 0,
        edges: edges.collect(),
    };
    let first = format!("sleeves {n} links {}", path.edges.len());
    let listing = [&[&first[..]], lines, &[""]].concat().join("\n");
    verdicts::fault(&path.bytes(), &listing).is_some()
}

/// The records alone tell these wrong listings apart from right ones.
#[test]
fn wrong_verdicts() {
    assert!(!is_wrong(0, &["verdict F"]));
    assert!(!is_wrong(4, &["pair 0 1", "pair 2 3", "verdict F"]));
    assert!(!is_wrong(4, &["pair 2 3", "pair 0 1", "verdict F"]));
    assert!(!is_wrong(4, &["witness 0 1", "verdict U"]));
    assert!(!is_wrong(3, &["witness 0 1", "witness 2 1", "verdict O"]));
    let wrong: [(u8, &[&str]); 19] = [
        (0, &["verdict U"]),
        (4, &["verdict F"]),
        (4, &["pair 0 1", "verdict F"]),
        (4, &["pair 0 2", "pair 1 3", "verdict F"]),
        (4, &["pair 1 0", "pair 2 3", "verdict F"]),
        (4, &["pair 0 1", "pair 0 1", "verdict F"]),
        (4, &["pair 0 1", "pair 1 2", "pair 2 3", "verdict F"]),
        (4, &["pair 0 1", "pair 2 3 4", "verdict F"]),
        (4, &["pair 0 1", "pair 2 3", "witness 0 1", "verdict F"]),
        (4, &["pair 0 1", "pair 2 3", "verdict U"]),
        (4, &["witness 0 1", "pair 2 3", "verdict U"]),
        (4, &["witness 0 1", "verdict O"]),
        (4, &["witness 0 1", "verdict N"]),
        (4, &["witness 0 1"]),
        (4, &["verdict U"]),
        (3, &["witness 0 1", "witness 2 1", "verdict U"]),
        (3, &["pair 0 1", "verdict O"]),
        (3, &["pair 0 1", "verdict F"]),
        (3, &[]),
    ];
    for (n, lines) in wrong {
        assert!(is_wrong(n, lines), "n = {n}, {lines:?}");
    }
    let listing = "sleeves 4 links 3\nwitness 0 1\nverdict U\n";
    assert_eq!(verdicts::fault(&LISTED, listing), None);
    assert!(verdicts::fault(&LISTED[..16], listing).is_some());
    assert_eq!(verdicts::fault(&[], "refused 13 at 0\n"), None);
}

#[test]
fn search_for_a_perfect_matching() {
    for n in 0..=12 {
        let complete = Sheet::complete(n, 0).edges;
        assert_eq!(exists(n, &complete), n % 2 == 0);
        assert_eq!(exists(n, &[]), n == 0);
    }
    let triangles = [(0, 1), (1, 2), (2, 0), (3, 4), (4, 5), (5, 3)];
    assert!(!exists(6, &triangles));
    assert!(exists(6, &[&triangles[..], &[(1, 4)]].concat()));
    assert!(!exists(4, &[(0, 1), (0, 2), (0, 3)]));
    assert!(exists(4, &[(0, 1), (0, 2), (3, 1)]));
}

#[test]
fn small_sheets() {
    let tally = check(families::small_sheets());
    assert_eq!(tally.total(), 1000);
    for outcome in ["F", "O", "U, without a perfect matching"] {
        assert!(tally.of(outcome) > 150, "{outcome}");
    }
    assert!(tally.of("F without a vertex") > 20);
}

#[test]
fn middle_and_large_sheets() {
    let tally = check(families::middle_sheets().chain(families::large_sheets()));
    assert_eq!(tally.total(), 240);
    for outcome in ["F", "O", "U, more than 12 vertices"] {
        assert!(tally.of(outcome) > 30, "{outcome}");
    }
}

#[test]
fn low_ranks() {
    let tally = check(families::low_ranks());
    assert_eq!(tally.total(), 200);
    assert!(tally.of("O") > 80);
    assert!(tally.of("U, without a perfect matching") > 20);
    assert!(tally.of("U, more than 12 vertices") > 50);
}

/// U, although there is a perfect matching; F with the next seed.
#[test]
fn cancelling_weights() {
    let sheets = cancelling::sheets();
    for sheet in &sheets {
        let is_matched = (0..sheet.size / 2).all(|k| sheet.has_edge(2 * k, 2 * k + 1));
        assert!(sheet.size % 2 == 0 && is_matched, "{sheet:?}");
    }
    let tally = check(families::cancelling());
    assert_eq!((tally.total(), tally.of("F")), (2 * 36, 36));
    assert_eq!(tally.of("U, with a perfect matching"), 20);
    assert_eq!(tally.of("U, more than 12 vertices"), 16);
}

#[test]
fn every_size() {
    let tally = check(families::every_size());
    assert_eq!(tally.total(), 256);
    assert_eq!((tally.of("F"), tally.of("O")), (48, 48));
    assert_eq!((tally.of("F without a vertex"), tally.of("1")), (1, 159));
}

#[test]
fn seeds() {
    let tally = check(families::seeds());
    assert_eq!((tally.total(), tally.of("O")), (104, 104));
}

/// Every cause at every place of the reader.
#[test]
fn every_cause() {
    let mut tally = check(families::every_kind());
    assert_eq!(tally.total(), 7 * 256 * 2);
    tally.add(check(families::every_prefix()));
    tally.add(check(families::every_edge()));
    tally.add(check(families::damaged_sheets(1500)));
    tally.add(check(families::random_bytes(300)));
    tally.add(check(families::every_size()));
    tally.add(check(families::cancelling()));
    assert!(tally.total() > 5500, "{}", tally.total());
    assert!(tally.below(3).is_empty(), "{:?}", tally.below(3));
}

#[test]
fn long_inputs() {
    let tally = check(families::long_inputs());
    assert_eq!((tally.total(), tally.of("F")), (33, 1));
    assert_eq!(tally.of("13 behind an edge"), 1);
}

#[test]
fn a_byte_at_a_time() {
    let program = Program::named();
    let mut sheets = vec![Sheet::listed().bytes(), vec![1, 4, 3, 0], vec![1, 97, 3]];
    sheets.extend([0, 1, 2, 5].map(|n| Sheet::complete(n, 9).bytes()));
    for bytes in &sheets {
        let pieces: Vec<&[u8]> = bytes.chunks(1).collect();
        program.check_pieces("a byte at a time", &pieces);
    }
}

#[test]
fn two_pieces() {
    let program = Program::named();
    let listed = Sheet::listed().bytes();
    let largest = Sheet::complete(96, 2).bytes();
    for cut in 1..listed.len() {
        let (first, second) = listed.split_at(cut);
        let listing = program.check_pieces("two pieces", &[first, second]);
        assert_eq!(listing, LISTING);
    }
    for cut in [1, 4096, 8192, 13_687] {
        let (first, second) = largest.split_at(cut);
        program.check_pieces("two pieces of the largest sheet", &[first, second]);
    }
}

/// Pieces of the largest sheet, and of an input that is longer than what is
/// read.
#[test]
fn many_pieces() {
    let program = Program::named();
    let mut bytes = Sheet::complete(96, 3).bytes();
    for length in [13_688, 16_384, 20_000] {
        bytes.resize(length, 2);
        for size in [100, 1000, 4095] {
            let pieces: Vec<&[u8]> = bytes.chunks(size).collect();
            program.check_pieces("many pieces", &pieces);
        }
    }
}

/// From a file, the program reads no more than the limit.
#[test]
fn files() {
    let program = Program::named();
    for case in families::long_inputs() {
        program.check_file("long", &case.bytes, LIMIT);
    }
    assert_eq!(program.check_file("listed", &LISTED, LIMIT), LISTING);
    program.check_file("empty", &[], LIMIT);
}
