//! Document 02, request 1: the DIMACS edge format, and the causes 1, 2, 14, 16 and
//! 17.

mod common;

use common::*;
use reference::causes::{Cause, Refusal};
use reference::dimacs::read_dimacs;
use reference::draws;
use reference::numbers::{read_number, LAST_PLACE};
use reference::records::{read_graph, Counts};

/// Reads into buffers of the given lengths, full of junk.
fn read_into(text: &[u8], adjacency: usize, weights: usize) -> Result<Counts, Refusal> {
    let mut table = vec![JUNK_BYTE; adjacency];
    let mut words = vec![JUNK_WORD; weights];
    let answer = read_dimacs(text, 7, &mut table, &mut words);
    if answer.is_err() {
        assert_eq!(table, vec![JUNK_BYTE; adjacency]);
        assert_eq!(words, vec![JUNK_WORD; weights]);
    }
    answer
}

/// Returns the refusal, which must be the same for any lengths of the buffers.
fn refused(text: impl AsRef<[u8]>) -> (u8, u64) {
    let long = read_into(text.as_ref(), 9216, 4560).expect_err("a refusal");
    let empty = read_into(text.as_ref(), 0, 0).expect_err("a refusal");
    assert_eq!(long, empty);
    long.numbers()
}

/// Returns the size and the number of edges.
fn accepted(text: impl AsRef<[u8]>) -> (u64, u64) {
    let counts = read_into(text.as_ref(), 9216, 4560).expect("accepted");
    (counts.size, counts.edges)
}

/// Numbers that equal this one in their last 8, 16, 32, 64 or 128 bits, or in
/// their last digits.
fn wrapped(number: u64) -> [String; 7] {
    let number = u128::from(number);
    [
        (number + 256).to_string(),
        (number + 65536).to_string(),
        (number + (1 << 32)).to_string(),
        (number + (1 << 64)).to_string(),
        // 2^128.
        format!("3402823669209384634633746074317682114{}", 56 + number),
        format!("1{number:040}"),
        format!("1{number:05000}"),
    ]
}

#[test]
fn a_good_text_fills_adjacency_and_weights() {
    let text = b"c four vertices\np edge 4 3\ne 1 2\ne 3 1\ne 4 2\n";
    let mut table = [JUNK_BYTE; 18];
    let mut words = [JUNK_WORD; 8];
    let counts = read_dimacs(text, 0, &mut table, &mut words);
    assert_eq!(counts, Ok(Counts { size: 4, edges: 3 }));
    let rows = [[0, 1, 1, 0], [1, 0, 0, 1], [1, 0, 0, 0], [0, 1, 0, 0]];
    assert_eq!(table[..16], rows.as_flattened()[..]);
    assert_eq!(table[16..], [JUNK_BYTE; 2]);
    assert_eq!(words[..6], [15471, 18257, 53709, 43770, 25171, 40751]);
    assert_eq!(words[6..], [JUNK_WORD; 2]);
}

#[test]
fn the_seed_is_given_beside_the_text() {
    for seed in [0, 1, 0x1234_5678, u32::MAX] {
        let mut words = [0; 1];
        let read = read_dimacs(b"p edge 2 0\n", seed, &mut [9; 4], &mut words);
        assert!(read.is_ok());
        assert_eq!(Some(words[0]), draws::weights(seed).next());
    }
}

#[test]
fn smallest_graphs() {
    let none = Ok(Counts { size: 0, edges: 0 });
    assert_eq!(read_into(b"p edge 0 0\n", 0, 0), none);
    let one = Ok(Counts { size: 1, edges: 0 });
    assert_eq!(read_into(b"p edge 1 0\n", 1, 0), one);
    for n in [0, 1] {
        assert_eq!(refused(format!("p edge {n} 1\ne 1 1\n")), (14, 2));
        assert_eq!(refused(format!("p edge {n} 1\ne 1 2\n")), (14, 2));
        assert_eq!(refused(format!("p edge {n} 1\n")), (17, 0));
    }
}

/// Any line that begins with c is a comment, wherever it stands.
#[test]
fn comments() {
    for comment in [
        "c",
        "c ",
        "c a comment",
        "comment",
        "cp edge 3 1",
        "c p edge 3 1",
        "c\r",
        "c\tx\0\u{e9}",
        "ce 1 2",
        "cc",
    ] {
        let text = format!("{comment}\np edge 3 1\n{comment}\n{comment}\ne 1 2\n{comment}\n");
        assert_eq!(accepted(text), (3, 1), "{comment:?}");
    }
    let any_bytes: Vec<u8> = (0..=255).filter(|&byte| byte != b'\n').collect();
    let text = [b"c", &any_bytes[..], b"\np edge 0 0\n"].concat();
    assert_eq!(accepted(text), (0, 0));
}

#[test]
fn comments_count_as_lines() {
    assert_eq!(refused("c\nc\ne 1 2\n"), (16, 3));
    assert_eq!(refused("c\np edge 97 0\n"), (1, 2));
    assert_eq!(refused("c\np edge 2 1\nc\nc\ne 1 3\n"), (14, 5));
    assert_eq!(refused("p edge 2 1\nc\nx\n"), (16, 3));
}

/// The line in place of one that is right, and then of one after the others.
#[test]
fn lines_of_no_form() {
    for line in [
        "",
        " ",
        "\r",
        "x",
        " c",
        "\tc",
        "C comment",
        "p",
        "p ",
        "p edge",
        "p edge 3",
        "p edge 3 ",
        "p edge 3 1 ",
        "p edge 3 1 1",
        "p edge 3 1\r",
        "p edge 3 1\t",
        "p edge 3 1c",
        "p edge 3  1",
        "p edge  3 1",
        "p  edge 3 1",
        " p edge 3 1",
        "p\tedge 3 1",
        "p edge\t3 1",
        "p edge 3\t1",
        "p edge 3,1",
        "p col 3 1",
        "p edges 3 1",
        "p edg 3 1",
        "p Edge 3 1",
        "P edge 3 1",
        "pedge 3 1",
        "p edge3 1",
        "p 3 1",
        "p edge +3 1",
        "p edge -3 1",
        "p edge 3 -1",
        "p edge 3 +1",
        "p edge 3.0 1",
        "p edge 0x3 1",
        "p edge 3 1e0",
        "p edge three 1",
        "p edge 3\0 1",
        "p edge \u{663} 1",
        "e",
        "e ",
        "e 1",
        "e 1 ",
        "e  1 2",
        "e 1  2",
        "e 1 2 ",
        "e 1 2 3",
        "e 1 2\r",
        "e 1 2\t",
        "e 1\t2",
        "e\t1 2",
        " e 1 2",
        "E 1 2",
        "e1 2",
        "edge 1 2",
        "e 1,2",
        "e +1 2",
        "e 1 +2",
        "e -1 2",
        "e 1 -2",
        "e 1 2c",
        "e a b",
        "e 1/2",
        "e 1:2",
        "e 1 2:",
        "e 1 2\0",
        "1 2",
        "a 1 2",
        "n 1 2",
    ] {
        assert_eq!(refused(format!("{line}\n")), (16, 1), "{line:?}");
        let text = format!("c\np edge 3 1\ne 1 2\n{line}\n");
        assert_eq!(refused(text), (16, 4), "{line:?}");
    }
}

/// No byte but a digit stands in a field, and none but a space between fields.
#[test]
fn every_byte_in_a_field_and_between() {
    for byte in (0..=255).filter(|&byte| byte != b'\n') {
        let around = |before: &[u8], after: &[u8]| [before, &[byte], after].concat();
        let problem = read_into(&around(b"p edge 9", b" 0\n"), 9216, 4560);
        let edge = read_into(&around(b"p edge 96 1\ne 9", b" 1\n"), 9216, 4560);
        let answers = [problem, edge].map(|answer| answer.map_err(Refusal::numbers).err());
        let expected = match byte {
            b'0'..=b'6' => [None, None],
            b'7'..=b'9' => [Some((1, 1)), Some((14, 2))],
            _ => [Some((16, 1)), Some((16, 2))],
        };
        assert_eq!(answers, expected, "{byte}");
        if byte != b' ' {
            assert_eq!(refused(around(b"p edge 9", b"0\n")), (16, 1));
            assert_eq!(refused(around(b"p", b"edge 9 0\n")), (16, 1));
            assert_eq!(refused(around(b"p edge", b"9 0\n")), (16, 1));
            assert_eq!(refused(around(b"p edge 9 1\ne", b"1 2\n")), (16, 2));
            assert_eq!(refused(around(b"p edge 9 1\ne 1", b"2\n")), (16, 2));
        }
    }
}

/// Bytes after the last line feed are a line of no such form.
#[test]
fn every_line_ends_in_a_line_feed() {
    assert_eq!(refused("c"), (16, 1));
    assert_eq!(refused("c\nc"), (16, 2));
    assert_eq!(refused("p edge 0 0"), (16, 1));
    assert_eq!(refused("p edge 97 0"), (16, 1));
    assert_eq!(refused("p edge 3 1\ne 1 2"), (16, 2));
    assert_eq!(refused("p edge 3 1\ne 1 2\nc"), (16, 3));
    assert_eq!(refused("p edge 3 1\ne 1 2\n "), (16, 3));
    assert_eq!(refused("p edge 3 1\ne 1 2\n\n"), (16, 3));
    assert_eq!(refused("p edge 3 1\ne 9 9"), (16, 2));
    assert_eq!(refused("p edge 3 1\r\ne 1 2\r\n"), (16, 1));
    assert_eq!(refused("p edge 3 1\re 1 2\r"), (16, 1));
    assert_eq!(refused("c\re 1 2\n"), (16, 0));
}

/// Every prefix ends in a line without its line feed, or lacks lines.
#[test]
fn every_prefix() {
    let text = b"c one\np edge 3 2\ne 1 2\nc two\ne 2 3\n";
    for length in 0..text.len() {
        let prefix = &text[..length];
        let feeds = prefix.iter().filter(|&&byte| byte == b'\n').count() as u64;
        let whole = prefix.last().is_none_or(|&byte| byte == b'\n');
        let expected = match (whole, feeds) {
            (false, _) => (16, feeds + 1),
            (true, 0 | 1) => (16, 0),
            (true, _) => (17, 0),
        };
        assert_eq!(refused(prefix), expected, "{length}");
    }
    assert_eq!(accepted(text), (3, 2));
}

#[test]
fn no_problem_line() {
    assert_eq!(refused(""), (16, 0));
    assert_eq!(refused("c\n"), (16, 0));
    assert_eq!(refused("c p edge 3 1\ncomment\n"), (16, 0));
    assert_eq!(refused("\n"), (16, 1));
}

#[test]
fn a_second_problem_line() {
    assert_eq!(refused("p edge 3 1\np edge 3 1\ne 1 2\n"), (16, 2));
    assert_eq!(refused("p edge 3 1\ne 1 2\np edge 3 1\n"), (16, 3));
    assert_eq!(refused("p edge 3 0\nc\np edge 97 0\n"), (16, 3));
    assert_eq!(
        refused("p edge 3 0\np edge 99999999999999999999 0\n"),
        (16, 2)
    );
    assert_eq!(refused("p edge 0 0\np edge 0 0\n"), (16, 2));
}

#[test]
fn an_edge_before_the_problem_line() {
    assert_eq!(refused("e 1 2\np edge 3 1\n"), (16, 1));
    assert_eq!(refused("c\ne 1 2\n"), (16, 2));
    // Not 14, although no graph has these vertices.
    assert_eq!(refused("e 0 0\n"), (16, 1));
    assert_eq!(refused("e 97 98\n"), (16, 1));
}

#[test]
fn size_above_96() {
    assert_eq!(accepted("p edge 96 0\n"), (96, 0));
    for n in ["97", "100", "255", "960", "0097"] {
        assert_eq!(refused(format!("p edge {n} 0\n")), (1, 1));
        assert_eq!(refused(format!("c\nc\np edge {n} 5\n")), (1, 3));
    }
    for n in (0..=96).flat_map(wrapped) {
        assert_eq!(refused(format!("p edge {n} 0\n")), (1, 1), "{n}");
    }
}

#[test]
fn leading_zeros() {
    let zeros = "0".repeat(3000);
    assert_eq!(accepted("p edge 003 01\ne 0001 02\n"), (3, 1));
    assert_eq!(accepted("p edge 00 00\n"), (0, 0));
    let text = format!("p edge {zeros}96 {zeros}1\ne {zeros}96 {zeros}95\n");
    assert_eq!(accepted(text), (96, 1));
    // Zeros alone are 0, and the same vertex may be written in two ways.
    assert_eq!(refused(format!("p edge 3 1\ne {zeros} 1\n")), (14, 2));
    assert_eq!(refused(format!("p edge 3 1\ne 2 {zeros}2\n")), (14, 2));
    assert_eq!(refused(format!("p edge 3 1\ne 2 {zeros}4\n")), (14, 2));
    assert_eq!(refused(format!("p edge 3 {zeros}\ne 1 2\n")), (17, 0));
}

#[test]
fn vertices_count_from_1() {
    assert_eq!(accepted("p edge 4 1\ne 4 1\n"), (4, 1));
    for (u, v) in [
        (0, 1),
        (1, 0),
        (0, 0),
        (5, 1),
        (1, 5),
        (5, 5),
        (2, 2),
        (4, 4),
        (0, 5),
        (97, 1),
        (1, 256),
    ] {
        assert_eq!(refused(format!("p edge 4 1\ne {u} {v}\n")), (14, 2));
        assert_eq!(
            refused(format!("p edge 4 1\ne 1 2\nc\ne {u} {v}\n")),
            (14, 4)
        );
    }
    for number in (0..=4).flat_map(wrapped) {
        assert_eq!(refused(format!("p edge 4 1\ne {number} 3\n")), (14, 2));
        assert_eq!(refused(format!("p edge 4 1\ne 3 {number}\n")), (14, 2));
        assert_eq!(
            refused(format!("p edge 4 1\ne {number} {number}\n")),
            (14, 2)
        );
    }
}

/// Every vertex of every size, in both fields, and the next one.
#[test]
fn every_vertex() {
    for n in 2..=96_u64 {
        for v in 2..=n {
            assert_eq!(accepted(format!("p edge {n} 1\ne {v} 1\n")), (n, 1));
            assert_eq!(accepted(format!("p edge {n} 1\ne 1 {v}\n")), (n, 1));
        }
        let next = n + 1;
        assert_eq!(refused(format!("p edge {n} 1\ne {next} 1\n")), (14, 2));
        assert_eq!(refused(format!("p edge {n} 1\ne 1 {next}\n")), (14, 2));
    }
}

#[test]
fn repeated_edges_are_one_edge() {
    assert_eq!(accepted("p edge 3 2\ne 1 2\ne 2 1\n"), (3, 1));
    assert_eq!(accepted("p edge 3 3\ne 1 2\ne 1 2\ne 3 2\n"), (3, 2));
    let many = "e 2 3\nc again\ne 3 2\n".repeat(2000);
    assert_eq!(accepted(format!("p edge 3 4000\n{many}")), (3, 1));
}

/// Every line of an edge counts, also one that repeats an edge.
#[test]
fn lines_of_edges_counted() {
    let edges = "e 1 2\ne 2 1\ne 1 3\n";
    assert_eq!(accepted(format!("p edge 3 3\n{edges}")), (3, 2));
    for m in [0, 1, 2, 4, 5, 33, 4560] {
        assert_eq!(refused(format!("p edge 3 {m}\n{edges}")), (17, 0), "{m}");
    }
    for m in wrapped(3) {
        assert_eq!(refused(format!("p edge 3 {m}\n{edges}")), (17, 0), "{m}");
    }
    for m in wrapped(0) {
        assert_eq!(refused(format!("p edge 3 {m}\n")), (17, 0), "{m}");
    }
    // 2^64 - 1, and what 32 and 64 bits make of -3.
    for m in ["18446744073709551615", "4294967293", "18446744073709551613"] {
        assert_eq!(refused(format!("p edge 3 {m}\n{edges}")), (17, 0), "{m}");
    }
}

#[test]
fn the_first_line_at_fault_counts() {
    // Whatever comes after it.
    assert_eq!(refused("p edge 97 0\nnonsense\ne 1 1"), (1, 1));
    assert_eq!(refused("p edge 3 0\ne 9 9\nnonsense\n"), (14, 2));
    assert_eq!(refused("p edge 3 0\ne 1 1\np edge 97 0\n"), (14, 2));
    assert_eq!(refused("p edge 3 0\nnonsense\ne 9 9\n"), (16, 2));
    assert_eq!(refused("nonsense\np edge 97 0\n"), (16, 1));
    assert_eq!(refused("e 1 2\np edge 97 0\n"), (16, 1));
    assert_eq!(refused("p edge 3 0\ne 1 2\ne 1 4\ne 1 2"), (14, 3));
}

/// The form of a line is judged before its numbers.
#[test]
fn within_a_line_16_comes_first() {
    assert_eq!(refused("p edge 97 x\n"), (16, 1));
    assert_eq!(refused("p edge 97 1 \n"), (16, 1));
    assert_eq!(refused("p edge 97\n"), (16, 1));
    assert_eq!(refused("p edge 97 0\r\n"), (16, 1));
    assert_eq!(refused("p edge 3 1\ne 9 x\n"), (16, 2));
    assert_eq!(refused("p edge 3 1\ne 0\n"), (16, 2));
    assert_eq!(refused("p edge 3 1\ne 0 0 0\n"), (16, 2));
    assert_eq!(refused("p edge 3 1\ne 9 9 \n"), (16, 2));
}

#[test]
fn after_the_lines_16_then_17() {
    // Without a problem line there is no number to compare.
    assert_eq!(refused("c\nc\n"), (16, 0));
    // A fault of a line comes before a wrong number of lines.
    assert_eq!(refused("p edge 3 5\ne 1 2\ne 1 4\n"), (14, 3));
    assert_eq!(refused("p edge 3 1\ne 1 2\ne 1 3\ne 1 2\nx\n"), (16, 5));
    assert_eq!(refused("p edge 3 1\ne 1 2\ne 1 3\n"), (17, 0));
}

#[test]
fn short_buffers_come_last() {
    let good = b"p edge 4 1\ne 1 2\n";
    let numbers = |adjacency, weights| {
        let refusal = read_into(good, adjacency, weights).expect_err("a refusal");
        refusal.numbers()
    };
    assert_eq!(numbers(15, 6), (2, 1));
    assert_eq!(numbers(16, 5), (2, 2));
    assert_eq!(numbers(0, 0), (2, 1));
    assert!(read_into(good, 16, 6).is_ok());
    let wrong_count = read_into(b"p edge 4 2\ne 1 2\n", 3, 1);
    assert_eq!(wrong_count.expect_err("a refusal").numbers(), (17, 0));
}

#[test]
fn numbers_of_the_host() {
    let number = |text: &[u8], adjacency| read_number(read_into(text, adjacency, 4560));
    assert_eq!(number(b"p edge 4 2\ne 1 2\ne 2 1\n", 16), 0x4_0001_0600);
    assert_eq!(number(b"p edge 96 0\n", 9216), 0x60_0000_0600);
    assert_eq!(number(b"p edge 4 0\n", 15), 0x0001_0002);
    assert_eq!(number(b"p edge 4 1\ne 1 5\n", 16), 0x0002_000e);
    assert_eq!(number(b"", 16), 0x10);
    assert_eq!(number(b"p edge 4 1\n", 16), 0x11);
}

/// A line above 65535 comes back in full, up to the largest of 47 bits.
#[test]
fn numbers_of_late_lines() {
    for line in [65_535, 65_536, 65_537, 200_000] {
        let text = "c\n".repeat(line - 1) + "x\n";
        let number = read_number(read_into(text.as_bytes(), 0, 0));
        assert_eq!(number, 16 | (line as u64) << 16);
    }
    let number = |line| read_number(Err(Cause::LineInvalid.at(line)));
    assert_eq!(LAST_PLACE, 140_737_488_355_327);
    for line in [1 << 24, 1 << 32, LAST_PLACE - 1, LAST_PLACE] {
        assert_eq!(number(line), 16 | line << 16);
    }
    for line in [LAST_PLACE + 1, LAST_PLACE + 2, u64::MAX] {
        assert_eq!(number(line), 0x7fff_ffff_ffff_0010);
    }
}

/// A text and a sheet with the same graph and seed fill the same bytes.
#[test]
fn a_text_and_a_sheet_of_the_same_graph() {
    let mut random = Random(61);
    for n in 0..=96 {
        let percent = random.choose(&[0, 10, 50, 100]);
        let edges: Vec<(u8, u8)> = every_two(n)
            .into_iter()
            .filter(|_| random.chance(percent))
            .map(|(i, j)| (i as u8, j as u8))
            .collect();
        let seed = random.next() as u32;
        let mut text = format!("p edge {n} {}\n", edges.len());
        for (i, j) in &edges {
            text += &format!("e {} {}\n", j + 1, i + 1);
        }
        let mut from_text = (vec![JUNK_BYTE; n * n + 1], vec![JUNK_WORD; n * n + 1]);
        let mut from_sheet = from_text.clone();
        let counts = read_dimacs(text.as_bytes(), seed, &mut from_text.0, &mut from_text.1);
        let sheet = records(n as u8, seed, &edges);
        assert_eq!(
            counts,
            read_graph(&sheet, &mut from_sheet.0, &mut from_sheet.1)
        );
        assert_eq!(from_text, from_sheet);
        let read = Counts {
            size: n as u64,
            edges: edges.len() as u64,
        };
        assert_eq!(counts, Ok(read));
    }
}

/// The size and the edges of an accepted graph.
type SizeAndEdges = (u64, Vec<(u64, u64)>);

/// Finds what the reader must answer, byte after byte: the graph, or a cause and
/// its place. Numbers have at most 19 digits here.
fn expected(text: &[u8]) -> Result<SizeAndEdges, (u8, u64)> {
    let mut at = 0;
    let mut line = 0;
    let (mut size, mut announced, mut lines) = (None, 0, 0);
    let mut edges = Vec::new();
    while at < text.len() {
        line += 1;
        let no_form = (16, line);
        if text[at] == b'c' {
            while *text.get(at).ok_or(no_form)? != b'\n' {
                at += 1;
            }
            at += 1;
        } else if text[at..].starts_with(b"p edge ") {
            at += 7;
            let n = number(text, &mut at, b' ').ok_or(no_form)?;
            announced = number(text, &mut at, b'\n').ok_or(no_form)?;
            if size.is_some() {
                return Err(no_form);
            }
            if n > 96 {
                return Err((1, line));
            }
            size = Some(n);
        } else if text[at..].starts_with(b"e ") {
            at += 2;
            let u = number(text, &mut at, b' ').ok_or(no_form)?;
            let v = number(text, &mut at, b'\n').ok_or(no_form)?;
            let n = size.ok_or(no_form)?;
            if !(1..=n).contains(&u) || !(1..=n).contains(&v) || u == v {
                return Err((14, line));
            }
            lines += 1;
            let edge = (u.min(v), u.max(v));
            if !edges.contains(&edge) {
                edges.push(edge);
            }
        } else {
            return Err(no_form);
        }
    }
    let size = size.ok_or((16, 0))?;
    if announced == lines {
        Ok((size, edges))
    } else {
        Err((17, 0))
    }
}

/// Reads a number and the byte after it, and moves past both.
fn number(text: &[u8], at: &mut usize, after: u8) -> Option<u64> {
    let start = *at;
    let mut value = 0;
    while text.get(*at)?.is_ascii_digit() {
        value = 10 * value + u64::from(text[*at] - b'0');
        *at += 1;
    }
    let right = *at > start && text[*at] == after;
    *at += 1;
    right.then_some(value)
}

/// Makes a text that is nearly right: a few lines, and a few bytes changed.
fn close_to_a_good_text(random: &mut Random) -> Vec<u8> {
    let n = random.choose(&[0, 1, 2, 3, 4, 4, 5, 5, 6, 6, 95, 96, 97]);
    let mut lines = Vec::new();
    for _ in 0..random.below(6) {
        if random.chance(20) {
            lines.push("c e 1 2\n".to_string());
        }
        let most = if random.chance(90) { n.max(1) } else { n + 2 };
        let (u, v) = (1 + random.below(most), 1 + random.below(most));
        if u != v || random.chance(10) {
            lines.push(format!("e {u} {v}\n"));
        }
    }
    let edges = lines.iter().filter(|line| line.starts_with('e')).count() as u64;
    let announced = edges + u64::from(random.chance(15));
    let mut text = format!("p edge {n} {announced}\n{}", lines.concat()).into_bytes();
    for _ in 0..random.below(3) {
        let index = random.below(text.len() as u64) as usize;
        let byte = random.choose(b"cpe  012\n\n\t\r");
        match random.below(4) {
            0 => text[index] = byte,
            1 => text.insert(index, byte),
            2 => text.truncate(index.max(1)),
            _ => drop(text.remove(index)),
        }
    }
    text
}

#[test]
fn random_texts_close_to_a_good_one() {
    let mut random = Random(62);
    let mut tally = [0; 18];
    for _ in 0..20_000 {
        let text = close_to_a_good_text(&mut random);
        let mut table = vec![JUNK_BYTE; 9218];
        let mut words = vec![JUNK_WORD; 4562];
        let answer = read_dimacs(&text, 5, &mut table, &mut words);
        match expected(&text) {
            Err((cause, place)) => {
                let refusal = answer.expect_err("a refusal");
                assert_eq!(refusal.numbers(), (cause, place), "{text:?}");
                assert_eq!(table, vec![JUNK_BYTE; 9218]);
                assert_eq!(words, vec![JUNK_WORD; 4562]);
                tally[usize::from(cause)] += 1;
            }
            Ok((size, edges)) => {
                let counts = answer.expect("accepted");
                assert_eq!((counts.size, counts.edges), (size, edges.len() as u64));
                let n = size as usize;
                for (i, j) in every_two(n) {
                    let is_edge = edges.contains(&(i as u64 + 1, j as u64 + 1));
                    assert_eq!(table[i * n + j], u8::from(is_edge));
                    assert_eq!(table[j * n + i], u8::from(is_edge));
                }
                assert!((0..n).all(|i| table[i * n + i] == 0));
                assert!(table[n * n..].iter().all(|&byte| byte == JUNK_BYTE));
                let count = weight_count(n);
                let drawn: Vec<u16> = draws::weights(5).take(count).collect();
                assert_eq!(words[..count], drawn[..]);
                assert!(words[count..].iter().all(|&word| word == JUNK_WORD));
                tally[0] += 1;
            }
        }
    }
    for (cause, count) in [(0, 3000), (1, 300), (14, 1000), (16, 5000), (17, 1000)] {
        assert!(tally[cause] > count, "{cause}: {tally:?}");
    }
}
