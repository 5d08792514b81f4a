//! Document 01, "Sheet records" and the causes 1, 2 and 12 to 15.

mod common;

use common::*;
use reference::causes::Refusal;
use reference::draws;
use reference::numbers::read_number;
use reference::records::{read_graph, Counts, Due, EdgeBody, Reader, Record};

/// Reads into buffers of the given lengths, full of junk.
fn read_into(bytes: &[u8], adjacency: usize, weights: usize) -> Result<Counts, Refusal> {
    let mut table = vec![JUNK_BYTE; adjacency];
    let mut words = vec![JUNK_WORD; weights];
    let answer = read_graph(bytes, &mut table, &mut words);
    if answer.is_err() {
        assert_eq!(table, vec![JUNK_BYTE; adjacency]);
        assert_eq!(words, vec![JUNK_WORD; weights]);
    }
    answer
}

/// Returns the refusal, which must be the same for any lengths of the buffers.
fn refused(bytes: &[u8]) -> (u8, u64) {
    let long = read_into(bytes, 9216, 4560).expect_err("a refusal");
    let empty = read_into(bytes, 0, 0).expect_err("a refusal");
    assert_eq!(long, empty);
    long.numbers()
}

#[test]
fn a_good_sheet_fills_adjacency_and_weights() {
    let bytes = records(4, 0, &[(0, 1), (2, 0), (3, 1)]);
    let mut table = [JUNK_BYTE; 18];
    let mut words = [JUNK_WORD; 8];
    let counts = read_graph(&bytes, &mut table, &mut words);
    assert_eq!(counts, Ok(Counts { size: 4, edges: 3 }));
    let rows = [[0, 1, 1, 0], [1, 0, 0, 1], [1, 0, 0, 0], [0, 1, 0, 0]];
    assert_eq!(table[..16], rows.as_flattened()[..]);
    assert_eq!(table[16..], [JUNK_BYTE; 2]);
    assert_eq!(words[..6], [15471, 18257, 53709, 43770, 25171, 40751]);
    assert_eq!(words[6..], [JUNK_WORD; 2]);
}

#[test]
fn seed_bytes_stand_low_first() {
    let mut words = [0; 1];
    let bytes = [1, 2, 3, 0x78, 0x56, 0x34, 0x12, 4];
    assert!(read_graph(&bytes, &mut [0; 4], &mut words).is_ok());
    assert_eq!(Some(words[0]), draws::weights(0x1234_5678).next());
}

#[test]
fn smallest_graphs() {
    let none = Ok(Counts { size: 0, edges: 0 });
    assert_eq!(read_into(&records(0, 9, &[]), 0, 0), none);
    let one = Ok(Counts { size: 1, edges: 0 });
    assert_eq!(read_into(&records(1, 9, &[]), 1, 0), one);
}

#[test]
fn size_above_96() {
    assert_eq!(refused(&[1, 97]), (1, 0));
    assert_eq!(refused(&[1, 0x61]), (1, 0));
    assert_eq!(refused(&[1, 255, 9, 9]), (1, 0));
    assert_eq!(refused(&records(97, 0, &[])), (1, 0));
    assert!(read_into(&records(96, 0, &[]), 9216, 4560).is_ok());
}

#[test]
fn kinds_unknown_or_not_due() {
    // Where the size is due.
    for kind in [0, 2, 3, 4, 5, 255] {
        assert_eq!(refused(&[kind]), (12, 0));
        assert_eq!(refused(&[kind, 1, 2, 3, 4]), (12, 0));
    }
    // Where the seed is due.
    for kind in [0, 1, 2, 4, 5, 255] {
        assert_eq!(refused(&[1, 4, kind]), (12, 2));
        assert_eq!(refused(&[1, 4, kind, 0, 1]), (12, 2));
    }
    // Where an edge or the end is due.
    for kind in [0, 1, 3, 5, 255] {
        assert_eq!(refused(&[1, 4, 3, 0, 0, 0, 0, kind]), (12, 7));
        assert_eq!(refused(&[1, 4, 3, 0, 0, 0, 0, 2, 0, 1, kind]), (12, 10));
    }
}

#[test]
fn bytes_after_the_end() {
    for byte in [0, 1, 2, 3, 4, 255] {
        let mut bytes = records(4, 0, &[(0, 1)]);
        bytes.push(byte);
        assert_eq!(refused(&bytes), (12, 11));
        bytes.extend([2, 9, 9]);
        assert_eq!(refused(&bytes), (12, 11));
    }
}

#[test]
fn data_stops() {
    let bytes = records(4, 0, &[(0, 1), (2, 3)]);
    for length in 0..bytes.len() {
        assert_eq!(refused(&bytes[..length]), (13, length as u64));
    }
    assert_eq!(refused(&[1]), (13, 1));
}

#[test]
fn a_cut_body_comes_before_its_vertices() {
    assert_eq!(refused(&[1, 4, 3, 0, 0, 0, 0, 2, 9]), (13, 9));
    assert_eq!(refused(&[1, 4, 3, 0, 0, 0, 0, 2, 0, 1, 2, 0]), (13, 12));
}

#[test]
fn vertices_of_a_record() {
    for (i, j) in [(0, 4), (4, 0), (255, 1), (1, 255), (4, 4), (2, 2), (0, 0)] {
        assert_eq!(refused(&records(4, 0, &[(i, j)])), (14, 7));
        assert_eq!(refused(&records(4, 0, &[(0, 1), (i, j)])), (14, 10));
    }
    for n in [0, 1] {
        assert_eq!(refused(&records(n, 0, &[(0, 1)])), (14, 7));
        assert_eq!(refused(&records(n, 0, &[(0, 0)])), (14, 7));
    }
}

#[test]
fn repeated_edges_in_either_order() {
    let between = [(0, 1), (2, 3)];
    for again in [(0, 1), (1, 0)] {
        let edges = [between[0], between[1], again];
        assert_eq!(refused(&records(4, 0, &edges)), (15, 13));
    }
}

#[test]
fn records_are_taken_in_order() {
    // A bad vertex, then an unknown kind, then the data stops.
    assert_eq!(refused(&[1, 4, 3, 0, 0, 0, 0, 2, 9, 0, 7]), (14, 7));
    // A repeated edge, then a bad vertex.
    let edges = [(0, 1), (1, 0), (9, 9)];
    assert_eq!(refused(&records(4, 0, &edges)), (15, 10));
    // A bad vertex, then a repeated edge.
    let edges = [(0, 1), (9, 9), (1, 0)];
    assert_eq!(refused(&records(4, 0, &edges)), (14, 10));
    // A size above 96, then an unknown kind.
    assert_eq!(refused(&[1, 97, 99]), (1, 0));
}

#[test]
fn short_buffers_come_last() {
    let good = records(4, 0, &[(0, 1)]);
    let numbers = |adjacency, weights| {
        let refusal = read_into(&good, adjacency, weights).expect_err("a refusal");
        refusal.numbers()
    };
    assert_eq!(numbers(15, 6), (2, 1));
    assert_eq!(numbers(16, 5), (2, 2));
    assert_eq!(numbers(0, 0), (2, 1));
    assert!(read_into(&good, 16, 6).is_ok());
    // Every other cause comes before, also a repeated edge.
    let twice = records(4, 0, &[(0, 1), (1, 0)]);
    let refusal = read_into(&twice, 3, 1).expect_err("a refusal");
    assert_eq!(refusal.numbers(), (15, 10));
}

#[test]
fn numbers_of_the_host() {
    let number = |bytes: &[u8], adjacency| read_number(read_into(bytes, adjacency, 4560));
    assert_eq!(number(&records(4, 0, &[(0, 1), (2, 3)]), 16), 0x4_0002_0600);
    assert_eq!(number(&records(96, 0, &[]), 9216), 0x60_0000_0600);
    assert_eq!(number(&records(4, 0, &[]), 15), 0x0001_0002);
    assert_eq!(number(&records(4, 0, &[(0, 4)]), 16), 0x0007_000e);
}

#[test]
fn reader_gives_one_record_after_the_other() {
    let bytes = records(4, 0x0102_0304, &[(3, 1)]);
    let mut reader = Reader::new(&bytes);
    assert_eq!(reader.next_record(Due::Size), Ok(Record::Size(4)));
    assert_eq!(reader.place(), 2);
    let before = reader.place();
    let refusal = reader.next_record(Due::EdgeOrEnd).expect_err("not due");
    assert_eq!(refusal.numbers(), (12, 2));
    assert_eq!(reader.place(), before);
    assert_eq!(reader.next_record(Due::Seed), Ok(Record::Seed(0x0102_0304)));
    let body = EdgeBody {
        first: 3,
        second: 1,
    };
    assert_eq!(reader.next_record(Due::EdgeOrEnd), Ok(Record::Edge(body)));
    assert_eq!(reader.finish().expect_err("a byte").numbers(), (12, 10));
    assert_eq!(reader.next_record(Due::EdgeOrEnd), Ok(Record::End));
    assert_eq!(reader.finish(), Ok(()));
    let refusal = reader.next_record(Due::EdgeOrEnd).expect_err("no data");
    assert_eq!(refusal.numbers(), (13, 11));
}

/// The size and the edges of an accepted graph.
type SizeAndEdges = (u8, Vec<(u8, u8)>);

/// Finds what the reader must answer, from offsets alone.
fn expected(bytes: &[u8]) -> Result<SizeAndEdges, (u8, usize)> {
    let length = bytes.len();
    let body_end = |at: usize, size: usize| {
        if at + size < length {
            Ok(())
        } else {
            Err((13, length))
        }
    };
    let kind = |at: usize, due: &[u8]| match bytes.get(at) {
        None => Err((13, length)),
        Some(kind) if due.contains(kind) => Ok(*kind),
        Some(_) => Err((12, at)),
    };
    kind(0, &[1])?;
    body_end(0, 1)?;
    let n = bytes[1];
    if n > 96 {
        return Err((1, 0));
    }
    kind(2, &[3])?;
    body_end(2, 4)?;
    let mut at = 7;
    let mut edges = Vec::new();
    while kind(at, &[2, 4])? == 2 {
        body_end(at, 2)?;
        let (i, j) = (bytes[at + 1], bytes[at + 2]);
        if i >= n || j >= n || i == j {
            return Err((14, at));
        }
        if edges.contains(&(i, j)) || edges.contains(&(j, i)) {
            return Err((15, at));
        }
        edges.push((i, j));
        at += 3;
    }
    if at + 1 < length {
        return Err((12, at + 1));
    }
    Ok((n, edges))
}

#[test]
fn random_bytes_close_to_a_good_sheet() {
    let mut random = Random(15);
    let mut accepted = 0;
    for _ in 0..20_000 {
        let n = random.below(7) as u8;
        let edges: Vec<(u8, u8)> = (0..random.below(5))
            .map(|_| (random.below(7) as u8, random.below(7) as u8))
            .collect();
        let mut bytes = records(n, random.next() as u32, &edges);
        for _ in 0..random.below(3) {
            let index = random.below(bytes.len() as u64) as usize;
            match random.below(4) {
                0 => bytes[index] = random.below(6) as u8,
                1 => bytes[index] = random.next() as u8,
                2 => bytes.truncate(index.max(1)),
                _ => bytes.insert(index, random.below(6) as u8),
            }
        }
        let mut table = vec![JUNK_BYTE; 9218];
        let mut words = vec![JUNK_WORD; 4562];
        let answer = read_graph(&bytes, &mut table, &mut words);
        match expected(&bytes) {
            Err((number, place)) => {
                let refusal = answer.expect_err("a refusal");
                assert_eq!(refusal.numbers(), (number, place as u64), "{bytes:?}");
                assert_eq!(table, vec![JUNK_BYTE; 9218]);
                assert_eq!(words, vec![JUNK_WORD; 4562]);
            }
            Ok((n, edges)) => {
                accepted += 1;
                let counts = answer.expect("accepted");
                assert_eq!(counts.size, u64::from(n));
                assert_eq!(counts.edges, edges.len() as u64);
                let n = usize::from(n);
                for i in 0..n {
                    for j in 0..n {
                        let pair = (i as u8, j as u8);
                        let is_edge = edges.contains(&pair) || edges.contains(&(pair.1, pair.0));
                        assert_eq!(table[i * n + j], u8::from(is_edge));
                    }
                }
                assert!(table[n * n..].iter().all(|&byte| byte == JUNK_BYTE));
                let seed = u32::from_le_bytes([bytes[3], bytes[4], bytes[5], bytes[6]]);
                let count = weight_count(n);
                let drawn: Vec<u16> = draws::weights(seed).take(count).collect();
                assert_eq!(words[..count], drawn[..]);
                assert!(words[count..].iter().all(|&word| word == JUNK_WORD));
            }
        }
    }
    assert!(accepted > 1000);
}
