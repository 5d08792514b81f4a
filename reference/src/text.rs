//! The bytes of a sheet as a readable text, and back (document 01, "Sheet
//! records").
//!
//! A line is `size N`, `seed N`, `share N N`, `end`, or `bytes` and bytes in
//! hexadecimal; `#` begins a comment, and a line may be empty. The lines may
//! stand in any order, so that damaged sheets can be written too. A byte-order
//! mark at the beginning, which some editors write, does not count.

use crate::records::{EdgeBody, Record};

/// Why a text is refused: the number of the line, from 1 on, and what is wrong
/// with it.
#[derive(Clone, Debug, PartialEq, Eq)]
pub struct Fault {
    pub line: usize,
    pub what: String,
}

/// How many bytes show writes on a line of `bytes`.
const BYTES_A_LINE: usize = 16;

/// Makes the bytes that a text describes.
pub fn make(text: &[u8]) -> Result<Vec<u8>, Fault> {
    let mut bytes = Vec::new();
    let text = text.strip_prefix(b"\xef\xbb\xbf").unwrap_or(text);
    if text.first() == Some(&1) {
        return Err(Fault {
            line: 1,
            what: "this is a sheet already, and no text".to_string(),
        });
    }
    for (index, line) in text.split(|&byte| byte == b'\n').enumerate() {
        let made = make_line(line).map_err(|what| Fault {
            line: index + 1,
            what,
        })?;
        bytes.extend(made);
    }
    Ok(bytes)
}

/// Makes the bytes of one line.
fn make_line(line: &[u8]) -> Result<Vec<u8>, String> {
    let code = line.split(|&byte| byte == b'#').next().unwrap_or_default();
    let code = std::str::from_utf8(code).map_err(|_| "this is no plain text".to_string())?;
    let words: Vec<&str> = code.split_whitespace().collect();
    match words[..] {
        [] => Ok(Vec::new()),
        ["size", size] => Ok(vec![1, byte(size, SIZES)?]),
        ["share", first, second] => Ok(vec![2, byte(first, VERTICES)?, byte(second, VERTICES)?]),
        ["seed", seed] => {
            let seed = number(seed, u32::MAX, "a seed is at most 4294967295")?;
            Ok([&[3][..], &seed.to_le_bytes()].concat())
        }
        ["end"] => Ok(vec![4]),
        ["bytes", ref bytes @ ..] if !bytes.is_empty() => {
            bytes.iter().map(|digits| hexadecimal(digits)).collect()
        }
        ["size", ..] => Err("write size and one number, such as size 4".to_string()),
        ["share", ..] => {
            Err("write share and two numbers with a blank between, such as share 0 1".to_string())
        }
        ["seed", ..] => Err("write seed and one number, such as seed 7".to_string()),
        ["end", ..] => Err("write end alone".to_string()),
        ["bytes"] => Err("bytes takes one byte or more".to_string()),
        [word, ..] => Err(format!(
            "a line begins with size, seed, share or end, and not with '{word}'"
        )),
    }
}

/// The limits named for a size or a vertex above 255. A smaller one that is still
/// too large becomes a byte, and the reader of the sheet refuses it.
const SIZES: &str = "a sheet has at most 96 sleeves";
const VERTICES: &str = "the last of 96 sleeves is 95";

/// Reads a number from 0 to 255.
fn byte(digits: &str, limit: &str) -> Result<u8, String> {
    number(digits, u32::from(u8::MAX), limit).map(|number| number as u8)
}

/// Reads a number from 0 to the largest. Names the limit if it is above that.
fn number(digits: &str, largest: u32, limit: &str) -> Result<u32, String> {
    if !digits.bytes().all(|digit| digit.is_ascii_digit()) {
        return Err(format!("'{digits}' is no number in digits alone"));
    }
    match digits.parse() {
        Ok(number) if number <= largest => Ok(number),
        _ => Err(format!("{digits} is too large: {limit}")),
    }
}

/// Reads a byte of two hexadecimal digits.
fn hexadecimal(digits: &str) -> Result<u8, String> {
    let right = digits.len() == 2 && digits.bytes().all(|digit| digit.is_ascii_hexdigit());
    match u8::from_str_radix(digits, 16) {
        Ok(byte) if right => Ok(byte),
        _ => Err(format!("'{digits}' is no byte of two hexadecimal digits")),
    }
}

/// Shows any bytes as text: a line for each whole record up to the end record,
/// with its offset as a comment, and the rest as `bytes`.
pub fn show(bytes: &[u8]) -> String {
    let mut text = String::new();
    let mut at = 0;
    let mut ended = false;
    while let (false, Some((record, length))) = (ended, record_at(&bytes[at..])) {
        text += &line(&record_text(record), at);
        ended = record == Record::End;
        at += length;
    }
    for (index, part) in bytes[at..].chunks(BYTES_A_LINE).enumerate() {
        let digits: String = part.iter().map(|byte| format!(" {byte:02x}")).collect();
        text += &line(&format!("bytes{digits}"), at + BYTES_A_LINE * index);
    }
    text
}

fn line(code: &str, offset: usize) -> String {
    format!("{code:<15} # at {offset}\n")
}

/// Finds the whole record that bytes begin with, due or not, and its length.
fn record_at(bytes: &[u8]) -> Option<(Record, usize)> {
    match *bytes {
        [1, size, ..] => Some((Record::Size(size), 2)),
        [2, first, second, ..] => Some((Record::Edge(EdgeBody { first, second }), 3)),
        [3, a, b, c, d, ..] => Some((Record::Seed(u32::from_le_bytes([a, b, c, d])), 5)),
        [4, ..] => Some((Record::End, 1)),
        _ => None,
    }
}

fn record_text(record: Record) -> String {
    match record {
        Record::Size(size) => format!("size {size}"),
        Record::Edge(body) => format!("share {} {}", body.first, body.second),
        Record::Seed(seed) => format!("seed {seed}"),
        Record::End => "end".to_string(),
    }
}
