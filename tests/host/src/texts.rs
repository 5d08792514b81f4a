//! Random graphs as texts in the DIMACS edge format, and their damage.

use crate::random::Random;

/// A line, without its line feed.
#[derive(Clone, Debug, PartialEq, Eq)]
pub enum Line {
    /// What follows the `c`.
    Comment(Vec<u8>),
    /// `p edge N M`.
    Problem(String, String),
    /// `e u v`.
    Edge(String, String),
    /// Bytes of no form.
    Other(&'static str),
}

/// A text, and the number of vertices that it was made for.
#[derive(Clone, Debug, PartialEq, Eq)]
pub struct Text {
    pub n: usize,
    pub lines: Vec<Line>,
}

impl Line {
    fn bytes(&self) -> Vec<u8> {
        match self {
            Line::Comment(rest) => [b"c", &rest[..], b"\n"].concat(),
            Line::Problem(n, m) => format!("p edge {n} {m}\n").into_bytes(),
            Line::Edge(u, v) => format!("e {u} {v}\n").into_bytes(),
            Line::Other(line) => format!("{line}\n").into_bytes(),
        }
    }
}

impl Text {
    /// Makes a text of plain lines: the problem, and each edge as it stands.
    pub fn plain(n: usize, edges: &[(usize, usize)]) -> Text {
        let problem = Line::Problem(n.to_string(), edges.len().to_string());
        let edge = |&(u, v): &(usize, usize)| Line::Edge(u.to_string(), v.to_string());
        let lines = [problem].into_iter().chain(edges.iter().map(edge));
        Text {
            n,
            lines: lines.collect(),
        }
    }

    pub fn bytes(&self) -> Vec<u8> {
        self.lines.iter().flat_map(Line::bytes).collect()
    }

    /// Counts the lines of edges.
    fn edge_lines(&self) -> usize {
        let edges = self.lines.iter();
        edges.filter(|line| matches!(line, Line::Edge(..))).count()
    }
}

/// Makes a text of n vertices, which is in order if these are at most 96: edges
/// in either order, some of them again, comments anywhere, leading zeros.
pub fn good(random: &mut Random, n: usize) -> Text {
    let edges = edges(random, n);
    let mut text = Text::plain(n, &edges);
    let percent = random.choose(&[0, 0, 0, 10, 60]);
    for line in &mut text.lines {
        if let Line::Problem(first, second) | Line::Edge(first, second) = line {
            for field in [first, second] {
                if random.percent(percent) {
                    *field = with_zeros(random, field);
                }
            }
        }
    }
    add_comments(random, &mut text);
    text
}

/// Chooses edges of n vertices counted from 1, some of them several times.
fn edges(random: &mut Random, n: usize) -> Vec<(usize, usize)> {
    if n < 2 {
        return Vec::new();
    }
    let mut edges = Vec::new();
    for _ in 0..random.choose(&[0, 1, 3, n / 2, n, 2 * n, 4 * n]) {
        let (u, v) = match edges.len() {
            count if count > 0 && random.percent(20) => edges[random.below(count)],
            _ => two_vertices(random, n),
        };
        edges.push(if random.percent(50) { (u, v) } else { (v, u) });
    }
    edges
}

/// Chooses two different vertices of n, counted from 1.
fn two_vertices(random: &mut Random, n: usize) -> (usize, usize) {
    let u = random.between(1, n);
    let v = random.between(1, n - 1);
    (u, if v < u { v } else { v + 1 })
}

fn with_zeros(random: &mut Random, field: &str) -> String {
    let zeros = random.choose(&[1, 1, 1, 2, 2, 3, 8, 20, 30]);
    "0".repeat(zeros) + field
}

fn add_comments(random: &mut Random, text: &mut Text) {
    let most = text.lines.len() / 4 + 2;
    for _ in 0..random.choose(&[0, 0, 1, 2, most]) {
        let at = random.between(0, text.lines.len());
        text.lines.insert(at, Line::Comment(comment(random)));
    }
}

/// Makes what follows the `c` of a comment: nothing, a line of another form, or
/// any bytes.
fn comment(random: &mut Random) -> Vec<u8> {
    match random.below(6) {
        0 => Vec::new(),
        1 => b" a comment".to_vec(),
        2 => b"omment\r".to_vec(),
        3 => b"p edge 3 1".to_vec(),
        4 => b" e 1 2 ".to_vec(),
        _ => {
            let length = random.choose(&[1, 5, 30, 200]);
            let bytes = random.bytes(length);
            bytes.into_iter().filter(|&byte| byte != b'\n').collect()
        }
    }
}

/// Damages the lines of a text.
type LineDamage = fn(&mut Random, &mut Text);

/// Damages the bytes of a text.
type ByteDamage = fn(&mut Random, &mut Vec<u8>);

const LINE_DAMAGE: [LineDamage; 10] = [
    change_m,
    change_n,
    change_vertex,
    change_vertex,
    repeat_problem,
    delay_problem,
    repeat_line,
    drop_line,
    swap_lines,
    insert_other,
];

const BYTE_DAMAGE: [ByteDamage; 6] = [
    replace_byte,
    replace_byte,
    drop_byte,
    insert_byte,
    cut,
    cut_front,
];

/// How many kinds of damage there are. The last is several at once.
pub const KINDS: usize = LINE_DAMAGE.len() + BYTE_DAMAGE.len() + 1;

/// Returns the bytes of a text after damage of one kind.
pub fn damaged(random: &mut Random, mut text: Text, kind: usize) -> Vec<u8> {
    let all_lines = LINE_DAMAGE.len();
    if kind < all_lines {
        LINE_DAMAGE[kind](random, &mut text);
        return text.bytes();
    }
    if let Some(damage) = BYTE_DAMAGE.get(kind - all_lines) {
        let mut bytes = text.bytes();
        damage(random, &mut bytes);
        return bytes;
    }
    for _ in 0..random.between(1, 3) {
        random.choose(&LINE_DAMAGE)(random, &mut text);
    }
    let mut bytes = text.bytes();
    for _ in 0..random.between(0, 2) {
        random.choose(&BYTE_DAMAGE)(random, &mut bytes);
    }
    bytes
}

/// Writes a number that equals this one in its last 8 to 64 bits or in its last
/// digits, or has very many digits.
fn beyond(random: &mut Random, number: usize) -> String {
    let number = number as u128;
    let bits = random.choose(&[8, 16, 31, 32, 48, 63, 64, 65, 96]);
    let digits = random.choose(&[3, 10, 20, 39, 1000, 4000]);
    match random.below(5) {
        0 => format!("1{number:0digits$}"),
        1 => "9".repeat(digits),
        2 => u64::MAX.to_string(),
        _ => (number + (1 << bits)).to_string(),
    }
}

/// Makes M larger or smaller by one, another number, or one beyond.
fn change_m(random: &mut Random, text: &mut Text) {
    let lines = text.edge_lines();
    let changed = match random.below(4) {
        0 => (lines + 1).to_string(),
        1 => lines.saturating_sub(1).to_string(),
        2 => random.below(100).to_string(),
        _ => beyond(random, lines),
    };
    for line in &mut text.lines {
        if let Line::Problem(_, m) = line {
            m.clone_from(&changed);
        }
    }
}

/// Makes N smaller by one, above 96, or a number beyond.
fn change_n(random: &mut Random, text: &mut Text) {
    let changed = match random.below(4) {
        0 => text.n.saturating_sub(1).to_string(),
        1 => random.between(97, 1000).to_string(),
        _ => beyond(random, text.n),
    };
    for line in &mut text.lines {
        if let Line::Problem(n, _) = line {
            n.clone_from(&changed);
        }
    }
}

/// Makes a vertex of some edge 0, the one after the last, the same as the other
/// one of the edge, or a number beyond.
fn change_vertex(random: &mut Random, text: &mut Text) {
    let n = text.n;
    let edges = text.lines.iter_mut();
    let mut edges: Vec<&mut Line> = edges
        .filter(|line| matches!(line, Line::Edge(..)))
        .collect();
    if edges.is_empty() {
        return;
    }
    let chosen = random.below(edges.len());
    if let Line::Edge(u, v) = &mut *edges[chosen] {
        let (field, other) = if random.percent(50) { (u, v) } else { (v, u) };
        *field = match random.below(5) {
            0 => "0".to_string(),
            1 => (n + 1).to_string(),
            2 => with_zeros(random, other),
            _ => {
                let vertex = random.between(0, n);
                beyond(random, vertex)
            }
        };
    }
}

/// Inserts another problem line, with the same numbers or with others.
fn repeat_problem(random: &mut Random, text: &mut Text) {
    let n = random.choose(&[text.n, 0, 3, 96, 97, 1_000_000]);
    let m = text.edge_lines();
    let at = random.between(0, text.lines.len());
    let again = Line::Problem(n.to_string(), m.to_string());
    text.lines.insert(at, again);
}

/// Moves the first line, often the problem line, down past some others.
fn delay_problem(random: &mut Random, text: &mut Text) {
    if !text.lines.is_empty() {
        let line = text.lines.remove(0);
        let at = random.between(0, text.lines.len().min(3));
        text.lines.insert(at, line);
    }
}

/// Repeats a line right after it.
fn repeat_line(random: &mut Random, text: &mut Text) {
    if !text.lines.is_empty() {
        let at = random.below(text.lines.len());
        text.lines.insert(at, text.lines[at].clone());
    }
}

fn drop_line(random: &mut Random, text: &mut Text) {
    if !text.lines.is_empty() {
        text.lines.remove(random.below(text.lines.len()));
    }
}

fn swap_lines(random: &mut Random, text: &mut Text) {
    let count = text.lines.len();
    if count > 0 {
        text.lines.swap(random.below(count), random.below(count));
    }
}

/// Inserts a line that has none of the forms.
fn insert_other(random: &mut Random, text: &mut Text) {
    let other = random.choose(&[
        "",
        " ",
        "\r",
        " c",
        "x",
        "C",
        "p",
        "p edge",
        "p edge 3",
        "p edge 3 1 ",
        "p edge 97 x",
        "p  edge 3 1",
        "p edge  3 1",
        "p col 3 1",
        "P edge 3 1",
        "pedge 3 1",
        "p edge -3 1",
        "p edge 3 +1",
        "p edge 3 1 1",
        "e",
        "e ",
        "e 1",
        "e 1 ",
        "e  1 2",
        "e 1  2",
        "e 1 2 ",
        "e 1 2 3",
        "e 1 -2",
        "e +1 2",
        "e 0 x",
        "e\t1 2",
        "e 1\t2",
        "e 1 2\r",
        "E 1 2",
        "edge 1 2",
        "1 2",
    ]);
    let at = random.between(0, text.lines.len());
    text.lines.insert(at, Line::Other(other));
}

/// Bytes that mean something to a reader, or nearly so.
const NEAR: &[u8] = b"cpe  \n\n\t\r019-+/:\0dg";

fn any_byte(random: &mut Random) -> u8 {
    if random.percent(80) {
        random.choose(NEAR)
    } else {
        random.number() as u8
    }
}

fn replace_byte(random: &mut Random, bytes: &mut Vec<u8>) {
    if !bytes.is_empty() {
        let at = random.below(bytes.len());
        bytes.remove(at);
        bytes.insert(at, any_byte(random));
    }
}

fn drop_byte(random: &mut Random, bytes: &mut Vec<u8>) {
    if !bytes.is_empty() {
        bytes.remove(random.below(bytes.len()));
    }
}

fn insert_byte(random: &mut Random, bytes: &mut Vec<u8>) {
    let at = random.between(0, bytes.len());
    bytes.insert(at, any_byte(random));
}

/// Cuts the bytes off at any place, often near the end.
fn cut(random: &mut Random, bytes: &mut Vec<u8>) {
    let kept = match random.below(3) {
        0 => bytes.len().saturating_sub(random.between(1, 8)),
        _ => random.between(0, bytes.len()),
    };
    bytes.truncate(kept);
}

/// Cuts some bytes off at the front.
fn cut_front(random: &mut Random, bytes: &mut Vec<u8>) {
    let count = random.between(0, bytes.len().min(20));
    bytes.drain(..count);
}
