//! What a listing says of a perfect matching, judged by the records of the sheet.
//! The reference is not asked.

use crate::sheet::Sheet;

/// Says what is wrong with a listing of these bytes, if anything. A refusal is not
/// judged.
///
/// - F: the lines before it are a perfect matching of the edges on the sheet.
/// - O: n is odd. U: n is even. The lines before either are a witness, and no pair.
pub fn fault(bytes: &[u8], listing: &str) -> Option<&'static str> {
    let lines: Vec<&str> = listing.lines().collect();
    let [_, between @ .., last] = &lines[..] else {
        return (!listing.starts_with("refused ")).then_some("neither a verdict nor a refusal");
    };
    let Some(sheet) = Sheet::read(bytes) else {
        return Some("a verdict on what is not a sheet");
    };
    let is_odd = sheet.size % 2 == 1;
    match *last {
        "verdict F" if !is_perfect_matching(&sheet, between) => {
            Some("F without a perfect matching")
        }
        "verdict O" if !is_odd => Some("O at an even size"),
        "verdict U" if is_odd => Some("U at an odd size"),
        "verdict O" | "verdict U" if !is_witness(between) => {
            Some("O or U after other lines than a witness")
        }
        "verdict F" | "verdict O" | "verdict U" => None,
        _ => Some("no verdict"),
    }
}

fn is_witness(lines: &[&str]) -> bool {
    !lines.is_empty() && lines.iter().all(|line| line.starts_with("witness "))
}

/// Tells whether the lines are pairs, each an edge on the sheet with the smaller
/// vertex first, and every vertex stands in one of them.
fn is_perfect_matching(sheet: &Sheet, lines: &[&str]) -> bool {
    let pairs: Option<Vec<(u8, u8)>> = lines.iter().map(|line| pair(line)).collect();
    let Some(pairs) = pairs else {
        return false;
    };
    let mut vertices: Vec<u8> = pairs.iter().flat_map(|&(i, j)| [i, j]).collect();
    vertices.sort_unstable();
    let is_listed = |&(i, j): &(u8, u8)| i < j && sheet.has_edge(i, j);
    pairs.iter().all(is_listed) && vertices.into_iter().eq(0..sheet.size)
}

/// Reads the two vertices of a pair line.
fn pair(line: &str) -> Option<(u8, u8)> {
    let words: Vec<&str> = line.split(' ').collect();
    match words[..] {
        ["pair", i, j] => Some((i.parse().ok()?, j.parse().ok()?)),
        _ => None,
    }
}
