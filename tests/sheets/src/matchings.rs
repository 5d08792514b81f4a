//! A search for a perfect matching over the edges alone.

/// The most vertices that are searched.
pub const MOST_SEARCHED: u8 = 12;

/// Tells whether a graph of n vertices, at most MOST_SEARCHED, has a perfect matching.
pub fn exists(n: u8, edges: &[(u8, u8)]) -> bool {
    assert!(n <= MOST_SEARCHED, "{n} vertices are too many to search");
    let mut neighbours = vec![0; n.into()];
    for &(i, j) in edges {
        neighbours[usize::from(i)] |= 1 << j;
        neighbours[usize::from(j)] |= 1 << i;
    }
    rest_has_one(&neighbours, (1 << n) - 1)
}

/// Matches the lowest vertex left with each neighbour left in turn. Vertices and
/// neighbours left are bits.
fn rest_has_one(neighbours: &[u32], left: u32) -> bool {
    if left == 0 {
        return true;
    }
    let lowest = left.trailing_zeros();
    let rest = left & !(1 << lowest);
    let partners = neighbours[lowest as usize] & rest;
    let is_partner = |vertex: &u32| partners >> vertex & 1 == 1;
    (0..u32::BITS)
        .filter(is_partner)
        .any(|partner| rest_has_one(neighbours, rest & !(1 << partner)))
}
