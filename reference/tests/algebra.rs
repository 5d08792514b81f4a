//! The elimination against brute force on small matrices.

mod common;

use common::*;
use reference::linear_algebra::{
    determinant, first_dependent_column, inverse, rank, solve, witness, Matrix,
};
use reference::opening::Opening;
use reference::residue::Residue;

type Rows = Vec<Vec<Residue>>;

fn rows_of(matrix: &Matrix) -> Rows {
    let entry = |i, j| matrix.get(i, j).expect("an entry");
    let row = |i| (0..matrix.column_count()).map(|j| entry(i, j)).collect();
    (0..matrix.row_count()).map(row).collect()
}

/// Expands along the first row.
fn brute_determinant(rows: &Rows) -> Residue {
    let Some(first) = rows.first() else {
        return Residue::ONE;
    };
    let mut sum = Residue::ZERO;
    for (column, &entry) in first.iter().enumerate() {
        let term = entry.times(brute_determinant(&minor(rows, column)));
        sum = if column % 2 == 0 {
            sum.plus(term)
        } else {
            sum.minus(term)
        };
    }
    sum
}

/// Removes the first row and one column.
fn minor(rows: &Rows, column: usize) -> Rows {
    let shorten = |row: &Vec<Residue>| {
        let mut row = row.clone();
        row.remove(column);
        row
    };
    rows[1..].iter().map(shorten).collect()
}

/// Expands the Pfaffian of a skew matrix of even size: pairs the first vertex
/// with each other one.
fn pfaffian(matrix: &Matrix, vertices: &[usize]) -> Residue {
    let Some((&first, others)) = vertices.split_first() else {
        return Residue::ONE;
    };
    let mut sum = Residue::ZERO;
    for (index, &other) in others.iter().enumerate() {
        let mut rest = others.to_vec();
        rest.remove(index);
        let entry = matrix.get(first, other).expect("an entry");
        let term = entry.times(pfaffian(matrix, &rest));
        sum = if index % 2 == 0 {
            sum.plus(term)
        } else {
            sum.minus(term)
        };
    }
    sum
}

/// Lists all sets of `count` numbers below `bound`, ascending.
fn subsets(bound: usize, count: usize) -> Vec<Vec<usize>> {
    if count == 0 {
        return vec![Vec::new()];
    }
    let mut all = Vec::new();
    for last in 0..bound {
        for mut set in subsets(last, count - 1) {
            set.push(last);
            all.push(set);
        }
    }
    all
}

/// Finds the largest square part whose determinant is not zero.
fn brute_rank(rows: &Rows, columns: usize) -> usize {
    let has_minor = |size: usize| {
        subsets(rows.len(), size).iter().any(|chosen_rows| {
            subsets(columns, size).iter().any(|chosen_columns| {
                let part_row = |&i: &usize| chosen_columns.iter().map(|&j| rows[i][j]).collect();
                let part: Rows = chosen_rows.iter().map(part_row).collect();
                brute_determinant(&part) != Residue::ZERO
            })
        })
    };
    (0..=rows.len().min(columns))
        .rev()
        .find(|&size| has_minor(size))
        .expect("rank 0 at least")
}

fn random_matrix(random: &mut Random, rows: usize, columns: usize) -> Matrix {
    let bound = random.choose(&[2, 3, 65_521]);
    let row = |random: &mut Random| {
        (0..columns)
            .map(|_| Residue::new(random.below(bound)))
            .collect()
    };
    Matrix::from_rows((0..rows).map(|_| row(random)).collect()).expect("a rectangle")
}

#[test]
fn shapes() {
    let one = Residue::ONE;
    assert!(Matrix::from_rows(vec![vec![one], vec![one, one]]).is_none());
    let wide = Matrix::from_rows(vec![vec![one, one]]).expect("a rectangle");
    assert_eq!((wide.row_count(), wide.column_count()), (1, 2));
    assert_eq!(wide.get(0, 2), None);
    assert_eq!(wide.get(1, 0), None);
    assert_eq!(wide.times(&wide), None);
    assert_eq!(inverse(&wide), None);
    assert_eq!(determinant(&wide), None);
    assert_eq!(solve(&wide, &[one]), None);
    assert_eq!(solve(&wide, &[one, one]), None);
    let empty = Matrix::from_rows(Vec::new()).expect("a rectangle");
    assert_eq!(inverse(&empty), Some(empty.clone()));
    assert_eq!(determinant(&empty), Some(one));
    assert_eq!((rank(&empty), first_dependent_column(&empty)), (0, None));
    assert!(empty.is_identity());
}

#[test]
fn determinant_and_rank_by_expansion() {
    let mut random = Random(61);
    for _ in 0..300 {
        let (height, width) = (random.below(5) as usize, random.below(5) as usize);
        let matrix = random_matrix(&mut random, height, width);
        let width = matrix.column_count();
        let rows = rows_of(&matrix);
        assert_eq!(rank(&matrix), brute_rank(&rows, width));
        if height == width {
            assert_eq!(determinant(&matrix), Some(brute_determinant(&rows)));
        }
    }
}

#[test]
fn inverse_exists_exactly_with_a_nonzero_determinant() {
    let mut random = Random(62);
    let mut singular = 0;
    for _ in 0..600 {
        let n = random.below(6) as usize;
        let matrix = random_matrix(&mut random, n, n);
        let expected = brute_determinant(&rows_of(&matrix)) != Residue::ZERO;
        match inverse(&matrix) {
            Some(found) => {
                assert!(expected);
                assert!(found.times(&matrix).expect("a product").is_identity());
                assert!(matrix.times(&found).expect("a product").is_identity());
            }
            None => {
                assert!(!expected);
                singular += 1;
            }
        }
    }
    assert!(singular > 50);
}

#[test]
fn solve_finds_the_one_solution() {
    let mut random = Random(63);
    for _ in 0..600 {
        let (height, width) = (1 + random.below(5) as usize, 1 + random.below(4) as usize);
        let matrix = random_matrix(&mut random, height, width);
        let rows = rows_of(&matrix);
        let right: Vec<Residue> = (0..height).map(|_| Residue::new(random.below(3))).collect();
        let mut augmented = rows.clone();
        for (row, &word) in augmented.iter_mut().zip(&right) {
            row.push(word);
        }
        let full = brute_rank(&rows, width) == width;
        let consistent = brute_rank(&augmented, width + 1) == brute_rank(&rows, width);
        match solve(&matrix, &right) {
            Some(solution) => {
                assert!(full && consistent);
                assert_eq!(image(&rows, &solution), right);
            }
            None => assert!(!full || !consistent),
        }
    }
}

fn image(rows: &Rows, vector: &[Residue]) -> Vec<Residue> {
    let product = |row: &Vec<Residue>| {
        row.iter()
            .zip(vector)
            .fold(Residue::ZERO, |sum, (&x, &y)| sum.plus(x.times(y)))
    };
    rows.iter().map(product).collect()
}

/// Finds the first column that does not raise the rank of those before it.
fn brute_dependent_column(rows: &Rows, columns: usize) -> Option<usize> {
    (0..columns).find(|&column| brute_rank(rows, column + 1) == brute_rank(rows, column))
}

#[test]
fn dependent_column_and_witness_by_ranks() {
    let mut random = Random(64);
    for _ in 0..300 {
        let (height, width) = (1 + random.below(5) as usize, 1 + random.below(5) as usize);
        let matrix = random_matrix(&mut random, height, width);
        let rows = rows_of(&matrix);
        let expected = brute_dependent_column(&rows, width);
        assert_eq!(first_dependent_column(&matrix), expected);
        let Some((column, vector)) = witness(&matrix) else {
            assert_eq!(expected, None);
            continue;
        };
        assert_eq!(Some(column), expected);
        assert_eq!(vector.len(), width);
        assert_eq!(vector[column], Residue::ONE);
        assert!(vector[column + 1..]
            .iter()
            .all(|&word| word == Residue::ZERO));
        assert_eq!(image(&rows, &vector), vec![Residue::ZERO; height]);
        // The columns before are independent, so no other vector will do.
        assert_eq!(brute_rank(&rows, column), column);
    }
}

#[test]
fn tutte_matrix_by_its_definition() {
    let mut random = Random(65);
    for n in 0..9 {
        let buffers = Buffers::random(&mut random, n);
        let graph = buffers.graph(n);
        let matrix = graph.tutte_matrix(&graph.vertices());
        let mut expected = vec![vec![0u64; n]; n];
        for (&(i, j), &weight) in every_two(n).iter().zip(&buffers.weights) {
            assert_eq!(graph.weight(i, j), Some(weight));
            assert_eq!(graph.weight(j, i), Some(weight));
            if buffers.adjacency[i * n + j] == 1 {
                expected[i][j] = u64::from(weight);
                expected[j][i] = 65_521 - u64::from(weight);
            }
        }
        let residues = |row: &Vec<u64>| row.iter().map(|&word| Residue::new(word)).collect();
        let expected: Rows = expected.iter().map(residues).collect();
        assert_eq!(rows_of(&matrix), expected);
        assert_eq!(graph.weight(0, 0), None);
        assert_eq!(graph.weight(0, n), None);
        assert!(!graph.adjacent(0, usize::MAX));
        assert_eq!(graph.tutte_entry(usize::MAX, 0), Residue::ZERO);
    }
}

/// Checks opening by the Pfaffian, ranks and products.
fn check_opening(mut buffers: Buffers, n: usize) {
    let graph = buffers.graph(n);
    let matrix = graph.tutte_matrix(&graph.vertices());
    let rows = rows_of(&matrix);
    let invertible = n.is_multiple_of(2) && pfaffian(&matrix, &graph.vertices()) != Residue::ZERO;
    let words = |words: &[u16]| -> Vec<Residue> {
        let residue = |&word| Residue::from_word(word).expect("a word below the modulus");
        words.iter().map(residue).collect()
    };
    match buffers.open(n as u64).expect("accepted") {
        Opening::Opened(opened) => {
            assert!(invertible);
            assert_eq!(opened, session(n as u64, 0));
            let table = words(&buffers.inverse);
            let table_rows = table.chunks(n.max(1)).map(<[Residue]>::to_vec).collect();
            let found = Matrix::from_rows(table_rows).expect("a square");
            assert!(matrix.times(&found).expect("a product").is_identity());
            assert!(found.times(&matrix).expect("a product").is_identity());
            assert_eq!(buffers.witness, vec![0; n]);
        }
        Opening::Singular { column } => {
            assert!(!invertible);
            let column = column as usize;
            let vector = words(&buffers.witness);
            assert_eq!(Some(column), brute_dependent_column(&rows, n));
            assert_eq!(image(&rows, &vector), vec![Residue::ZERO; n]);
            assert_eq!(vector[column], Residue::ONE);
            assert!(vector[column + 1..]
                .iter()
                .all(|&word| word == Residue::ZERO));
            assert_eq!(buffers.inverse, vec![0; n * n]);
        }
    }
}

#[test]
fn every_graph_of_at_most_four_vertices() {
    for n in 0..=4 {
        let pairs = every_two(n);
        for chosen in 0..1u32 << pairs.len() {
            for signs in 0..1u32 << pairs.len() {
                let is_set = |bits: u32, index: usize| bits >> index & 1 == 1;
                let edges: Vec<_> = (0..pairs.len())
                    .filter(|&index| is_set(chosen, index))
                    .map(|index| pairs[index])
                    .collect();
                let weights: Vec<u16> = (0..pairs.len())
                    .map(|index| if is_set(signs, index) { 65_520 } else { 1 })
                    .collect();
                check_opening(Buffers::new(n, &edges).with_weights(&weights), n);
            }
        }
    }
}

#[test]
fn random_graphs_of_five_and_six_vertices() {
    let mut random = Random(66);
    for _ in 0..60 {
        let n = 5 + random.below(2) as usize;
        check_opening(Buffers::random(&mut random, n), n);
    }
}

#[test]
fn determinant_is_the_square_of_the_pfaffian() {
    let mut random = Random(67);
    for _ in 0..200 {
        let n = random.below(9) as usize;
        let buffers = Buffers::random(&mut random, n);
        let graph = buffers.graph(n);
        let matrix = graph.tutte_matrix(&graph.vertices());
        if n % 2 == 1 {
            assert_eq!(determinant(&matrix), Some(Residue::ZERO));
        } else {
            let root = pfaffian(&matrix, &graph.vertices());
            assert_eq!(determinant(&matrix), Some(root.times(root)));
        }
    }
}

#[test]
fn larger_graphs_have_their_inverse() {
    let mut random = Random(68);
    for n in [10, 20, 48, 96] {
        let mut buffers = Buffers::complete(n);
        for weight in &mut buffers.weights {
            *weight = 1 + random.below(65_520) as u16;
        }
        buffers.opened(n as u64);
        let graph = buffers.graph(n);
        let matrix = graph.tutte_matrix(&graph.vertices());
        let row = |words: &[u16]| words.iter().map(|&w| Residue::new(u64::from(w))).collect();
        let found = Matrix::from_rows(buffers.inverse.chunks(n).map(row).collect());
        let product = matrix.times(&found.expect("a square")).expect("a product");
        assert!(product.is_identity());
        for i in 0..n {
            assert_eq!(buffers.inverse[i * n + i], 0);
        }
    }
}
