//! Elimination over the residues, always from scratch (document 01, "Sheet,
//! matrix, session" and "Opening").

use crate::residue::Residue;

/// A rectangular matrix of residues.
#[derive(Clone, Debug, PartialEq, Eq)]
pub struct Matrix {
    columns: usize,
    rows: Vec<Vec<Residue>>,
}

impl Matrix {
    /// Makes a matrix of the given rows. None if their lengths differ.
    pub fn from_rows(rows: Vec<Vec<Residue>>) -> Option<Matrix> {
        let columns = rows.first().map_or(0, Vec::len);
        if rows.iter().all(|row| row.len() == columns) {
            Some(Matrix { columns, rows })
        } else {
            None
        }
    }

    pub(crate) fn from_entries(
        rows: usize,
        columns: usize,
        entry: impl Fn(usize, usize) -> Residue,
    ) -> Matrix {
        let row_of = |row| (0..columns).map(|column| entry(row, column)).collect();
        Matrix {
            columns,
            rows: (0..rows).map(row_of).collect(),
        }
    }

    pub fn row_count(&self) -> usize {
        self.rows.len()
    }

    pub fn column_count(&self) -> usize {
        self.columns
    }

    pub fn is_square(&self) -> bool {
        self.rows.len() == self.columns
    }

    /// Returns entry (row, column). None outside the matrix.
    pub fn get(&self, row: usize, column: usize) -> Option<Residue> {
        self.rows.get(row)?.get(column).copied()
    }

    /// Multiplies two matrices. None if their shapes do not fit.
    pub fn times(&self, other: &Matrix) -> Option<Matrix> {
        if self.columns != other.rows.len() {
            return None;
        }
        Some(Matrix::from_entries(
            self.rows.len(),
            other.columns,
            |row, column| {
                (0..self.columns).fold(Residue::ZERO, |sum, k| {
                    sum.plus(self.rows[row][k].times(other.rows[k][column]))
                })
            },
        ))
    }

    pub fn is_identity(&self) -> bool {
        let unit = |row, column| {
            if row == column {
                Residue::ONE
            } else {
                Residue::ZERO
            }
        };
        self.is_square() && *self == Matrix::from_entries(self.columns, self.columns, unit)
    }

    /// Keeps the first `count` columns, or all if there are fewer.
    pub fn first_columns(&self, count: usize) -> Matrix {
        let columns = count.min(self.columns);
        Matrix::from_entries(self.rows.len(), columns, |row, column| {
            self.rows[row][column]
        })
    }

    /// Appends the columns of `right`, which has the same number of rows.
    fn beside(&self, right: &Matrix) -> Matrix {
        Matrix::from_entries(
            self.rows.len(),
            self.columns + right.columns,
            |row, column| {
                if column < self.columns {
                    self.rows[row][column]
                } else {
                    right.rows[row][column - self.columns]
                }
            },
        )
    }
}

/// A matrix in reduced echelon form with its pivot columns, ascending.
struct Echelon {
    rows: Vec<Vec<Residue>>,
    pivots: Vec<usize>,
}

impl Echelon {
    /// Tells whether each of the first `count` columns has a pivot.
    fn has_pivots_in_first(&self, count: usize) -> bool {
        (0..count).all(|column| self.pivots.get(column) == Some(&column))
    }
}

/// Eliminates by Gauss and Jordan, column by column from the left. After each
/// column the first rows are reduced, one for each pivot found.
fn reduced_echelon(matrix: &Matrix) -> Echelon {
    let mut rows = matrix.rows.clone();
    let mut pivots = Vec::new();
    for column in 0..matrix.columns {
        let top = pivots.len();
        let Some((found, reciprocal)) = find_pivot(&rows, top, column) else {
            continue;
        };
        rows.swap(top, found);
        for entry in &mut rows[top] {
            *entry = entry.times(reciprocal);
        }
        let pivot_row = rows[top].clone();
        for (index, row) in rows.iter_mut().enumerate() {
            if index != top {
                let factor = row[column];
                subtract_multiple(row, factor, &pivot_row, column);
            }
        }
        pivots.push(column);
    }
    Echelon { rows, pivots }
}

/// Finds the first row from `top` on whose entry in the column is not zero, and
/// the reciprocal of that entry.
fn find_pivot(rows: &[Vec<Residue>], top: usize, column: usize) -> Option<(usize, Residue)> {
    (top..rows.len()).find_map(|row| Some((row, rows[row][column].reciprocal()?)))
}

/// Subtracts a multiple of the pivot row, which is zero before column `from`.
fn subtract_multiple(row: &mut [Residue], factor: Residue, pivot_row: &[Residue], from: usize) {
    if factor == Residue::ZERO {
        return;
    }
    let negated = factor.negated();
    for (entry, &pivot) in row[from..].iter_mut().zip(&pivot_row[from..]) {
        *entry = entry.plus_product(negated, pivot);
    }
}

/// Returns the rank.
pub fn rank(matrix: &Matrix) -> usize {
    reduced_echelon(matrix).pivots.len()
}

/// Finds the first column that is a combination of the columns before it. A zero
/// column 0 is one: the empty combination is zero.
pub fn first_dependent_column(matrix: &Matrix) -> Option<usize> {
    let pivots = reduced_echelon(matrix).pivots;
    (0..matrix.columns).find(|&column| pivots.get(column) != Some(&column))
}

/// Finds the one vector x with matrix times x equal to the right side. None if
/// there is no such vector or more than one.
pub fn solve(matrix: &Matrix, right_side: &[Residue]) -> Option<Vec<Residue>> {
    if right_side.len() != matrix.rows.len() {
        return None;
    }
    let right = Matrix::from_entries(right_side.len(), 1, |row, _| right_side[row]);
    let echelon = reduced_echelon(&matrix.beside(&right));
    if echelon.pivots.len() == matrix.columns && echelon.has_pivots_in_first(matrix.columns) {
        let last = matrix.columns;
        Some((0..last).map(|row| echelon.rows[row][last]).collect())
    } else {
        None
    }
}

/// Inverts a matrix. None if it is singular or not square. The inverse of the
/// empty matrix is empty.
pub fn inverse(matrix: &Matrix) -> Option<Matrix> {
    if !matrix.is_square() {
        return None;
    }
    let n = matrix.columns;
    let unit = |row, column| {
        if row == column {
            Residue::ONE
        } else {
            Residue::ZERO
        }
    };
    let echelon = reduced_echelon(&matrix.beside(&Matrix::from_entries(n, n, unit)));
    if echelon.has_pivots_in_first(n) {
        Some(Matrix::from_entries(n, n, |row, column| {
            echelon.rows[row][n + column]
        }))
    } else {
        None
    }
}

/// Finds the first dependent column f and the one vector w with matrix times w
/// equal to zero, w(f) = 1 and zeros after f. None if the columns are
/// independent.
pub fn witness(matrix: &Matrix) -> Option<(usize, Vec<Residue>)> {
    let column = first_dependent_column(matrix)?;
    let negated: Vec<Residue> = matrix
        .rows
        .iter()
        .map(|row| row[column].negated())
        .collect();
    let mut vector = solve(&matrix.first_columns(column), &negated)?;
    vector.push(Residue::ONE);
    vector.resize(matrix.columns, Residue::ZERO);
    Some((column, vector))
}

/// Finds the determinant by elimination below the diagonal. None if the matrix
/// is not square. The determinant of the empty matrix is one.
pub fn determinant(matrix: &Matrix) -> Option<Residue> {
    if !matrix.is_square() {
        return None;
    }
    let mut rows = matrix.rows.clone();
    let mut product = Residue::ONE;
    for column in 0..matrix.columns {
        let Some((found, reciprocal)) = find_pivot(&rows, column, column) else {
            return Some(Residue::ZERO);
        };
        if found != column {
            rows.swap(column, found);
            product = product.negated();
        }
        let pivot_row = rows[column].clone();
        product = product.times(pivot_row[column]);
        for row in &mut rows[column + 1..] {
            let factor = row[column].times(reciprocal);
            subtract_multiple(row, factor, &pivot_row, column);
        }
    }
    Some(product)
}
