//! The reference: document 01, and requests 1, 2 and 3 of document 02, in plain
//! Rust, which shares nothing with the crates.
//!
//! A graph of at most 96 vertices has an adjacency table and one weight for
//! every two vertices. Its Tutte matrix modulo 65521 either has an inverse, and
//! then a session matches the vertices pair by pair, or has a witness.
//!
//! Every decision is taken afresh by elimination from the adjacency table and
//! the weights: no inverse is updated. The modules stand in the order of the
//! paper's sections.

/// "The desk and its parts": numbers modulo 65521.
pub mod residue;

/// "Sheet, matrix, session": adjacency table, weights, Tutte matrix.
pub mod graph;

/// "Sheet, matrix, session" and "Opening": inverse, rank, dependent columns.
pub mod linear_algebra;

/// "Opening": the inverse, or the witness of the first dependent column.
pub mod opening;

/// "Opening", last paragraph: the part of a buffer that is shown.
pub mod display;

/// "Session calls": pick, automatic, undo, row.
pub mod session;

/// "The plain desk": a list of pairs and nothing else.
pub mod model;

/// "Draw roll": the generator of the weights.
pub mod draws;

/// "Sheet records": the reader of a sheet.
pub mod records;

/// Document 02, request 1: the reader of a graph in the DIMACS edge format.
pub mod dimacs;

/// "Causes, numbers, and what is untouched", and document 02, request 2: why a
/// call is refused, and where.
pub mod causes;

/// "Listing", and document 02, request 3: what the program prints.
pub mod listing;

/// "Sheet records": the bytes of a sheet as text, and back.
pub mod text;

/// "For the host": words as two bytes, low first.
pub mod words;

/// "For the host": the number that a call returns.
pub mod numbers;

/// "For the host": a list of session calls, made one after another.
pub mod replay;
