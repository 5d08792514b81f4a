//! The cases of opening, which tests/c/replay.c runs through the C entry, judged
//! by themselves: the answers of the reference by their definition, and whether
//! each outcome occurs often enough. And calls through the C entry that no stream
//! of cases has: every faulty cell of the largest tables.

use host_tests::call::{Call, Outcome};
use host_tests::cases::{self, Case};
use host_tests::cells::{above_one, damages, every_cell};
use host_tests::graphs;
use host_tests::random::Random;

/// Checks every case of a family, and its outcome by the function given.
fn check(
    name: &str,
    family: impl Iterator<Item = Case>,
    check_outcome: impl Fn(&Case, Outcome),
) -> Tally {
    let mut tally = Tally::default();
    for case in family {
        let outcome = case.call.certified(&case.name);
        check_outcome(&case, outcome);
        tally.count(outcome);
    }
    tally.print(name);
    tally
}

fn any_outcome(_: &Case, _: Outcome) {}

fn known_outcome(case: &Case, outcome: Outcome) {
    assert_eq!(Some(outcome), case.known, "{}", case.name);
}

/// Checks that a case is refused as known, and not refused if nothing is known.
fn known_refusal(case: &Case, outcome: Outcome) {
    let refused = matches!(outcome, Outcome::Refused(..)).then_some(outcome);
    assert_eq!(refused, case.known, "{}", case.name);
}

#[test]
fn small_graphs() {
    let tally = check("small graphs", cases::small_graphs(), any_outcome);
    assert_eq!(tally.total(), 6000);
    assert!(tally.opened > 1000 && tally.singular > 1000);
}

#[test]
fn middle_graphs() {
    let tally = check("middle graphs", cases::middle_graphs(), any_outcome);
    assert_eq!(tally.total(), 3000);
    assert!(tally.opened > 500 && tally.singular > 500);
}

#[test]
fn large_graphs() {
    let tally = check("large graphs", cases::large_graphs(), any_outcome);
    assert_eq!(tally.total(), 1000);
    assert!(tally.opened > 150 && tally.singular > 150);
}

#[test]
fn largest_graphs() {
    let tally = check("largest graphs", cases::largest_graphs(), any_outcome);
    assert_eq!(tally.total(), 48);
    assert!(tally.opened > 5 && tally.singular > 24);
}

#[test]
fn every_size() {
    let tally = check("every size", cases::every_size(), any_outcome);
    assert_eq!(tally.total(), 194);
    assert!(tally.opened > 40 && tally.singular > 140);
}

#[test]
fn few_weights() {
    let tally = check("few weights", cases::few_weights(), any_outcome);
    assert_eq!(tally.total(), 1300);
    assert!(tally.opened > 200 && tally.singular > 700);
}

#[test]
fn low_ranks() {
    let tally = check("low ranks", cases::low_ranks(), any_outcome);
    assert_eq!(tally.total(), 800);
    assert!(tally.singular > 700);
}

#[test]
fn made_by_pairs() {
    let tally = check("made by pairs", cases::made_by_pairs(), known_outcome);
    assert_eq!(tally.total(), 1200);
    assert!(tally.opened > 200 && tally.singular > 600);
}

#[test]
fn all_graphs_of_four() {
    let family = cases::all_graphs_of_four();
    let tally = check("all graphs of four", family, any_outcome);
    assert_eq!(tally.total(), 4096);
}

#[test]
fn every_first_dependent_column() {
    let family = cases::every_first_dependent_column();
    let tally = check("every first dependent column", family, known_outcome);
    assert_eq!(tally.total(), 142);
}

#[test]
fn damaged_calls() {
    let tally = check("damaged calls", cases::damaged_calls(), any_outcome);
    assert_eq!(tally.total(), 6000);
    assert!(tally.refused[1..].iter().all(|&count| count > 400));
    assert!(tally.short[1..].iter().all(|&count| count > 50));
    assert!(tally.cells[1..].iter().all(|&count| count > 100));
}

#[test]
fn every_single_fault() {
    let family = cases::every_single_fault();
    let tally = check("every single fault", family, any_outcome);
    assert_eq!(tally.total(), 805);
    assert!(tally.refused[3] > 200 && tally.refused[4] > 100);
}

#[test]
fn faulty_cells() {
    let tally = check("faulty cells", cases::faulty_cells(), known_outcome);
    assert_eq!(tally.refused[3], tally.total());
    assert!(tally.cells[1..].iter().all(|&count| count > 200));
}

/// Small tables: how many have which fault can be counted by hand, cell by cell.
#[test]
fn small_tables() {
    let tally = check("small tables", cases::small_tables(), any_outcome);
    assert_eq!(tally.cells, [0, 9425, 6707, 3624]);
    assert_eq!(tally.total() - tally.refused[3], 1 + 2 + 8);
}

#[test]
fn cells_and_other_causes() {
    let family = cases::cells_and_other_causes();
    let tally = check("cells and other causes", family, known_outcome);
    assert!(tally.refused[1..=3].iter().all(|&count| count >= 72));
    assert!(tally.short[1..].iter().all(|&count| count >= 60));
}

#[test]
fn long_tables() {
    let tally = check("long tables", cases::long_tables(), known_refusal);
    assert_eq!((tally.total(), tally.refused[3]), (28 + 48, 48));
}

/// Every cell of the largest tables, spoiled in every way, through the C entry.
#[test]
fn every_cell_of_the_largest_tables() {
    let mut random = Random::new(20);
    for n in [95, 96] {
        let graph = graphs::with_density(&mut random, n, 50);
        let mut call = Call::new(&mut random, &graph, 3);
        let before = call.clone();
        for (i, j) in every_cell(n) {
            for damage in damages((i, j)) {
                let cell = damage.spoil(n, &mut call.adjacency, (i, j), above_one(&mut random));
                assert_eq!(call.run(), cell.number(), "{cell:?}");
                call.adjacency.copy_from_slice(&before.adjacency);
            }
            assert_eq!(call, before, "({i}, {j}) of {n} is refused and writes");
        }
    }
}

/// Every length: refused exactly if the buffer is short.
#[test]
fn every_length() {
    let tally = check("every length", cases::every_length(), known_refusal);
    assert_eq!(tally.total(), 576);
    assert!(tally.opened > 100 && tally.singular > 100);
}

#[test]
fn sizes_above_96() {
    let tally = check("sizes above 96", cases::sizes_above_96(), known_outcome);
    assert_eq!(tally.total(), 400);
}

/// Repeated calls: nothing is kept from one to the next.
#[test]
fn calls_keep_no_state() {
    let tally = check("calls keep no state", cases::repeated_calls(), any_outcome);
    assert_eq!(tally.total(), 600);
}

/// How often each outcome was met.
#[derive(Default)]
struct Tally {
    opened: usize,
    singular: usize,
    /// Counts of refusals, by the cause's number.
    refused: [usize; 5],
    /// Counts of cause 2, by its place.
    short: [usize; 7],
    /// Counts of cause 3, by the cell's fault.
    cells: [usize; 4],
}

impl Tally {
    fn count(&mut self, outcome: Outcome) {
        match outcome {
            Outcome::Opened => self.opened += 1,
            Outcome::Singular(_) => self.singular += 1,
            Outcome::Refused(cause, place) => {
                self.refused[usize::from(cause)] += 1;
                match cause {
                    2 => self.short[place as usize] += 1,
                    3 => self.cells[(place >> 16) as usize] += 1,
                    _ => {}
                }
            }
        }
    }

    fn total(&self) -> usize {
        self.opened + self.singular + self.refused.iter().sum::<usize>()
    }

    fn print(&self, name: &str) {
        println!(
            "{name}: {} cases: {} opened, {} singular, refused with 1 to 4: {:?}",
            self.total(),
            self.opened,
            self.singular,
            &self.refused[1..]
        );
    }
}
