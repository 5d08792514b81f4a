//! Runs session calls through the C entries beside the reference: `long COUNT
//! FIRST` at least COUNT calls, with the seeds from FIRST on, and ten texts in the
//! DIMACS edge format with each seed. Panics at the first difference, and names
//! its seed.

use host_tests::random::Random;
use host_tests::seeds::of_seed;
use host_tests::tally::{SessionTally, TextTally};
use host_tests::text_cases;
use std::env;
use std::process::ExitCode;
use std::sync::atomic::{AtomicU64, AtomicUsize, Ordering};
use std::thread;

fn main() -> ExitCode {
    let numbers: Result<Vec<u64>, _> = env::args().skip(1).map(|text| text.parse()).collect();
    let Ok([count, first]) = numbers.as_deref() else {
        eprintln!("usage: long COUNT FIRST");
        return ExitCode::from(2);
    };
    let seeds = AtomicU64::new(*first);
    let calls = AtomicUsize::new(0);
    let threads = thread::available_parallelism().map_or(1, usize::from);
    let work = || run(&seeds, &calls, *count as usize);
    let tally = thread::scope(|scope| {
        let workers: Vec<_> = (0..threads).map(|_| scope.spawn(work)).collect();
        let mut tally = Tally::default();
        for worker in workers {
            let (sessions, texts) = worker.join().expect("no difference");
            tally.0.add(&sessions);
            tally.1.add(&texts);
        }
        tally
    });
    let name = format!("seeds {first} to {}", seeds.load(Ordering::Relaxed) - 1);
    tally.0.print(&name);
    tally.1.print(&name);
    ExitCode::SUCCESS
}

/// The outcomes of session calls, and those of texts.
type Tally = (SessionTally, TextTally);

/// Stops all threads once one has met a difference.
struct StopOnPanic<'a>(&'a AtomicUsize);

impl Drop for StopOnPanic<'_> {
    fn drop(&mut self) {
        if thread::panicking() {
            self.0.store(usize::MAX / 2, Ordering::Relaxed);
        }
    }
}

/// Takes one seed after another until count session calls were made in all.
fn run(seeds: &AtomicU64, calls: &AtomicUsize, count: usize) -> Tally {
    let _stop = StopOnPanic(calls);
    let mut tally = Tally::default();
    while calls.load(Ordering::Relaxed) < count {
        let seed = seeds.fetch_add(1, Ordering::Relaxed);
        let mut guards = Random::new(seed);
        let cases = of_seed(seed);
        for case in &cases {
            case.check(&mut guards);
            tally.0.count(case);
        }
        for text in text_cases::of_seed(seed) {
            text.check(&mut guards);
            tally.1.count(&text);
        }
        calls.fetch_add(cases.len(), Ordering::Relaxed);
    }
    tally
}
