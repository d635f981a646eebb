//! compare [PAGES] [SEED]: the reader and the original on the same pages. Ends with how many were compared and how many differ.
use std::process::ExitCode;
use std::sync::atomic::{AtomicU64, Ordering};
use std::time::Instant;

use compare::checks::{Difference, compare};
use compare::kinds::{Case, case};
use compare::lent;
use compare::shrink::{describe, shrink};
use compare::tally::Tally;

/// From so many pages on a run must reach everything. The rarest, an unallocated page and one accepted strictly of eight candidates, are one in
/// some two hundred and fifty.
const FULL: u64 = 5_000;

fn main() -> ExitCode {
    let (pages, seed) = match arguments(std::env::args().skip(1)) {
        Ok(told) => told,
        Err(message) => {
            eprintln!("compare [PAGES] [SEED]: {message}");
            return ExitCode::from(2);
        }
    };
    lent::keep_panics_quiet();
    let begun = Instant::now();
    let (tally, differ) = run(pages, seed);
    print!("{tally}");
    if let Some((first, difference)) = differ.first() {
        println!("the first difference is input {first}, {}", told(&case(seed, *first), difference));
    }
    // A page that differs is not asked further.
    let missing = if differ.is_empty() { tally.missing() } else { Vec::new() };
    if !missing.is_empty() {
        println!("not reached: {}", missing.join(", "));
    }
    let questions: u64 = tally.questions.values().sum();
    println!(
        "seed {seed}: {pages} pages of {} kinds, {questions} answers compared, {} pages differ, {} seconds",
        tally.pages.len(),
        differ.len(),
        begun.elapsed().as_secs()
    );
    if differ.is_empty() && (missing.is_empty() || pages < FULL) { ExitCode::SUCCESS } else { ExitCode::FAILURE }
}

/// How many pages, and from which seed.
fn arguments(words: impl Iterator<Item = String>) -> Result<(u64, u64), String> {
    let numbers = words.map(|w| w.parse().map_err(|_| format!("{w} is not a number"))).collect::<Result<Vec<u64>, _>>()?;
    match numbers[..] {
        [] => Ok((100_000, 1)),
        [0, ..] => Err("0 pages compare nothing".into()),
        [pages] => Ok((pages, 1)),
        [pages, seed] => Ok((pages, seed)),
        _ => Err("there are more than two numbers".into()),
    }
}

/// A difference with its smallest input, or with the input as it was where it does not come again.
fn told(case: &Case, seen: &Difference) -> String {
    let Some((small, difference)) = shrink(case) else {
        return format!("and did not come again, at: {}\n{}\n{}", seen.question, seen.detail, describe(case, seen.limit));
    };
    format!("at: {}\n{}\n{}", difference.question, difference.detail, describe(&small, difference.limit))
}

type Differing = Vec<(u64, Difference)>;

/// What was met, and which inputs differ.
fn run(pages: u64, seed: u64) -> (Tally, Differing) {
    let threads = std::thread::available_parallelism().map_or(1, |n| n.get());
    let next = AtomicU64::new(0);
    let parts: Vec<(Tally, Differing)> = std::thread::scope(|scope| {
        let workers: Vec<_> = (0..threads).map(|_| scope.spawn(|| work(&next, pages, seed))).collect();
        workers.into_iter().map(|w| w.join().expect("a worker does not fail")).collect()
    });
    let mut tally = Tally::default();
    let mut differ = Vec::new();
    for (t, d) in parts {
        tally.join(t);
        differ.extend(d);
    }
    differ.sort_unstable_by_key(|d| d.0);
    (tally, differ)
}

fn work(next: &AtomicU64, pages: u64, seed: u64) -> (Tally, Differing) {
    let mut tally = Tally::default();
    let mut differ = Vec::new();
    loop {
        let index = next.fetch_add(1, Ordering::Relaxed);
        if index >= pages {
            return (tally, differ);
        }
        if let Err(difference) = compare(&case(seed, index), &mut tally) {
            differ.push((index, difference));
        }
    }
}
