//! Compares the library with the independent program on inputs made from a seed: `compare [COUNT [SEED]]`.
//!
//! Each input goes through both, into tables that are filled with the same pattern. Number, place, every other word of the result, and
//! all that was lent must be equal to its very end and a little past it; a refusal must leave what was lent, but for the steps that a walk
//! was granted before. A walk must equal its single steps, too. Large cases that are always the same come first. The run ends at the first
//! difference, by index.

mod call;
mod kinds;
mod report;
mod tally;

use report::Difference;
use std::panic::{catch_unwind, AssertUnwindSafe};
use std::process::ExitCode;
use std::sync::atomic::{AtomicU64, Ordering};
use tally::Tally;

const DEFAULT_COUNT: u64 = 1_000_000;
const DEFAULT_SEED: u64 = 1;
const THREADS: u64 = 2;

/// The first difference that is known: where it was found, and what is told of it.
type Found = Option<(u64, Difference)>;

/// One input; a panic counts as a difference.
fn run_input(seed: u64, index: u64, tally: &mut Tally) -> Result<(), Difference> {
    let run = AssertUnwindSafe(|| kinds::run(seed, index, tally));
    catch_unwind(run).unwrap_or_else(|_| Err(Difference("a side panicked".to_string())))
}

/// Every so many inputs, up to the first difference of any thread.
fn run_share(first: u64, count: u64, seed: u64, end: &AtomicU64) -> (Tally, Found) {
    let mut tally = Tally::new();
    let mut index = first;
    while index < count && index < end.load(Ordering::Relaxed) {
        if let Err(difference) = run_input(seed, index, &mut tally) {
            end.fetch_min(index, Ordering::Relaxed);
            return (tally, Some((index, difference)));
        }
        index += THREADS;
    }
    (tally, None)
}

/// All inputs, shared among the threads.
fn run_shares(count: u64, seed: u64) -> Vec<(Tally, Found)> {
    let end = &AtomicU64::new(u64::MAX);
    std::thread::scope(|scope| {
        let start = |first| scope.spawn(move || run_share(first, count, seed, end));
        let threads: Vec<_> = (0..THREADS).map(start).collect();
        let shares = threads.into_iter().map(|thread| thread.join());
        shares
            .map(|share| share.expect("a share runs to its end"))
            .collect()
    })
}

/// All inputs; of two differences the one with the lower index counts.
fn run_all(count: u64, seed: u64, tally: &mut Tally) -> Found {
    let shares = run_shares(count, seed);
    shares.iter().for_each(|(share, _)| tally.add(share));
    let found = shares.into_iter().filter_map(|(_, found)| found);
    found.min_by_key(|found| found.0)
}

fn numbers() -> Option<(u64, u64)> {
    let given: Result<Vec<u64>, _> = std::env::args().skip(1).map(|text| text.parse()).collect();
    match given.ok()?[..] {
        [] => Some((DEFAULT_COUNT, DEFAULT_SEED)),
        [count] => Some((count, DEFAULT_SEED)),
        [count, seed] => Some((count, seed)),
        _ => None,
    }
}

fn main() -> ExitCode {
    let Some((count, seed)) = numbers() else {
        eprintln!("usage: compare [COUNT [SEED]]");
        return ExitCode::from(2);
    };
    let mut tally = Tally::new();
    if let Err((name, Difference(text))) = kinds::fixed::run(&mut tally) {
        println!("fixed case, {name}: difference\n{text}");
        return ExitCode::FAILURE;
    }
    if let Some((index, Difference(text))) = run_all(count, seed, &mut tally) {
        println!("seed {seed}, input {index}: difference\n{text}");
        return ExitCode::FAILURE;
    }
    tally.print();
    println!("compared {count} inputs, seed {seed}: all equal");
    ExitCode::SUCCESS
}
