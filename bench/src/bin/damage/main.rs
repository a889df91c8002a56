//! Compares the proved libraries and the independent implementation on damaged inputs.

mod backwards;
mod files;
mod loads;
mod mixtures;
mod reads;
mod streams;

use bench::tally::{Kind, Tally};
use std::process::ExitCode;
use std::thread;

const WORKERS: usize = 2;

fn main() -> ExitCode {
    let workers: Vec<_> = (0..WORKERS)
        .map(|worker| thread::spawn(move || run(Tally::new(worker, WORKERS))))
        .collect();
    let tallies = workers
        .into_iter()
        .map(|worker| worker.join().expect("a worker ends"))
        .collect();
    report(joined(tallies))
}

/// Every worker goes through all cases, and compares its share.
fn run(mut tally: Tally) -> Tally {
    loads::compare(&mut tally);
    streams::compare(&mut tally);
    files::compare(&mut tally);
    reads::compare(&mut tally);
    backwards::compare(&mut tally);
    mixtures::compare(&mut tally);
    tally
}

fn joined(tallies: Vec<Tally>) -> Vec<Kind> {
    let mut tallies = tallies.into_iter().map(|tally| tally.kinds);
    let mut kinds = tallies.next().unwrap_or_default();
    for other in tallies {
        for (kind, more) in kinds.iter_mut().zip(other) {
            kind.add(more);
        }
    }
    kinds
}

fn report(kinds: Vec<Kind>) -> ExitCode {
    for kind in &kinds {
        println!(
            "{:>7} cases, {} differ: {}",
            kind.cases, kind.differ, kind.name
        );
        for text in &kind.shown {
            println!("{text}");
        }
    }
    let cases: usize = kinds.iter().map(|kind| kind.cases).sum();
    let differ: usize = kinds.iter().map(|kind| kind.differ).sum();
    println!("{cases} cases, {differ} differ");
    if differ == 0 {
        ExitCode::SUCCESS
    } else {
        ExitCode::FAILURE
    }
}
