//! Runs the proved library and the plain implementation on the same inputs and compares answers, lent buffers and records.

mod arena;
mod buffers;
mod bytes;
mod call;
mod damage;
mod draw;
mod edit;
mod fault;
mod gates;
mod instance;
mod lying;
mod options;
mod order;
mod outcome;
mod pairs;
mod records;
mod residues;
mod row;
mod tally;
mod unit;
mod valid;
mod wanted;

use std::process::ExitCode;
use std::sync::atomic::{AtomicU64, Ordering};
use std::thread;
use std::time::Instant;

use options::{Extent, Options, USAGE};
use tally::Tally;

fn main() -> ExitCode {
    let Some(options) = Options::parse(std::env::args().skip(1)) else {
        eprintln!("{USAGE}");
        return ExitCode::from(2);
    };
    println!("seed {}", options.seed);
    let start = Instant::now();
    let tally = run(&options, start);
    tally.print();
    eprintln!("{} threads, {:.1} s", options.threads, start.elapsed().as_secs_f64());
    let complete = matches!(options.extent, Extent::Unit(_)) || nothing_is_missing(&tally);
    println!("compared {} inputs, 0 differences", tally.inputs);
    if complete {
        ExitCode::SUCCESS
    } else {
        ExitCode::FAILURE
    }
}

/// Shares the units among the threads. A unit's inputs depend on the seed and its number alone.
fn run(options: &Options, start: Instant) -> Tally {
    let next = AtomicU64::new(0);
    let work = || {
        let mut tally = Tally::default();
        while let Some(unit) = next_unit(&next, options.extent, start) {
            tally.merge(unit::run(options.seed, unit));
        }
        tally
    };
    thread::scope(|scope| {
        let threads: Vec<_> = (0..options.threads).map(|_| scope.spawn(work)).collect();
        let mut all = Tally::default();
        for thread in threads {
            all.merge(thread.join().expect("a comparing thread panicked"));
        }
        all
    })
}

fn next_unit(next: &AtomicU64, extent: Extent, start: Instant) -> Option<u64> {
    let turn = next.fetch_add(1, Ordering::Relaxed);
    match extent {
        Extent::Inputs(inputs) => (turn * unit::INPUTS < inputs).then_some(turn),
        Extent::Time(time) => (start.elapsed() < time).then_some(turn),
        Extent::Unit(unit) => (turn == 0).then_some(unit),
    }
}

fn nothing_is_missing(tally: &Tally) -> bool {
    let missing = wanted::missing(tally);
    for line in &missing {
        println!("missing: {line}");
    }
    missing.is_empty()
}
