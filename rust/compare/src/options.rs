//! The command line.

use std::time::Duration;

pub const USAGE: &str = "usage: compare [--inputs N | --seconds N] [--seed S] [--threads T] [--unit U]";

const DEFAULT_INPUTS: u64 = 10_000_000;
const DEFAULT_SEED: u64 = 20_250_101;
const DEFAULT_THREADS: u64 = 2;

/// When a run ends.
#[derive(Clone, Copy)]
pub enum Extent {
    Inputs(u64),
    Time(Duration),
    /// Only this unit, to repeat a difference.
    Unit(u64),
}

pub struct Options {
    pub extent: Extent,
    pub seed: u64,
    pub threads: u64,
}

impl Options {
    /// The options that the arguments ask for, or none where they can't be read.
    pub fn parse(arguments: impl Iterator<Item = String>) -> Option<Self> {
        let mut options =
            Options { extent: Extent::Inputs(DEFAULT_INPUTS), seed: DEFAULT_SEED, threads: DEFAULT_THREADS };
        let mut arguments = arguments;
        while let Some(flag) = arguments.next() {
            let number: u64 = arguments.next()?.parse().ok()?;
            match flag.as_str() {
                "--inputs" => options.extent = Extent::Inputs(number),
                "--seconds" => options.extent = Extent::Time(Duration::from_secs(number)),
                "--unit" => options.extent = Extent::Unit(number),
                "--seed" => options.seed = number,
                "--threads" if number > 0 => options.threads = number,
                _ => return None,
            }
        }
        Some(options)
    }
}
