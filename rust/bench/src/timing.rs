//! Times of both implementations on the same jobs, in turn, so that what else the machine does meets both alike.
use crate::circuits::{jobs, Job, Shape};
use crate::operations::Operation;
use std::hint::black_box;
use std::time::Instant;

/// How many jobs of each shape are timed in turn.
const JOBS: usize = 32;

/// How many pairs of times are taken, and how long one of them should take at least, in seconds.
const PAIRS: usize = 41;
const SHORTEST: f64 = 0.0005;

/// The times of one call, in seconds.
#[derive(Clone, Copy)]
pub struct Times {
    pub proved: f64,
    pub plain: f64,
    /// The median of the ratios of times that were taken one after the other.
    pub ratio: f64,
    pub words: usize,
}

fn median(mut times: Vec<f64>) -> f64 {
    times.sort_by(f64::total_cmp);
    times[times.len() / 2]
}

/// What is timed: a call on each of these jobs in turn.
#[derive(Clone, Copy)]
struct Work<'a> {
    call: fn(&Job) -> u32,
    jobs: &'a [Job],
}

impl Work<'_> {
    /// The seconds of one call, over so many turns through all jobs.
    fn time(self, turns: usize) -> f64 {
        let start = Instant::now();
        for _ in 0..turns {
            for job in self.jobs {
                black_box((self.call)(black_box(job)));
            }
        }
        start.elapsed().as_secs_f64() / (turns * self.jobs.len()) as f64
    }
}

/// Pairs of times of one call, taken one after the other.
fn pairs(one: Work, other: Work) -> Vec<(f64, f64)> {
    let once = one.time(1) * one.jobs.len() as f64;
    let turns = (SHORTEST / once).ceil().max(1.0) as usize;
    (0..PAIRS).map(|_| (one.time(turns), other.time(turns))).collect()
}

/// The median of the ratios.
fn ratio(pairs: &[(f64, f64)]) -> f64 {
    median(pairs.iter().map(|pair| pair.0 / pair.1).collect())
}

/// Times an operation at a shape. Both implementations must answer alike.
pub fn times(operation: &Operation, shape: Shape) -> Times {
    let jobs = jobs(shape, JOBS);
    for job in &jobs {
        assert_eq!((operation.proved)(job), (operation.plain)(job), "{} answers differ", operation.name);
    }
    let [proved, plain] = [operation.proved, operation.plain].map(|call| Work { call, jobs: &jobs });
    let pairs = pairs(proved, plain);
    Times {
        proved: median(pairs.iter().map(|pair| pair.0).collect()),
        plain: median(pairs.iter().map(|pair| pair.1).collect()),
        ratio: ratio(&pairs),
        words: (operation.words)(&jobs[0]),
    }
}

/// The proved library's time for an operation at a shape over its time at another one.
pub fn times_over(operation: &Operation, shape: Shape, other: Shape) -> f64 {
    let jobs = [shape, other].map(|shape| jobs(shape, JOBS));
    let [one, other] = jobs.each_ref().map(|jobs| Work { call: operation.proved, jobs });
    ratio(&pairs(one, other))
}
