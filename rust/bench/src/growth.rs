//! How the times change with the width exponent, the depth, the kinds of gates and the number of outputs of a circuit.
use crate::circuits::{Kinds, Shape, KINDS, LARGEST_PRIME, SUMS_AND_PRODUCTS};
use crate::operations::{Operation, ON_OUTPUTS, OPERATIONS};
use crate::timing::{times, times_over, Times};
use kidlothe::{MAX_DEPTH, MAX_EXPONENT, MAX_OUTPUT_EXPONENT};
use std::iter::once;

/// The depth at which the width grows, and the exponent at which the depth grows.
pub const DEPTH: usize = 4;
pub const EXPONENT: usize = 5;

/// The depth at which kinds of gates are compared, with the exponent above.
pub const KINDS_DEPTH: usize = 8;

/// The times of an operation along an axis.
pub struct Line<P> {
    pub name: &'static str,
    pub points: Vec<(P, Times)>,
}

/// The times of an operation on the largest circuit, with one output and with the most.
pub struct Outputs {
    pub name: &'static str,
    pub one: Times,
    pub most: Times,
    /// The proved library's time with the most over that with one.
    pub most_over_one: f64,
}

pub struct Growth {
    pub by_exponent: Vec<Line<usize>>,
    pub by_depth: Vec<Line<usize>>,
    pub by_kinds: Vec<Line<Kinds>>,
    pub by_outputs: Vec<Outputs>,
}

fn lines<P: Copy>(places: impl Iterator<Item = P> + Clone, shape: fn(P) -> Shape) -> Vec<Line<P>> {
    OPERATIONS
        .iter()
        .map(|operation| Line {
            name: operation.name,
            points: places.clone().map(|place| (place, times(operation, shape(place)))).collect(),
        })
        .collect()
}

fn shape(depth: usize, exponent: usize, kinds: Kinds) -> Shape {
    Shape { prime: LARGEST_PRIME, depth, output_exponent: 0, exponent, kinds }
}

/// The largest circuit, but for its outputs.
fn largest(output_exponent: usize) -> Shape {
    Shape { output_exponent, ..shape(MAX_DEPTH, MAX_EXPONENT, SUMS_AND_PRODUCTS) }
}

fn outputs(operation: &Operation) -> Outputs {
    let (one, most) = (largest(0), largest(MAX_OUTPUT_EXPONENT));
    Outputs {
        name: operation.name,
        one: times(operation, one),
        most: times(operation, most),
        most_over_one: times_over(operation, most, one),
    }
}

pub fn measured() -> Growth {
    Growth {
        by_exponent: lines(0..=MAX_EXPONENT, |exponent| shape(DEPTH, exponent, SUMS_AND_PRODUCTS)),
        by_depth: lines(once(1).chain((2..=MAX_DEPTH).step_by(2)), |depth| shape(depth, EXPONENT, SUMS_AND_PRODUCTS)),
        by_kinds: lines(KINDS.into_iter(), |kinds| shape(KINDS_DEPTH, EXPONENT, kinds)),
        by_outputs: ON_OUTPUTS.iter().map(outputs).collect(),
    }
}
