//! What a run must have met; a comparison that never came to it proves nothing about it.

use crate::call::Operation;
use crate::gates::UNKNOWN_KIND;
use crate::instance::PRIMES;
use crate::order::{order, pairs};
use crate::tally::{Class, Feature, Kind, Tally};
use kidlothe::{MAX_DEPTH, MAX_EXPONENT, MAX_OUTPUTS, MAX_OUTPUT_EXPONENT};
use std::cmp::Ordering::{Equal, Greater, Less};

/// The kinds of input that run through a whole transcript.
const SESSIONS: [Kind; 3] = [Kind::Session, Kind::FalseOutput, Kind::FalseMessages];

/// Everything that the run should have met and has not.
pub fn missing(tally: &Tally) -> Vec<String> {
    let mut missing = Vec::new();
    for operation in Operation::ALL {
        let name = operation.name();
        for class in classes(operation).into_iter().filter(|&class| tally.given(operation, class) == 0) {
            missing.push(format!("{name} never answered {}", class.name()));
        }
        for (first, second) in pairs(operation) {
            if !tally.pairs.contains_key(&(operation, first, second)) {
                missing.push(format!("{name} never met {first} and then {second}"));
            }
        }
        for kind in kinds(operation).into_iter().filter(|&kind| !tally.answers.contains_key(&(operation, kind))) {
            missing.push(format!("{name} had no input of the kind: {}", kind.name()));
        }
    }
    for feature in features().into_iter().filter(|feature| !tally.features.contains(feature)) {
        missing.push(format!("{feature:?} never occurred"));
    }
    missing
}

fn classes(operation: Operation) -> Vec<Class> {
    let mut classes: Vec<Class> = order(operation).iter().map(|&number| Class::Refused(number)).collect();
    classes.push(Class::Accepted);
    if operation == Operation::Step {
        classes.push(Class::GoOn);
    }
    classes
}

fn kinds(operation: Operation) -> Vec<Kind> {
    let mut kinds = vec![Kind::Valid, Kind::Refusal, Kind::Pair];
    if operation != Operation::Read {
        kinds.extend([Kind::Word, Kind::Length]);
    }
    if !matches!(operation, Operation::Read | Operation::Load) {
        kinds.extend([Kind::Misplaced, Kind::Remainder]);
    }
    match operation {
        Operation::Evaluate | Operation::Prove | Operation::ProveOne => kinds.push(Kind::Buffer),
        Operation::Check | Operation::Open => kinds.extend(SESSIONS),
        Operation::Step => {
            kinds.extend(SESSIONS);
            kinds.push(Kind::Record);
        }
        Operation::Read => kinds.extend([Kind::Buffer, Kind::Bytes]),
        Operation::Load => kinds.push(Kind::Gate),
    }
    kinds
}

fn features() -> Vec<Feature> {
    let mut features = vec![Feature::FalseOutputAccepted, Feature::SingleInputRefused, Feature::Accepted(0, Equal)];
    for kind in 1..=3 {
        features.extend([Less, Equal].map(|order| Feature::Accepted(kind, order)));
    }
    features.push(Feature::Accepted(3, Greater));
    features.extend([Feature::OutputExponentRefused, Feature::OtherOutputExponentRefused]);
    features.extend([Less, Greater].map(Feature::OutputCountRefused));
    features.extend(
        (0..MAX_OUTPUTS).flat_map(|index| [Feature::FalseOutputRefused(index), Feature::OutputWordRefused(index)]),
    );
    features.extend((1..=MAX_OUTPUT_EXPONENT).map(Feature::ShortPrefixRefused));
    for kind in 0..=UNKNOWN_KIND {
        features.extend([Less, Equal, Greater].map(|order| Feature::Gate(kind, order)));
    }
    for prime in PRIMES {
        features.extend([Feature::LargestCircuit(prime), Feature::HiddenOutputAccepted(prime)]);
        features.extend((1..=MAX_DEPTH as u32).map(|depth| Feature::Depth(prime, depth)));
        features.extend((0..=MAX_EXPONENT as u32).map(|k| Feature::Exponent(prime, k)));
        features.extend((0..=MAX_OUTPUT_EXPONENT as u32).map(|k| Feature::OutputExponent(prime, k)));
    }
    features
}
