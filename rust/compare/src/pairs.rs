//! Every refusal on purpose, and two of them on one input: the one that is tried first must be given.

use crate::arena::Arena;
use crate::call::{Call, List, Operation};
use crate::fault::{place_for, Fault};
use crate::instance::Instance;
use crate::order::pairs;
use crate::outcome::Answer;
use crate::tally::{Feature, Kind};
use kidlothe::MAX_OUTPUT_EXPONENT;

/// Draws a pair of refusals and tries each alone, then both.
pub fn two_faults(arena: &mut Arena, instance: &Instance) {
    let operation = arena.draw.pick(&Operation::ON_CIRCUITS);
    let (one, other) = arena.draw.pick(&pairs(operation));
    let Some(base) = base(arena, instance, operation, [one, other]) else {
        return;
    };
    let faults = [one, other].map(|number| Fault::draw(number, &base, instance, &mut arena.draw));
    let [Some(one), Some(other)] = faults else {
        return;
    };
    if [&one, &other].into_iter().all(|fault| earns_its_number(arena, instance, &base, fault)) {
        let one_is_first = one.rank(operation) < other.rank(operation);
        let (first, second) = if one_is_first { (one, other) } else { (other, one) };
        both(arena, base, &first, &second);
    }
}

/// A valid call that has a place for both faults.
fn base(arena: &mut Arena, instance: &Instance, operation: Operation, numbers: [u32; 2]) -> Option<Call> {
    if operation == Operation::Step {
        return place_for(&numbers, instance, &mut arena.draw).map(|place| instance.step(place));
    }
    Some(instance.call(operation, &mut arena.draw))
}

fn earns_its_number(arena: &mut Arena, instance: &Instance, base: &Call, fault: &Fault) -> bool {
    let mut call = base.clone();
    fault.edit.apply(&mut call);
    let outcome = arena.compare(Kind::Refusal, &call);
    let earned = outcome.answer == Answer::Refused(fault.number);
    if !earned && fault.is_certain() {
        arena.fail(&format!("the answer should be {}", fault.number), Kind::Refusal, &call, &outcome);
    }
    if earned {
        arena.tally.features.extend(feature(instance, &call, fault.number));
    }
    earned
}

/// What the refusal has met.
fn feature(instance: &Instance, call: &Call, number: u32) -> Option<Feature> {
    let first = instance.first_coins().len();
    let outputs = call.list(List::Outputs);
    let output_exponent = call.list(List::Circuit).get(2).copied();
    match number {
        4 if output_exponent == Some(MAX_OUTPUT_EXPONENT as u32 + 1) => Some(Feature::OutputExponentRefused),
        5 if output_exponent != Some(instance.exponents[0]) => Some(Feature::OtherOutputExponentRefused),
        13 => outputs.iter().position(|&word| word >= instance.prime).map(Feature::OutputWordRefused),
        21 => Some(Feature::OutputCountRefused(outputs.len().cmp(&instance.outputs.len()))),
        11 if call.operation == Operation::ProveOne && call.coins().len() + 1 == first => {
            Some(Feature::ShortPrefixRefused(first))
        }
        18 if instance.input.len() == 1 => Some(Feature::SingleInputRefused),
        _ => None,
    }
}

fn both(arena: &mut Arena, mut call: Call, first: &Fault, second: &Fault) {
    let clash = first.edit.clashes(&second.edit);
    if !clash && first.edit.apply(&mut call) && second.edit.apply(&mut call) {
        arena.expect(Kind::Pair, &call, Answer::Refused(first.number));
        arena.tally.count_pair(call.operation, first.number, second.number);
    }
}
