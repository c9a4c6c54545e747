//! A lying prover: it keeps every comparison right for as long as it can and hopes for luck with the coins.

use crate::arena::Arena;
use crate::call::{List, Operation};
use crate::draw::Draw;
use crate::instance::Instance;
use crate::outcome::{of_plain, Answer};
use crate::residues::{add, ends_sum, mul, sub, value};
use crate::tally::{Feature, Kind};
use crate::valid::session;

/// How many lines are tried for one that fits a false claim. One in thirteen does at p = 13.
const TRIES: usize = 40;

/// A whole transcript of lies, checked and sometimes stepped through. No sum round can tell that it lies.
pub fn transcript(arena: &mut Arena, instance: &Instance) {
    let mut outputs = instance.outputs.clone();
    let false_words = false_words(&mut arena.draw, outputs.len());
    for &index in &false_words {
        outputs[index] = arena.draw.other_residue(instance.prime, instance.outputs[index]);
    }
    let kind = if false_words.is_empty() { Kind::FalseMessages } else { Kind::FalseOutput };
    let messages = lies(arena, instance, &outputs);
    let check = instance.claim_call(Operation::Check, &outputs, &messages);
    let outcome = arena.compare(kind, &check);
    if !matches!(outcome.answer, Answer::Accepted | Answer::Refused(17 | 18)) {
        arena.fail("a transcript whose sums are right is refused otherwise", kind, &check, &outcome);
    }
    if let [index] = false_words[..] {
        let hidden = instance.first_claim(&outputs) == instance.claim(0);
        arena.tally.features.extend(feature(instance.prime, index, hidden, outcome.answer));
    }
    if arena.draw.one_in(3) {
        session(arena, kind, instance, &outputs, &messages);
    }
}

/// The outputs that are false: one, or none, or two.
fn false_words(draw: &mut Draw, count: usize) -> Vec<usize> {
    let number = if draw.one_in(4) {
        0
    } else if draw.one_in(3) {
        2
    } else {
        1
    };
    let mut words: Vec<usize> = (0..number).map(|_| draw.below(count)).collect();
    words.dedup();
    words
}

/// What a list with one false word has met. It is hidden where the first claim is nevertheless the true one.
fn feature(prime: u32, index: usize, hidden: bool, answer: Answer) -> Option<Feature> {
    match (hidden, answer) {
        (true, Answer::Accepted) => Some(Feature::HiddenOutputAccepted(prime)),
        (false, Answer::Accepted) => Some(Feature::FalseOutputAccepted),
        (false, _) => Some(Feature::FalseOutputRefused(index)),
        (true, _) => None,
    }
}

fn lies(arena: &mut Arena, instance: &Instance, outputs: &[u32]) -> Vec<u32> {
    let prime = instance.prime;
    let mut claim = instance.first_claim(outputs);
    let mut messages = Vec::new();
    for (index, place) in instance.places.iter().enumerate() {
        let is_true = claim == instance.claim(index);
        let mut message = instance.message(index).to_vec();
        if place.line && !is_true {
            fit_line(arena, instance, index, claim, &mut message);
        } else if place.line && arena.draw.one_in(2) {
            turn_around(prime, &mut message);
        } else if !place.line && (!is_true || arena.draw.one_in(6)) {
            balance(arena, prime, claim, &mut message);
        }
        claim = value(prime, &message, instance.message_coins()[index]);
        messages.extend(message);
    }
    messages
}

/// Changes a sum message so that its values at 0 and at 1 add up to the claim.
fn balance(arena: &mut Arena, prime: u32, claim: u32, message: &mut [u32]) {
    let shift = arena.draw.residue(prime);
    message[1] = sub(prime, message[1], shift);
    message[2] = add(prime, message[2], shift);
    let missing = sub(prime, claim, ends_sum(prime, message));
    match arena.draw.below(3) {
        // The constant counts twice.
        0 => message[0] = add(prime, message[0], mul(prime, missing, prime / 2 + 1)),
        place => message[place] = add(prime, message[place], missing),
    }
}

/// The line run through from its other end: where no gate subtracts, the summand doesn't tell the two apart.
fn turn_around(prime: u32, message: &mut Vec<u32>) {
    // f(1 - t), built up by Horner's rule from the highest coefficient.
    let mut turned = vec![0; message.len()];
    for &coefficient in message.iter().rev() {
        for index in (0..turned.len()).rev() {
            let below = if index > 0 { turned[index - 1] } else { 0 };
            turned[index] = sub(prime, turned[index], below);
        }
        turned[0] = add(prime, turned[0], coefficient);
    }
    *message = turned;
}

/// Tries lines until one gives the false claim. Hopeless, and left alone, where p is large.
fn fit_line(arena: &mut Arena, instance: &Instance, place: usize, claim: u32, message: &mut [u32]) {
    if instance.prime > 13 || instance.circuit.len() > 200 {
        return;
    }
    let mut step = instance.step(place);
    step.record[2] = claim;
    for _ in 0..TRIES {
        message.fill_with(|| arena.draw.residue(instance.prime));
        step.list_mut(List::Messages).copy_from_slice(message);
        if of_plain(&step).answer != Answer::Refused(17) {
            return;
        }
    }
}
