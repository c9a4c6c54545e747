//! Faults made on purpose: for each refusal, a change of a valid call that earns it.

use crate::call::{Call, List, Operation};
use crate::draw::Draw;
use crate::edit::Edit;
use crate::gates::UNKNOWN_KIND;
use crate::instance::Instance;
use crate::order;
use crate::outcome::{of_plain, Answer};
use kidlothe::{MAX_DEPTH, MAX_EXPONENT, MAX_OUTPUT_EXPONENT};

pub struct Fault {
    pub number: u32,
    pub edit: Edit,
    /// The gate or the message that the fault is in.
    index: usize,
}

impl Fault {
    /// Draws a fault of a valid call, where the call has a place for it.
    pub fn draw(number: u32, call: &Call, instance: &Instance, draw: &mut Draw) -> Option<Self> {
        if matches!(number, 6 | 7) {
            return Some(gate_fault(number, instance, draw));
        }
        if matches!(number, 15..=18) {
            return walk_fault(number, call, instance, draw);
        }
        let edit = match number {
            1..=5 => head_edit(number, instance, draw),
            10 => {
                let (needed, shorter) = (instance.needed(call), draw.below(instance.needed(call)));
                Edit::Buffer(draw.pick(&[0, needed - 1, shorter]))
            }
            11 if call.operation == Operation::ProveOne => prefix_edit(call, instance, draw),
            19 => record_edit(call, instance, draw),
            _ => list_edit(number, call, instance, draw)?,
        };
        Some(Fault { number, edit, index: 0 })
    }

    pub fn rank(&self, operation: Operation) -> (usize, usize, u32) {
        order::rank(operation, self.number, self.index)
    }

    /// Whether the fault alone always earns its number. A changed input may go unnoticed.
    pub fn is_certain(&self) -> bool {
        self.number != 18
    }
}

fn head_edit(number: u32, instance: &Instance, draw: &mut Draw) -> Edit {
    let depth = instance.depth();
    let (gates, length) = (instance.gate_start(0), instance.circuit.len());
    match number {
        1 => Edit::Cut(List::Circuit, draw.below(3)),
        2 => Edit::Set(List::Circuit, 0, unlisted(draw)),
        3 => {
            let deeper = draw.at_least(MAX_DEPTH as u32 + 1);
            Edit::Set(List::Circuit, 1, draw.pick(&[0, deeper]))
        }
        4 if draw.one_in(3) => Edit::Cut(List::Circuit, 3 + draw.below(depth)),
        4 if draw.one_in(2) => Edit::Set(List::Circuit, 2, draw.at_least(MAX_OUTPUT_EXPONENT as u32 + 1)),
        4 => Edit::Set(List::Circuit, 3 + draw.below(depth), draw.at_least(MAX_EXPONENT as u32 + 1)),
        _ if draw.one_in(3) => Edit::Set(List::Circuit, 2, other_output_exponent(instance, draw)),
        _ if draw.one_in(2) => Edit::Cut(List::Circuit, gates + draw.below(length - gates)),
        _ => extension(List::Circuit, draw),
    }
}

fn unlisted(draw: &mut Draw) -> u32 {
    let any = draw.word();
    let word = draw.pick(&[0, 1, 2, 7, 11, 12, 14, 17, 65_536, 65_539, 2_147_483_646, 4_294_967_279, u32::MAX, any]);
    // A drawn word may be a listed prime by chance; an even one never is.
    if word == any {
        word & !1
    } else {
        word
    }
}

/// One that the limits allow, but that calls for more or fewer gates.
fn other_output_exponent(instance: &Instance, draw: &mut Draw) -> u32 {
    let step = 1 + draw.below(MAX_OUTPUT_EXPONENT) as u32;
    (instance.exponents[0] + step) % (MAX_OUTPUT_EXPONENT as u32 + 1)
}

/// More words than the list should have, sometimes many more.
fn extension(list: List, draw: &mut Draw) -> Edit {
    let many = 1 + draw.below(300);
    let count = draw.pick(&[1, 1, 1, 2, 3, many]);
    Edit::Extend(list, draw.words(count))
}

fn gate_fault(number: u32, instance: &Instance, draw: &mut Draw) -> Fault {
    let index = draw.below(instance.gates().len());
    let start = instance.gate_start(index);
    let (place, word) =
        if number == 6 { (start, draw.at_least(UNKNOWN_KIND)) } else { bad_wire(instance, index, start, draw) };
    Fault { number, edit: Edit::Set(List::Circuit, place, word), index }
}

/// A wire outside the next layer, a left wire above the right one of a gate that does not subtract, or a nonzero wire of an empty gate.
fn bad_wire(instance: &Instance, gate: usize, start: usize, draw: &mut Draw) -> (usize, u32) {
    let width = instance.next_width(gate);
    let (kind, right) = (instance.circuit[start], instance.circuit[start + 2]);
    match draw.below(3) {
        0 if kind != 3 => (start + 1, right + 1),
        1 if kind == 0 && width > 1 => (start + 2, 1 + draw.below(width - 1) as u32),
        2 => (start + 1, draw.at_least(width as u32)),
        _ => (start + 2, draw.at_least(width as u32)),
    }
}

/// Faults of the input, the outputs, the coins and the number of message words.
fn list_edit(number: u32, call: &Call, instance: &Instance, draw: &mut Draw) -> Option<Edit> {
    let list = match number {
        8 | 9 => List::Input,
        13 | 21 => List::Outputs,
        11 | 12 => List::Coins,
        _ => List::Messages,
    };
    let length = call.list(list).len();
    if matches!(number, 9 | 12 | 13) {
        let place = (length > 0).then(|| draw.below(length))?;
        return Some(Edit::Set(list, place, draw.at_least(instance.prime)));
    }
    Some(if draw.one_in(2) { Edit::Cut(list, draw.pick(&[0, length / 2, length - 1])) } else { extension(list, draw) })
}

/// A prefix that lacks some of the coins before any message, or one of all coins or more.
fn prefix_edit(call: &Call, instance: &Instance, draw: &mut Draw) -> Edit {
    let first = instance.first_coins().len();
    if first > 0 && draw.one_in(2) {
        let fewer = draw.below(first);
        return Edit::Cut(List::Coins, draw.pick(&[first - 1, fewer]));
    }
    let missing = instance.coins.len() - call.coins().len();
    let more = draw.pick(&[0, 0, 1, 5]);
    Edit::Extend(List::Coins, (0..missing + more).map(|_| draw.residue(instance.prime)).collect())
}

fn walk_fault(number: u32, call: &Call, instance: &Instance, draw: &mut Draw) -> Option<Fault> {
    if number == 18 {
        let index = draw.below(instance.input.len());
        let word = draw.other_residue(instance.prime, instance.input[index]);
        let last = instance.places.len() - 1;
        return Some(Fault { number, edit: Edit::Set(List::Input, index, word), index: last });
    }
    let is_step = call.operation == Operation::Step;
    let index = if is_step { place_of(call, instance) } else { place_for(&[number], instance, draw)? };
    if is_step && number != 15 && draw.one_in(3) {
        let claim = draw.other_residue(instance.prime, call.record[2]);
        return Some(Fault { number, edit: Edit::Record(2, claim), index });
    }
    let (at, word) = message_word(number, instance, index, draw)?;
    let start = if is_step { 0 } else { instance.places[index].start };
    Some(Fault { number, edit: Edit::Set(List::Messages, start + at, word), index })
}

/// A word of the message at a place that earns the number there.
fn message_word(number: u32, instance: &Instance, place: usize, draw: &mut Draw) -> Option<(usize, u32)> {
    let at = draw.below(instance.places[place].length);
    let old = instance.message(place)[at];
    if number == 15 {
        return Some((at, no_residue(instance.prime, old, draw)));
    }
    let word = draw.other_residue(instance.prime, old);
    // A changed line may pass here and be refused by a later message only.
    let mut step = instance.step(place);
    step.list_mut(List::Messages)[at] = word;
    (of_plain(&step).answer == Answer::Refused(number)).then_some((at, word))
}

/// A word that is not below p, if possible with the old word's remainder.
fn no_residue(prime: u32, old: u32, draw: &mut Draw) -> u32 {
    match old.checked_add(prime) {
        Some(word) if draw.one_in(2) => word,
        _ => draw.at_least(prime),
    }
}

/// A place whose message can earn all of the numbers in a step.
pub fn place_for(numbers: &[u32], instance: &Instance, draw: &mut Draw) -> Option<usize> {
    let last = instance.places.len() - 1;
    let fitting: Vec<usize> = (0..=last)
        .filter(|&index| {
            numbers.iter().all(|number| match number {
                16 => !instance.places[index].line,
                17 => instance.places[index].line,
                18 => index == last,
                _ => true,
            })
        })
        .collect();
    (!fitting.is_empty()).then(|| draw.pick(&fitting))
}

/// The place where a step's record stands.
fn place_of(call: &Call, instance: &Instance) -> usize {
    let [layer, round, ..] = call.record;
    let place = instance.places.iter().position(|place| place.layer == layer && place.round == round);
    place.expect("a place of the circuit")
}

fn record_edit(call: &Call, instance: &Instance, draw: &mut Draw) -> Edit {
    let depth = instance.depth() as u32;
    let k = instance.exponents[call.record[0] as usize];
    let (deeper, later) = (draw.at_least(depth + 1), draw.at_least(2 * k + 1));
    match draw.below(4) {
        0 => Edit::Record(0, draw.pick(&[0, deeper])),
        1 => Edit::Record(1, later),
        2 => Edit::Record(2, draw.at_least(instance.prime)),
        _ => Edit::Record(3, draw.pick(&[0, 2, u32::MAX])),
    }
}
