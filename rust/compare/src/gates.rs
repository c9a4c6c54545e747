//! One gate of a legal circuit put in the place of another: of every kind, with its wires in every order.

use crate::arena::Arena;
use crate::call::{List, Operation};
use crate::instance::Instance;
use crate::outcome::Answer;
use crate::tally::{Feature, Kind};

/// The least number that is no kind's.
pub const UNKNOWN_KIND: u32 = 4;

/// Load must answer by the one gate, since the others are legal.
pub fn any(arena: &mut Arena, instance: &Instance) {
    let draw = &mut arena.draw;
    let gate = draw.below(instance.gates().len());
    let width = instance.next_width(gate);
    let unknown = draw.at_least(UNKNOWN_KIND);
    let kind = draw.pick(&[0, 1, 2, 3, unknown]);
    let [left, right] = [draw.below(width) as u32, draw.below(width) as u32];
    let mut call = instance.call(Operation::Load, draw);
    let start = instance.gate_start(gate);
    call.list_mut(List::Circuit)[start..start + 3].copy_from_slice(&[kind, left, right]);
    arena.expect(Kind::Gate, &call, answer(kind, left, right));
    arena.tally.features.insert(Feature::Gate(kind.min(UNKNOWN_KIND), left.cmp(&right)));
}

/// The answer to a gate whose wires are inside the next layer.
fn answer(kind: u32, left: u32, right: u32) -> Answer {
    let fits = match kind {
        0 => left == 0 && right == 0,
        1 | 2 => left <= right,
        3 => true,
        _ => return Answer::Refused(6),
    };
    if fits {
        Answer::Legal
    } else {
        Answer::Refused(7)
    }
}
