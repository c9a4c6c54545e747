//! The kinds of gates: what makes a gate of each kind legal, and its value.

use crate::field::Field;
use crate::refusal::{self, require};

/// Kind, left wire, right wire.
pub(crate) type Gate = [u32; 3];

pub(crate) const EMPTY: u32 = 0;
const ADD: u32 = 1;
const MULTIPLY: u32 = 2;
const SUBTRACT: u32 = 3;

/// The kinds that aren't empty: those with a term in the summand.
pub(crate) const OPERATIONS: [u32; 3] = [ADD, MULTIPLY, SUBTRACT];

/// Refuses a gate that is not legal over a layer of the width.
pub(crate) fn check([kind, left, right]: Gate, width: u32) -> Result<(), u32> {
    require(kind <= SUBTRACT, refusal::KIND)?;
    let last = width - 1;
    // Only a difference depends on the order of its operands, so only there left may be above right.
    // An empty gate's left is not above its right either, so a right wire of 0 makes both 0.
    let last_left = if kind == SUBTRACT { last } else { right };
    let last_right = if kind == EMPTY { 0 } else { last };
    require(left <= last_left && right <= last_right, refusal::WIRE)
}

/// The value of a gate of the kind. No kind squares an operand: while one stands, the value is a line in the other.
#[inline]
pub(crate) fn value(field: Field, kind: u32, left: u32, right: u32) -> u32 {
    match kind {
        ADD => field.add(left, right),
        MULTIPLY => field.mul(left, right),
        SUBTRACT => field.sub(left, right),
        _ => 0,
    }
}
