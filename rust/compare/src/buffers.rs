//! Buffers of every length around the one that is needed.

use crate::arena::Arena;
use crate::call::Operation;
use crate::instance::Instance;
use crate::outcome::Answer;
use crate::tally::Kind;

/// A valid call with another buffer: exact, one short, shorter, empty, longer.
pub fn any(arena: &mut Arena, instance: &Instance) {
    let operation = arena.draw.pick(&[Operation::Evaluate, Operation::Prove, Operation::ProveOne]);
    let mut call = instance.call(operation, &mut arena.draw);
    let needed = instance.needed(&call);
    let (shorter, longer) = (arena.draw.below(needed), needed + 1 + arena.draw.below(100));
    call.buffer = arena.draw.pick(&[needed, needed, needed - 1, needed - 1, 0, shorter, needed + 1, longer]);
    let outcome = arena.compare(Kind::Buffer, &call);
    if (outcome.answer == Answer::Refused(10)) != (call.buffer < needed) {
        arena.fail("10 tells a buffer that is too short from one that is not", Kind::Buffer, &call, &outcome);
    }
}
