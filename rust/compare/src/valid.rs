//! Valid calls and their sessions.

use crate::arena::Arena;
use crate::call::Operation;
use crate::instance::Instance;
use crate::outcome::Answer;
use crate::row::Row;
use crate::tally::Kind;

/// Every operation once on valid lists.
pub fn each_operation(arena: &mut Arena, instance: &Instance) {
    let valid = |arena: &mut Arena, operation| {
        let call = instance.call(operation, &mut arena.draw);
        arena.compare(Kind::Valid, &call)
    };
    valid(arena, Operation::Load);
    valid(arena, Operation::Open);
    valid(arena, Operation::Step);
    one_message(arena, instance);
    let evaluate = instance.call(Operation::Evaluate, &mut arena.draw);
    arena.expect(Kind::Valid, &evaluate, Answer::Outputs(Row::of(&instance.outputs)));
    let check = instance.call(Operation::Check, &mut arena.draw);
    arena.expect(Kind::Valid, &check, Answer::Accepted);
    arena.tally.features.extend(instance.features());
}

/// A message made alone is the one of the whole transcript.
fn one_message(arena: &mut Arena, instance: &Instance) {
    let call = instance.call(Operation::ProveOne, &mut arena.draw);
    let message = instance.next_message(call.coins());
    let outcome = arena.expect(Kind::Valid, &call, Answer::Message(message.len()));
    if outcome.front(message.len()) != message {
        arena.fail("the message is not that of the whole transcript", Kind::Valid, &call, &outcome);
    }
}

/// Steps through a transcript to its end and beyond it. The whole check must end alike.
pub fn session(arena: &mut Arena, kind: Kind, instance: &Instance, outputs: &[u32], messages: &[u32]) {
    let open = instance.claim_call(Operation::Open, outputs, messages);
    let mut record = arena.expect(kind, &open, Answer::Opened(Row::of(instance.first_coins()))).record;
    let check = instance.claim_call(Operation::Check, outputs, messages);
    for (place, &coin) in instance.places.iter().zip(instance.message_coins()) {
        let message = &messages[place.start..place.start + place.length];
        let mut step = instance.claim_call(Operation::Step, outputs, message);
        step.record = record;
        let outcome = arena.compare(kind, &step);
        record = outcome.record;
        if outcome.answer != Answer::GoOn(coin) {
            step.record = record;
            arena.expect(kind, &step, Answer::Refused(19));
            arena.expect(kind, &check, outcome.answer);
            return;
        }
    }
    let outcome = arena.compare(kind, &check);
    arena.fail("a session goes on after the last message of this transcript", kind, &check, &outcome);
}
