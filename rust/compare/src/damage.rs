//! Valid calls, damaged without a plan: words, lengths, and lists in each other's place.

use crate::arena::Arena;
use crate::call::{Call, List, Operation};
use crate::draw::Draw;
use crate::instance::Instance;
use crate::outcome::Answer;
use crate::tally::Kind;

/// One damaged call; a second damage on top of it now and then.
pub fn any(arena: &mut Arena, instance: &Instance) {
    let operation = arena.draw.pick(&Operation::ON_CIRCUITS);
    let mut call = instance.call(operation, &mut arena.draw);
    let mut kind = damage(&mut arena.draw, &mut call, instance.prime);
    if arena.draw.one_in(5) {
        kind = kind.max(damage(&mut arena.draw, &mut call, instance.prime));
    }
    arena.compare(kind, &call);
}

fn damage(draw: &mut Draw, call: &mut Call, prime: u32) -> Kind {
    match draw.below(8) {
        0 | 1 => damage_length(draw, call),
        2 if call.operation != Operation::Load => exchange_lists(draw, call),
        3 => swap_words(draw, call),
        4 if call.operation == Operation::Step => damage_figure(draw, call, prime),
        _ => damage_word(draw, call, prime),
    }
}

fn pick_list(draw: &mut Draw, call: &Call) -> List {
    draw.pick(call.operation.lists())
}

fn other_word(draw: &mut Draw, word: u32, prime: u32) -> u32 {
    let (any, flipped) = (draw.word(), word ^ (1 << draw.below(32)));
    let choices = [0, word.wrapping_add(1), prime - 1, prime, u32::MAX, any, flipped, word.wrapping_add(prime)];
    draw.pick(&choices)
}

fn damage_word(draw: &mut Draw, call: &mut Call, prime: u32) -> Kind {
    let list = pick_list(draw, call);
    let words = call.list_mut(list);
    if !words.is_empty() {
        let index = draw.below(words.len());
        words[index] = other_word(draw, words[index], prime);
    }
    Kind::Word
}

fn swap_words(draw: &mut Draw, call: &mut Call) -> Kind {
    let list = pick_list(draw, call);
    let words = call.list_mut(list);
    if !words.is_empty() {
        let (one, other) = (draw.below(words.len()), draw.below(words.len()));
        words.swap(one, other);
    }
    Kind::Word
}

/// A figure of the record.
fn damage_figure(draw: &mut Draw, call: &mut Call, prime: u32) -> Kind {
    let figure = draw.pick(&[0, 1, 2, 2, 3]);
    call.record[figure] = other_word(draw, call.record[figure], prime);
    Kind::Word
}

fn damage_length(draw: &mut Draw, call: &mut Call) -> Kind {
    let list = pick_list(draw, call);
    let longer = if draw.one_in(50) { 12_000 } else { 1 + draw.below(400) };
    let words = call.list_mut(list);
    let length = words.len();
    let new_length =
        draw.pick(&[0, length.saturating_sub(1), length.saturating_sub(1), length + 1, length + 1, length + longer]);
    let filler = draw.word();
    words.resize(new_length, draw.pick(&[0, 1, filler]));
    Kind::Length
}

fn exchange_lists(draw: &mut Draw, call: &mut Call) -> Kind {
    let lists = call.operation.lists();
    let one = draw.below(lists.len());
    let other = (one + 1 + draw.below(lists.len() - 1)) % lists.len();
    call.swap_lists(lists[one], lists[other]);
    Kind::Misplaced
}

/// A residue with p added, where that fits a word, is no residue, though its remainder is right.
pub fn same_remainder(arena: &mut Arena, instance: &Instance) {
    let operation = arena.draw.pick(&Operation::ON_CIRCUITS[1..]);
    let mut call = instance.call(operation, &mut arena.draw);
    let list = arena.draw.pick(&operation.lists()[1..]);
    let number = match list {
        List::Input => 9,
        List::Outputs => 13,
        List::Coins => 12,
        _ => 15,
    };
    let words = call.list_mut(list);
    let fitting: Vec<usize> = (0..words.len()).filter(|&index| words[index] <= u32::MAX - instance.prime).collect();
    if !fitting.is_empty() {
        words[arena.draw.pick(&fitting)] += instance.prime;
        arena.expect(Kind::Remainder, &call, Answer::Refused(number));
    }
}
