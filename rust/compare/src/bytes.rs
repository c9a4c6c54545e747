//! Bytes of arrays: whole ones, cut ones, wrong counts, and bytes left over.

use crate::arena::Arena;
use crate::call::{Call, Operation};
use crate::draw::Draw;
use crate::instance::Instance;
use crate::outcome::Answer;
use crate::tally::Kind;

const MOST_WORDS: u32 = kidlothe::MAX_CIRCUIT_WORDS as u32;
const REFUSED: Answer = Answer::Refused(20);

/// Arrays in bytes, with where each count stands.
struct Arrays {
    bytes: Vec<u8>,
    counts: Vec<usize>,
    words: Vec<u32>,
}

impl Arrays {
    fn encode(lists: &[&[u32]]) -> Self {
        let mut arrays = Arrays { bytes: Vec::new(), counts: Vec::new(), words: Vec::new() };
        for list in lists {
            arrays.counts.push(arrays.bytes.len());
            arrays.bytes.extend((list.len() as u32).to_be_bytes());
            arrays.bytes.extend(list.iter().flat_map(|word| word.to_be_bytes()));
            arrays.words.extend(*list);
        }
        arrays
    }

    /// A valid call, but for a buffer that may be too short.
    fn call(&self, buffer: usize) -> Call {
        Call::read(self.bytes.clone(), self.counts.len() as u32, buffer)
    }

    /// A valid call with a buffer that is longer than needed.
    fn valid_call(&self) -> Call {
        self.call(self.words.len() + 2)
    }

    fn answer(&self) -> Answer {
        let mut answer = [0; 4];
        for (count, &at) in answer.iter_mut().zip(&self.counts) {
            let (bytes, _) = self.bytes[at..].split_first_chunk().expect("a count");
            *count = u32::from_be_bytes(*bytes);
        }
        Answer::Counts(answer)
    }

    /// The call with one count changed.
    fn with_count(&self, draw: &mut Draw, change: impl FnOnce(u32) -> u32) -> Call {
        let at = draw.pick(&self.counts);
        let mut call = self.valid_call();
        let (count, _) = call.bytes[at..].split_first_chunk_mut().expect("a count");
        *count = change(u32::from_be_bytes(*count)).to_be_bytes();
        call
    }
}

fn draw_arrays(draw: &mut Draw, instance: &Instance) -> Arrays {
    let number = 1 + draw.below(4);
    let drawn: Vec<Vec<u32>> = (0..number)
        .map(|_| {
            let count = draw.pick(&[0, 1, 2, 3, 5]);
            draw.words(count)
        })
        .collect();
    let lists = [&instance.circuit, &instance.input, &instance.coins, &instance.messages].map(Vec::as_slice);
    if draw.one_in(3) {
        Arrays::encode(&lists[..number])
    } else {
        Arrays::encode(&drawn.iter().map(Vec::as_slice).collect::<Vec<_>>())
    }
}

/// Valid bytes, and the same with every fault.
pub fn all(arena: &mut Arena, instance: &Instance) {
    let arrays = draw_arrays(&mut arena.draw, instance);
    let extra = arena.draw.pick(&[0, 1, 7]);
    whole(arena, Kind::Valid, &arrays, extra);
    buffers(arena, &arrays);
    numbers(arena, &arrays);
    wrong_count(arena, &arrays);
    left_over(arena, &arrays);
    cuts(arena, &arrays);
    random_byte(arena, &arrays);
}

/// Valid bytes and a buffer with so many words to spare.
fn whole(arena: &mut Arena, kind: Kind, arrays: &Arrays, extra: usize) {
    let call = arrays.call(arrays.words.len() + extra);
    let outcome = arena.expect(kind, &call, arrays.answer());
    if outcome.front(arrays.words.len()) != arrays.words {
        arena.fail("these are not the words of the arrays", kind, &call, &outcome);
    }
}

fn buffers(arena: &mut Arena, arrays: &Arrays) {
    let words = arrays.words.len();
    whole(arena, Kind::Buffer, arrays, 0);
    if words > 0 {
        for length in [0, words - 1, arena.draw.below(words)] {
            arena.expect(Kind::Buffer, &arrays.call(length), Answer::Refused(10));
        }
    }
}

/// The right number is among these; no other one earns an answer.
fn numbers(arena: &mut Arena, arrays: &Arrays) {
    let huge = arena.draw.at_least(5);
    let number = arena.draw.pick(&[0, 1, 2, 3, 4, 5, huge]);
    let mut call = arrays.valid_call();
    if number != call.number {
        call.number = number;
        refuse(arena, call, arrays.words.len());
    }
}

fn wrong_count(arena: &mut Arena, arrays: &Arrays) {
    if arena.draw.one_in(4) {
        // The array then takes a word of the next one, which may go well.
        let call = arrays.with_count(&mut arena.draw, |count| count + 1);
        arena.compare(Kind::Bytes, &call);
        return;
    }
    let (above, choice) = (arena.draw.at_least(MOST_WORDS + 1), arena.draw.below(3));
    let call = arrays.with_count(&mut arena.draw, |count| match choice {
        0 => above,
        1 => MOST_WORDS + 1,
        // Four times this one wraps around to the right number of bytes.
        _ => count | 1 << 30,
    });
    refuse(arena, call, arrays.words.len());
}

fn left_over(arena: &mut Arena, arrays: &Arrays) {
    let mut call = arrays.valid_call();
    let more = arena.draw.pick(&[1, 2, 3, 4, 8, 100]);
    call.bytes.resize(call.bytes.len() + more, arena.draw.word() as u8);
    refuse(arena, call, arrays.words.len());
}

/// Cut at every byte where there are few, else at some.
fn cuts(arena: &mut Arena, arrays: &Arrays) {
    let length = arrays.bytes.len();
    let every = length <= 40 && arena.draw.one_in(3);
    let ends: Vec<usize> = if every { (0..length).collect() } else { vec![arena.draw.below(length), length - 1] };
    for end in ends {
        let mut call = arrays.valid_call();
        call.bytes.truncate(end);
        arena.expect(Kind::Bytes, &call, REFUSED);
    }
    let mut call = arrays.valid_call();
    call.bytes.truncate(arena.draw.below(length));
    refuse(arena, call, arrays.words.len());
}

fn random_byte(arena: &mut Arena, arrays: &Arrays) {
    let mut call = arrays.valid_call();
    let at = arena.draw.below(call.bytes.len());
    call.bytes[at] = arena.draw.word() as u8;
    arena.compare(Kind::Bytes, &call);
}

/// A call that earns 20, and the same with a buffer that alone would earn 10.
fn refuse(arena: &mut Arena, mut call: Call, words: usize) {
    arena.expect(Kind::Refusal, &call, REFUSED);
    if words > 0 {
        call.buffer = words - 1;
        arena.expect(Kind::Pair, &call, REFUSED);
        arena.tally.count_pair(Operation::Read, 20, 10);
    }
}

/// The largest count that is legal, and the first that is not.
pub fn largest(arena: &mut Arena) {
    let words = arena.draw.words(MOST_WORDS as usize + 1);
    whole(arena, Kind::Valid, &Arrays::encode(&[&words[1..]]), 0);
    arena.expect(Kind::Bytes, &Arrays::encode(&[&words]).valid_call(), REFUSED);
}
