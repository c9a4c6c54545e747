//! What a call answers and leaves behind, on either side.

use crate::call::{Call, Operation};
use crate::residues::extension;
use crate::row::Row;

#[derive(Clone, Copy, Debug, PartialEq, Eq)]
pub enum Answer {
    Legal,
    Outputs(Row),
    Proved(Row, usize),
    Message(usize),
    Accepted,
    Opened(Row),
    GoOn(u32),
    Counts([u32; 4]),
    Refused(u32),
}

#[derive(Debug, PartialEq, Eq)]
pub struct Outcome {
    pub answer: Answer,
    /// The lent buffer after the call, with the guard words before and behind it.
    guarded: Vec<u32>,
    /// The record after the call.
    pub record: [u32; 4],
}

/// How many words of memory around a lent buffer are watched.
const GUARD: usize = 8;

impl Outcome {
    /// The front of the lent buffer.
    pub fn front(&self, words: usize) -> &[u32] {
        &self.guarded[GUARD..GUARD + words]
    }

    /// Whether all words but those that the answer speaks of are as they were lent.
    pub fn rest_is_untouched(&self, call: &Call) -> bool {
        let written = match self.answer {
            Answer::Outputs(_) => value_count(call.circuit()),
            Answer::Proved(_, words) | Answer::Message(words) => words,
            Answer::Counts(counts) => counts.iter().map(|&count| count as usize).sum(),
            _ => 0,
        };
        let untouched = |index: usize| self.guarded[index] == sentinel(index);
        (0..GUARD).all(untouched) && (GUARD + written..self.guarded.len()).all(untouched)
    }

    /// Whether the outputs are as many as the circuit says, and the first of all values, or the coins of an opening
    /// those that come before any message.
    pub fn row_fits(&self, call: &Call) -> bool {
        match self.answer {
            Answer::Outputs(outputs) => outputs.list() == self.front(1 << output_exponent(call.circuit())),
            Answer::Proved(outputs, _) => outputs.list().len() == 1 << output_exponent(call.circuit()),
            Answer::Opened(coins) => *coins.list() == call.coins()[..output_exponent(call.circuit())],
            _ => true,
        }
    }

    /// Whether the record is the one that goes with the answer. Where a step goes on, its claim is left to the comparison.
    pub fn record_fits(&self, call: &Call) -> bool {
        let [layer, round, claim, _] = call.record;
        let expected = match (call.operation, self.answer) {
            (Operation::Open, Answer::Opened(coins)) => {
                [1, 0, extension(call.circuit()[0], call.outputs(), coins.list()), 1]
            }
            (Operation::Step, Answer::Accepted | Answer::Refused(14..=18)) => [layer, round, claim, 0],
            (Operation::Step, Answer::GoOn(_)) => {
                let k = call.circuit()[2 + layer as usize];
                let (layer, round) = if round == 2 * k { (layer + 1, 0) } else { (layer, round + 1) };
                [layer, round, self.record[2], 1]
            }
            _ => call.record,
        };
        self.record == expected
    }
}

/// The number of gate and input words of a legal circuit.
pub fn value_count(circuit: &[u32]) -> usize {
    circuit[2..3 + circuit[1] as usize].iter().map(|&k| 1 << k).sum()
}

/// The exponent of a legal circuit's outputs, which is the number of coins before any message.
fn output_exponent(circuit: &[u32]) -> usize {
    circuit[2] as usize
}

/// What a word of a buffer or of its guard holds before the call.
fn sentinel(index: usize) -> u32 {
    0xa5c3_96e1 ^ (index as u32).wrapping_mul(0x9e37_79b1)
}

fn guarded(call: &Call) -> Vec<u32> {
    (0..call.buffer + 2 * GUARD).map(sentinel).collect()
}

fn refused<T>(result: Result<T, u32>, answer: impl FnOnce(T) -> Answer) -> Answer {
    result.map_or_else(Answer::Refused, answer)
}

/// The call on the plain implementation.
pub fn of_plain(call: &Call) -> Outcome {
    let (circuit, input, coins, messages) = (call.circuit(), call.input(), call.coins(), call.messages());
    let mut guarded = guarded(call);
    let buffer = &mut guarded[GUARD..GUARD + call.buffer];
    let mut record = call.record;
    let answer = match call.operation {
        Operation::Load => refused(plain::load(circuit), |()| Answer::Legal),
        Operation::Evaluate => {
            refused(plain::evaluate(circuit, input, buffer), |outputs| Answer::Outputs(Row::of(&outputs)))
        }
        Operation::Prove => refused(plain::prove(circuit, input, coins, buffer), |(outputs, words)| {
            Answer::Proved(Row::of(&outputs), words)
        }),
        Operation::ProveOne => refused(plain::prove_one(circuit, input, coins, buffer), Answer::Message),
        Operation::Check => {
            refused(plain::check(circuit, input, call.outputs(), coins, messages), |()| Answer::Accepted)
        }
        Operation::Open => refused(plain::open(circuit, input, call.outputs(), coins), |(first, session)| {
            record = plain_words(&session, 1);
            Answer::Opened(Row::of(&first))
        }),
        Operation::Step => plain_step(call, &mut record),
        Operation::Read => refused(plain::read(&call.bytes, call.number, buffer), Answer::Counts),
    };
    Outcome { answer, guarded, record }
}

fn plain_step(call: &Call, record: &mut [u32; 4]) -> Answer {
    let [layer, round, claim, open] = *record;
    let mut session = plain::Session { layer, round, claim, open: open == 1 };
    let result = plain::step(call.circuit(), call.input(), call.coins(), &mut session, call.messages());
    // A record that was ended before keeps the word that said so.
    let ended = if open == 1 { 0 } else { open };
    *record = plain_words(&session, if session.open { 1 } else { ended });
    refused(result, |progress| match progress {
        plain::Progress::Accepted => Answer::Accepted,
        plain::Progress::GoOn(coin) => Answer::GoOn(coin),
    })
}

fn plain_words(session: &plain::Session, open: u32) -> [u32; 4] {
    [session.layer, session.round, session.claim, open]
}

/// The call on the proved library.
pub fn of_proved(call: &Call) -> Outcome {
    let (circuit, input, coins, messages) = (call.circuit(), call.input(), call.coins(), call.messages());
    let mut guarded = guarded(call);
    let buffer = &mut guarded[GUARD..GUARD + call.buffer];
    let mut record = call.record;
    let answer = match call.operation {
        Operation::Load => numbered(kidlothe::load(circuit), |()| Answer::Legal),
        Operation::Evaluate => {
            numbered(kidlothe::evaluate(circuit, input, buffer), |outputs| Answer::Outputs(outputs.into()))
        }
        Operation::Prove => numbered(kidlothe::prove(circuit, input, coins, buffer), |proof| {
            Answer::Proved(proof.outputs.into(), proof.words)
        }),
        Operation::ProveOne => numbered(kidlothe::prove_one(circuit, input, coins, buffer), Answer::Message),
        Operation::Check => {
            numbered(kidlothe::check(circuit, input, call.outputs(), coins, messages), |()| Answer::Accepted)
        }
        Operation::Open => numbered(kidlothe::Session::open(circuit, input, call.outputs(), coins), |opening| {
            record = opening.session.words();
            Answer::Opened(opening.coins.into())
        }),
        Operation::Step => proved_step(call, &mut record),
        Operation::Read => numbered(kidlothe::read(&call.bytes, call.number, buffer), Answer::Counts),
    };
    Outcome { answer, guarded, record }
}

fn proved_step(call: &Call, record: &mut [u32; 4]) -> Answer {
    let mut session = kidlothe::Session::from_words(*record);
    let result = session.step(call.circuit(), call.input(), call.coins(), call.messages());
    *record = session.words();
    numbered(result, |progress| match progress {
        kidlothe::Progress::Accepted => Answer::Accepted,
        kidlothe::Progress::GoOn(coin) => Answer::GoOn(coin),
    })
}

fn numbered<T>(result: Result<T, kidlothe::Refusal>, answer: impl FnOnce(T) -> Answer) -> Answer {
    refused(result.map_err(|refusal| refusal.number()), answer)
}
