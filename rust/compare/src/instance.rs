//! Valid inputs: a circuit, its input, coins, and the honest transcript.

use crate::arena::Arena;
use crate::call::{Call, List, Operation};
use crate::draw::Draw;
use crate::outcome::{value_count, Answer};
use crate::residues::{extension, value};
use crate::tally::{Feature, Kind};
use kidlothe::{MAX_CIRCUIT_WORDS, MAX_DEPTH, MAX_EXPONENT, MAX_OUTPUT_EXPONENT};
use std::iter;

pub const PRIMES: [u32; 4] = [13, 65_537, 2_147_483_647, 4_294_967_291];

/// How large a drawn circuit is.
#[derive(Clone, Copy, Debug, PartialEq, Eq)]
pub enum Size {
    Tiny,
    Small,
    Deep,
    Wide,
    Any,
    Largest,
}

/// A message's place in the walk and among the message words.
#[derive(Clone, Copy)]
pub struct Place {
    pub layer: u32,
    pub round: u32,
    pub line: bool,
    pub start: usize,
    pub length: usize,
}

pub struct Instance {
    pub prime: u32,
    /// Of all layers, from the outputs to the input.
    pub exponents: Vec<u32>,
    pub circuit: Vec<u32>,
    pub input: Vec<u32>,
    pub coins: Vec<u32>,
    pub outputs: Vec<u32>,
    pub messages: Vec<u32>,
    pub places: Vec<Place>,
}

impl Instance {
    /// Draws the lists and has both sides prove them.
    pub fn draw(arena: &mut Arena, size: Size) -> Self {
        let draw = &mut arena.draw;
        let prime = draw.pick(&PRIMES);
        let exponents = draw_exponents(draw, size);
        let circuit = draw_circuit(draw, prime, &exponents);
        let width = 1 << exponents[exponents.len() - 1];
        let input = (0..width).map(|_| draw.residue(prime)).collect();
        let places = places(&exponents);
        let coins = draw_coins(draw, prime, exponents[0] as usize + places.len());
        let (outputs, messages) = (Vec::new(), Vec::new());
        let mut instance = Instance { prime, exponents, circuit, input, coins, outputs, messages, places };
        instance.prove(arena);
        instance
    }

    fn prove(&mut self, arena: &mut Arena) {
        let call = self.call(Operation::Prove, &mut arena.draw);
        let outcome = arena.compare(Kind::Valid, &call);
        match outcome.answer {
            Answer::Proved(outputs, words) if words == self.message_words() => {
                (self.outputs, self.messages) = (outputs.list().to_vec(), outcome.front(words).to_vec());
            }
            _ => arena.fail("a valid input has no whole proof", Kind::Valid, &call, &outcome),
        }
    }

    /// A valid call, its buffer as long as needed or a little longer.
    pub fn call(&self, operation: Operation, draw: &mut Draw) -> Call {
        if operation == Operation::Step {
            return self.step(draw.below(self.places.len()));
        }
        let mut call = self.claim_call(operation, &self.outputs, &self.messages);
        if operation == Operation::ProveOne {
            call.list_mut(List::Coins).truncate(self.first_coins().len() + draw.below(self.places.len()));
        }
        call.buffer = self.needed(&call);
        if call.buffer > 0 {
            call.buffer += draw.pick(&[0, 1, 2, 9]);
        }
        call
    }

    /// A call with the instance's lists, but for the outputs that are claimed and the messages that argue for them.
    pub fn claim_call(&self, operation: Operation, outputs: &[u32], messages: &[u32]) -> Call {
        Call::new(operation, [&self.circuit, &self.input, outputs, &self.coins, messages])
    }

    /// The step on the honest message at a place, as an honest session would get there.
    pub fn step(&self, place: usize) -> Call {
        let Place { layer, round, .. } = self.places[place];
        let mut call = self.claim_call(Operation::Step, &self.outputs, self.message(place));
        call.record = [layer, round, self.claim(place), 1];
        call
    }

    pub fn depth(&self) -> usize {
        self.exponents.len() - 1
    }

    /// The coins that come before any message.
    pub fn first_coins(&self) -> &[u32] {
        &self.coins[..self.exponents[0] as usize]
    }

    /// The coins of the messages.
    pub fn message_coins(&self) -> &[u32] {
        &self.coins[self.exponents[0] as usize..]
    }

    pub fn message(&self, place: usize) -> &[u32] {
        let Place { start, length, .. } = self.places[place];
        &self.messages[start..start + length]
    }

    /// The honest claim before the message at a place.
    pub fn claim(&self, place: usize) -> u32 {
        match place.checked_sub(1) {
            None => self.first_claim(&self.outputs),
            Some(before) => value(self.prime, self.message(before), self.message_coins()[before]),
        }
    }

    /// The claim before any message, where these outputs are claimed.
    pub fn first_claim(&self, outputs: &[u32]) -> u32 {
        extension(self.prime, outputs, self.first_coins())
    }

    /// The buffer words that a call on these lists writes.
    pub fn needed(&self, call: &Call) -> usize {
        match call.operation {
            Operation::Evaluate => value_count(&self.circuit),
            Operation::Prove => self.message_words(),
            Operation::ProveOne => self.next_message(call.coins()).len(),
            _ => 0,
        }
    }

    /// The honest message that follows a prefix of the coins.
    pub fn next_message(&self, prefix: &[u32]) -> &[u32] {
        self.message(prefix.len() - self.first_coins().len())
    }

    pub fn message_words(&self) -> usize {
        self.places.iter().map(|place| place.length).sum()
    }

    /// The gates of all layers, the outputs' first.
    pub fn gates(&self) -> &[[u32; 3]] {
        self.circuit[self.gate_start(0)..].as_chunks().0
    }

    /// Where a gate's words begin in the circuit list.
    pub fn gate_start(&self, gate: usize) -> usize {
        2 + self.exponents.len() + 3 * gate
    }

    /// The width of the layer that the gate's wires lead to.
    pub fn next_width(&self, gate: usize) -> usize {
        let mut passed = 0;
        for layers in self.exponents.windows(2) {
            passed += 1 << layers[0];
            if gate < passed {
                return 1 << layers[1];
            }
        }
        unreachable!("the gate is not in the circuit")
    }

    /// What an accepted transcript of this instance has met.
    pub fn features(&self) -> Vec<Feature> {
        let mut features = vec![
            Feature::Depth(self.prime, self.depth() as u32),
            Feature::OutputExponent(self.prime, self.exponents[0]),
        ];
        features.extend(self.gates().iter().map(|&[kind, left, right]| Feature::Accepted(kind, left.cmp(&right))));
        features.extend(self.exponents[1..].iter().map(|&k| Feature::Exponent(self.prime, k)));
        if self.circuit.len() == MAX_CIRCUIT_WORDS {
            features.push(Feature::LargestCircuit(self.prime));
        }
        features
    }
}

fn draw_exponents(draw: &mut Draw, size: Size) -> Vec<u32> {
    let (depth, most) = match size {
        Size::Tiny => (1 + draw.below(3), 2),
        Size::Small => (1 + draw.below(4), 3),
        Size::Deep => (1 + draw.below(MAX_DEPTH), 1),
        Size::Wide => (1 + draw.below(2), MAX_EXPONENT),
        Size::Any => (1 + draw.below(MAX_DEPTH), MAX_EXPONENT),
        Size::Largest => return [&[MAX_OUTPUT_EXPONENT as u32][..], &[MAX_EXPONENT as u32; MAX_DEPTH]].concat(),
    };
    // A single output more often than not.
    let output_exponent = if draw.one_in(2) { 0 } else { draw.below(MAX_OUTPUT_EXPONENT + 1) };
    let others = (0..depth).map(|_| draw.below(most + 1));
    iter::once(output_exponent).chain(others).map(|k| k as u32).collect()
}

fn draw_circuit(draw: &mut Draw, prime: u32, exponents: &[u32]) -> Vec<u32> {
    let mut words = vec![prime, exponents.len() as u32 - 1];
    words.extend(exponents);
    for layers in exponents.windows(2) {
        for _ in 0..1 << layers[0] {
            words.extend(draw_gate(draw, 1 << layers[1]));
        }
    }
    words
}

/// A gate above a layer of so many. Where it subtracts, its wires are drawn without order.
fn draw_gate(draw: &mut Draw, next: usize) -> [u32; 3] {
    let right = draw.below(next);
    let left = if draw.one_in(6) { right } else { draw.below(right + 1) };
    let (left, right) = (left as u32, right as u32);
    match draw.pick(&[0, 1, 1, 2, 2, 2, 3, 3]) {
        0 => [0; 3],
        3 if draw.one_in(2) => [3, right, left],
        kind => [kind, left, right],
    }
}

fn draw_coins(draw: &mut Draw, prime: u32, count: usize) -> Vec<u32> {
    let special = draw.one_in(8);
    (0..count).map(|_| if special { draw.special(prime) } else { draw.residue(prime) }).collect()
}

fn places(exponents: &[u32]) -> Vec<Place> {
    let mut places = Vec::new();
    let mut start = 0;
    for (layer, &k) in (1..).zip(&exponents[1..]) {
        for round in 0..=2 * k {
            let line = round == 2 * k;
            let length = if line { k as usize + 1 } else { 3 };
            places.push(Place { layer, round, line, start, length });
            start += length;
        }
    }
    places
}
