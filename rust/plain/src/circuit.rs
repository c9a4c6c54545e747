//! The circuit list: its legality, its layers and the places of the walk.

use crate::field::Field;
use crate::gate::{self, Gate};
use crate::refusal::{self, require};

const MOST_LAYERS: usize = 12;
const MOST_EXPONENT: u32 = 8;
const MOST_OUTPUT_EXPONENT: u32 = 4;

/// The gates of the widest layer.
pub(crate) const MOST_WIDTH: usize = 1 << MOST_EXPONENT;

/// All gate and input words of the largest circuit.
pub(crate) const MOST_VALUES: usize = (1 << MOST_OUTPUT_EXPONENT) + MOST_LAYERS * MOST_WIDTH;

/// The words of the largest circuit's list: prime, depth, an exponent for each layer, and three for each gate.
pub(crate) const MOST_LIST_WORDS: usize = 2 + (MOST_LAYERS + 1) + 3 * (MOST_VALUES - MOST_WIDTH);

/// A legal circuit, over the words of its list.
pub(crate) struct Circuit<'a> {
    pub(crate) field: Field,
    /// Of all layers, from the outputs to the input.
    exponents: &'a [u32],
    gates: &'a [Gate],
    /// Where each layer's values begin; the entry after the input is the number of all values.
    starts: [usize; MOST_LAYERS + 2],
}

/// Where a message stands in the walk.
#[derive(Clone, Copy)]
pub(crate) struct Place {
    pub(crate) layer: usize,
    pub(crate) round: usize,
}

/// Answers whether the list is a legal circuit.
pub fn load(circuit: &[u32]) -> Result<(), u32> {
    Circuit::parse(circuit).map(|_| ())
}

impl<'a> Circuit<'a> {
    pub(crate) fn parse(words: &'a [u32]) -> Result<Self, u32> {
        let [prime, depth, output_exponent, ..] = *words else {
            return Err(refusal::NO_HEAD);
        };
        let field = Field::listed(prime).ok_or(refusal::PRIME)?;
        let depth = depth as usize;
        require((1..=MOST_LAYERS).contains(&depth), refusal::DEPTH)?;
        require(output_exponent <= MOST_OUTPUT_EXPONENT, refusal::EXPONENT)?;
        let (exponents, rest) = words[2..].split_at_checked(depth + 1).ok_or(refusal::EXPONENT)?;
        require(exponents.iter().all(|&k| k <= MOST_EXPONENT), refusal::EXPONENT)?;
        let starts = layer_starts(exponents);
        require(rest.len() == 3 * starts[depth], refusal::CIRCUIT_LENGTH)?;
        let (gates, _) = rest.as_chunks();
        let circuit = Circuit { field, exponents, gates, starts };
        (0..depth).try_for_each(|layer| circuit.check_gates(layer))?;
        Ok(circuit)
    }

    fn check_gates(&self, layer: usize) -> Result<(), u32> {
        let width = self.width(layer + 1) as u32;
        self.gates(layer).iter().try_for_each(|&gate| gate::check(gate, width))
    }

    /// A legal circuit with a legal input for it.
    pub(crate) fn with_input(words: &'a [u32], input: &[u32]) -> Result<Self, u32> {
        let circuit = Circuit::parse(words)?;
        require(input.len() == circuit.width(circuit.depth()), refusal::INPUT_LENGTH)?;
        require(circuit.field.holds_all(input), refusal::INPUT_WORD)?;
        Ok(circuit)
    }

    /// The output list: one residue for each gate of layer 0.
    pub(crate) fn check_outputs(&self, outputs: &[u32]) -> Result<(), u32> {
        require(outputs.len() == self.width(0), refusal::OUTPUT_COUNT)?;
        require(self.field.holds_all(outputs), refusal::OUTPUT_WORD)
    }

    /// The whole coin list: one residue for each coordinate of the first point, then one for each message.
    pub(crate) fn check_coins(&self, coins: &[u32]) -> Result<(), u32> {
        require(coins.len() == self.coins(), refusal::COIN_COUNT)?;
        require(self.field.holds_all(coins), refusal::COIN_WORD)
    }

    pub(crate) fn depth(&self) -> usize {
        self.exponents.len() - 1
    }

    pub(crate) fn exponent(&self, layer: usize) -> usize {
        self.exponents[layer] as usize
    }

    fn width(&self, layer: usize) -> usize {
        1 << self.exponent(layer)
    }

    pub(crate) fn gates(&self, layer: usize) -> &'a [Gate] {
        &self.gates[self.starts[layer]..self.starts[layer + 1]]
    }

    /// Where the layer's values begin among all values.
    pub(crate) fn start(&self, layer: usize) -> usize {
        self.starts[layer]
    }

    /// The number of all gate and input words.
    pub(crate) fn values(&self) -> usize {
        self.starts[self.depth() + 1]
    }

    /// The layer's own values among all values.
    pub(crate) fn layer_values<'b>(&self, values: &'b [u32], layer: usize) -> &'b [u32] {
        &values[self.starts[layer]..self.starts[layer + 1]]
    }

    /// The number of coins.
    fn coins(&self) -> usize {
        self.first_coin(self.depth() + 1)
    }

    /// The words of all messages.
    pub(crate) fn message_words(&self) -> usize {
        self.exponents[1..].iter().map(|&k| 7 * k as usize + 1).sum()
    }

    /// The number of coins before those of the layer's messages: the first point's, then one for each message above.
    pub(crate) fn first_coin(&self, layer: usize) -> usize {
        let messages: usize = self.exponents[1..layer].iter().map(|&k| 2 * k as usize + 1).sum();
        self.exponent(0) + messages
    }

    /// The place of the message that follows so many coins, if there is one.
    pub(crate) fn place(&self, coins: usize) -> Option<Place> {
        let mut round = coins.checked_sub(self.first_coin(1))?;
        for layer in 1..=self.depth() {
            let rounds = 2 * self.exponent(layer) + 1;
            if round < rounds {
                return Some(Place { layer, round });
            }
            round -= rounds;
        }
        None
    }

    pub(crate) fn is_line(&self, place: Place) -> bool {
        place.round == 2 * self.exponent(place.layer)
    }

    /// The words of the message at the place.
    pub(crate) fn message_length(&self, place: Place) -> usize {
        if self.is_line(place) {
            self.exponent(place.layer) + 1
        } else {
            3
        }
    }
}

fn layer_starts(exponents: &[u32]) -> [usize; MOST_LAYERS + 2] {
    let mut starts = [0; MOST_LAYERS + 2];
    for (layer, &k) in exponents.iter().enumerate() {
        starts[layer + 1] = starts[layer] + (1 << k);
    }
    starts
}
