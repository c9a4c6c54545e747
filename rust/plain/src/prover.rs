//! The honest prover. Each message is made from the values and the coins before it alone.

use crate::circuit::{Circuit, Place, MOST_VALUES};
use crate::evaluation::fill;
use crate::extension::{along_line, ends, extension, fold, point_on, weights, Table};
use crate::field::Field;
use crate::gate::{self, EMPTY};
use crate::refusal::{self, require};

/// Writes all messages and answers the outputs and the words written.
pub fn prove(circuit: &[u32], input: &[u32], coins: &[u32], messages: &mut [u32]) -> Result<(Vec<u32>, usize), u32> {
    let circuit = Circuit::with_input(circuit, input)?;
    circuit.check_coins(coins)?;
    let words = circuit.message_words();
    require(messages.len() >= words, refusal::BUFFER)?;
    let mut values = [0; MOST_VALUES];
    fill(&circuit, input, &mut values);
    let mut coins_before = circuit.first_coin(1);
    let mut rest = &mut messages[..words];
    while let Some(place) = circuit.place(coins_before) {
        let (message, later) = rest.split_at_mut(circuit.message_length(place));
        write_message(&circuit, &values, &coins[..coins_before], place, message);
        rest = later;
        coins_before += 1;
    }
    Ok((circuit.layer_values(&values, 0).to_vec(), words))
}

/// Writes the message that follows the coin prefix and answers its word count.
pub fn prove_one(circuit: &[u32], input: &[u32], prefix: &[u32], buffer: &mut [u32]) -> Result<usize, u32> {
    let circuit = Circuit::with_input(circuit, input)?;
    let place = circuit.place(prefix.len()).ok_or(refusal::COIN_COUNT)?;
    require(circuit.field.holds_all(prefix), refusal::COIN_WORD)?;
    let words = circuit.message_length(place);
    require(buffer.len() >= words, refusal::BUFFER)?;
    let mut values = [0; MOST_VALUES];
    fill(&circuit, input, &mut values);
    write_message(&circuit, &values, prefix, place, &mut buffer[..words]);
    Ok(words)
}

/// Writes the message at the place, which is the one that follows the prefix.
fn write_message(circuit: &Circuit, values: &[u32], prefix: &[u32], place: Place, message: &mut [u32]) {
    let k = circuit.exponent(place.layer);
    if circuit.is_line(place) {
        let (u, v) = ends(circuit, prefix, place.layer);
        along_line(circuit.field, circuit.layer_values(values, place.layer), u, v, message);
    } else if place.round < k {
        message.copy_from_slice(&left_round(circuit, values, prefix, place));
    } else {
        message.copy_from_slice(&right_round(circuit, values, prefix, place));
    }
}

/// A round over a coordinate of u. A gate counts only where v is its right wire and the open rest of u is its left wire's.
fn left_round(circuit: &Circuit, values: &[u32], prefix: &[u32], place: Place) -> [u32; 3] {
    let field = circuit.field;
    let list = circuit.layer_values(values, place.layer);
    let fixed = &prefix[circuit.first_coin(place.layer)..];
    let open = circuit.exponent(place.layer) - fixed.len();
    let standing = weights(field, point_on(circuit, prefix, place.layer - 1).coordinates());
    let left_weights = weights(field, fixed);
    let mut sum = RoundSum::new(field, fold(field, list, fixed), open);
    for (&standing, &[kind, left, right]) in standing.iter().zip(circuit.gates(place.layer - 1)) {
        let left = left as usize;
        if kind != EMPTY {
            let weight = field.mul(standing, left_weights[left >> open]);
            let at_v = list[right as usize];
            sum.add(weight, left, |at_u| gate::value(field, kind, at_u, at_v));
        }
    }
    sum.coefficients()
}

/// A round over a coordinate of v, all of u being fixed.
fn right_round(circuit: &Circuit, values: &[u32], prefix: &[u32], place: Place) -> [u32; 3] {
    let field = circuit.field;
    let k = circuit.exponent(place.layer);
    let list = circuit.layer_values(values, place.layer);
    let (u, fixed) = prefix[circuit.first_coin(place.layer)..].split_at(k);
    let open = k - fixed.len();
    let standing = weights(field, point_on(circuit, prefix, place.layer - 1).coordinates());
    let left_weights = weights(field, u);
    let right_weights = weights(field, fixed);
    let at_u = extension(field, list, u);
    let mut sum = RoundSum::new(field, fold(field, list, fixed), open);
    for (&standing, &[kind, left, right]) in standing.iter().zip(circuit.gates(place.layer - 1)) {
        let right = right as usize;
        if kind != EMPTY {
            let wires = field.mul(left_weights[left as usize], right_weights[right >> open]);
            sum.add(field.mul(standing, wires), right, |at_v| gate::value(field, kind, at_u, at_v));
        }
    }
    sum.coefficients()
}

/// The running sum of a round's quadratics. A gate adds (1 - x) × line or x × line, by its wire's bit in the round.
struct RoundSum {
    field: Field,
    /// The layer's values with the coordinates before this round's fixed.
    folded: Table,
    half: usize,
    /// The values at 0 and at 1 of the sum of the lines, for bit 0 and for bit 1.
    lines: [[u32; 2]; 2],
}

impl RoundSum {
    /// `open` coordinates are not fixed yet, this round's among them.
    fn new(field: Field, folded: Table, open: usize) -> Self {
        RoundSum { field, folded, half: 1 << (open - 1), lines: [[0; 2]; 2] }
    }

    /// Adds a gate; `value` is the gate's, as a function of the value at the end that this round is about.
    fn add(&mut self, weight: u32, wire: usize, value: impl Fn(u32) -> u32) {
        let field = self.field;
        let index = wire & (self.half - 1);
        let [at_zero, at_one] = &mut self.lines[usize::from(wire & self.half != 0)];
        // The gate's value is a line too, so its values at 0 and at 1 determine it.
        *at_zero = field.add(*at_zero, field.mul(weight, value(self.folded[index])));
        *at_one = field.add(*at_one, field.mul(weight, value(self.folded[index + self.half])));
    }

    fn coefficients(&self) -> [u32; 3] {
        let field = self.field;
        let [line, line_of_x] = self.lines;
        let slopes = [line, line_of_x].map(|[at_zero, at_one]| field.sub(at_one, at_zero));
        let linear = field.add(field.sub(slopes[0], line[0]), line_of_x[0]);
        [line[0], linear, field.sub(slopes[1], slopes[0])]
    }
}
