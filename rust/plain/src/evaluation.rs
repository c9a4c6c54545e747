//! The values of all layers.

use crate::circuit::{Circuit, MOST_VALUES};
use crate::gate;
use crate::refusal::{self, require};

/// Answers the outputs; the buffer then begins with the values of layers 0 to D.
pub fn evaluate(circuit: &[u32], input: &[u32], buffer: &mut [u32]) -> Result<Vec<u32>, u32> {
    let circuit = Circuit::with_input(circuit, input)?;
    let words = circuit.values();
    require(buffer.len() >= words, refusal::BUFFER)?;
    let mut values = [0; MOST_VALUES];
    fill(&circuit, input, &mut values);
    buffer[..words].copy_from_slice(&values[..words]);
    Ok(circuit.layer_values(&values, 0).to_vec())
}

/// Fills in the values of all layers, from the input up; the outputs come first.
pub(crate) fn fill(circuit: &Circuit, input: &[u32], values: &mut [u32; MOST_VALUES]) {
    let field = circuit.field;
    values[circuit.start(circuit.depth())..circuit.values()].copy_from_slice(input);
    for layer in (0..circuit.depth()).rev() {
        let (above, below) = values.split_at_mut(circuit.start(layer + 1));
        let row = &mut above[circuit.start(layer)..];
        for (value, &[kind, left, right]) in row.iter_mut().zip(circuit.gates(layer)) {
            *value = gate::value(field, kind, below[left as usize], below[right as usize]);
        }
    }
}
