//! The verifier: the whole check, and the session that is stepped through message by message.

use crate::circuit::{Circuit, Place};
use crate::extension::{ends, extension, first_point, point_on, weight};
use crate::field::Field;
use crate::gate::{self, Gate, EMPTY, OPERATIONS};
use crate::refusal::{self, require};

/// The record of a session.
#[derive(Clone, Copy, Debug, PartialEq, Eq)]
pub struct Session {
    pub layer: u32,
    pub round: u32,
    pub claim: u32,
    pub open: bool,
}

/// What a step answers when it doesn't refuse.
#[derive(Clone, Copy, Debug, PartialEq, Eq)]
pub enum Progress {
    /// The walk has ended and every comparison held.
    Accepted,
    /// The message was right; this is its coin.
    GoOn(u32),
}

/// Checks a whole transcript.
pub fn check(circuit: &[u32], input: &[u32], outputs: &[u32], coins: &[u32], messages: &[u32]) -> Result<(), u32> {
    let circuit = begin(circuit, input, outputs, coins)?;
    require(messages.len() == circuit.message_words(), refusal::MESSAGE_LENGTH)?;
    let mut claim = first_claim(&circuit, outputs, coins);
    let mut rest = messages;
    for layer in 1..=circuit.depth() {
        for round in 0..=2 * circuit.exponent(layer) {
            let place = Place { layer, round };
            let (message, later) = rest.split_at(circuit.message_length(place));
            claim = compare(&circuit, coins, place, claim, message)?;
            rest = later;
        }
    }
    compare_input(&circuit, input, coins, claim)
}

/// Opens a session: the coins of the first point, and the record.
pub fn open(circuit: &[u32], input: &[u32], outputs: &[u32], coins: &[u32]) -> Result<(Vec<u32>, Session), u32> {
    let circuit = begin(circuit, input, outputs, coins)?;
    let claim = first_claim(&circuit, outputs, coins);
    Ok((first_point(&circuit, coins).to_vec(), Session { layer: 1, round: 0, claim, open: true }))
}

/// Takes the next message of a session.
pub fn step(
    circuit: &[u32],
    input: &[u32],
    coins: &[u32],
    session: &mut Session,
    message: &[u32],
) -> Result<Progress, u32> {
    let circuit = Circuit::with_input(circuit, input)?;
    circuit.check_coins(coins)?;
    let place = session.place(&circuit).ok_or(refusal::RECORD)?;
    let answer = judge(&circuit, input, coins, place, session.claim, message);
    session.advance(&circuit, place, answer);
    Ok(match answer? {
        Some(_) => Progress::GoOn(coins[circuit.first_coin(place.layer) + place.round]),
        None => Progress::Accepted,
    })
}

impl Session {
    /// The place of the next message, if the record is open and fits the circuit.
    fn place(&self, circuit: &Circuit) -> Option<Place> {
        let place = Place { layer: self.layer as usize, round: self.round as usize };
        let fits = self.open
            && (1..=circuit.depth()).contains(&place.layer)
            && place.round <= 2 * circuit.exponent(place.layer)
            && circuit.field.holds(self.claim);
        fits.then_some(place)
    }

    /// Sets the next place and claim, or ends the record.
    fn advance(&mut self, circuit: &Circuit, place: Place, answer: Result<Option<u32>, u32>) {
        match answer {
            Ok(Some(claim)) if circuit.is_line(place) => {
                *self = Session { layer: self.layer + 1, round: 0, claim, open: true };
            }
            Ok(Some(claim)) => {
                *self = Session { round: self.round + 1, claim, ..*self };
            }
            Ok(None) | Err(_) => self.open = false,
        }
    }
}

/// The refusals before the first message that the whole check and an opening share.
fn begin<'a>(circuit: &'a [u32], input: &[u32], outputs: &[u32], coins: &[u32]) -> Result<Circuit<'a>, u32> {
    let circuit = Circuit::with_input(circuit, input)?;
    circuit.check_outputs(outputs)?;
    circuit.check_coins(coins)?;
    Ok(circuit)
}

/// The claim that the walk starts from: one number for the whole output list.
fn first_claim(circuit: &Circuit, outputs: &[u32], coins: &[u32]) -> u32 {
    extension(circuit.field, outputs, first_point(circuit, coins))
}

/// One message of a session: the new claim, or none after the last comparison.
fn judge(
    circuit: &Circuit,
    input: &[u32],
    coins: &[u32],
    place: Place,
    claim: u32,
    message: &[u32],
) -> Result<Option<u32>, u32> {
    require(message.len() == circuit.message_length(place), refusal::MESSAGE_LENGTH)?;
    let claim = compare(circuit, coins, place, claim, message)?;
    if place.layer < circuit.depth() || !circuit.is_line(place) {
        return Ok(Some(claim));
    }
    compare_input(circuit, input, coins, claim)?;
    Ok(None)
}

/// Compares one message of the right length with the claim and answers the new claim.
fn compare(circuit: &Circuit, coins: &[u32], place: Place, claim: u32, message: &[u32]) -> Result<u32, u32> {
    let field = circuit.field;
    require(field.holds_all(message), refusal::MESSAGE_WORD)?;
    let at_zero = message[0];
    let at_one = field.value_at_one(message);
    if circuit.is_line(place) {
        let expected = summand(circuit, coins, place.layer, at_zero, at_one);
        require(expected == claim, refusal::LINE)?;
    } else {
        require(field.add(at_zero, at_one) == claim, refusal::SUM)?;
    }
    let coin = coins[circuit.first_coin(place.layer) + place.round];
    Ok(field.value(message, coin))
}

/// The comparison after the last message.
fn compare_input(circuit: &Circuit, input: &[u32], coins: &[u32], claim: u32) -> Result<(), u32> {
    let point = point_on(circuit, coins, circuit.depth());
    let value = extension(circuit.field, input, point.coordinates());
    require(value == claim, refusal::INPUT_CLAIM)
}

/// The summand at the layer's two points, with the values there as the line gives them.
fn summand(circuit: &Circuit, coins: &[u32], layer: usize, at_u: u32, at_v: u32) -> u32 {
    let field = circuit.field;
    let point = point_on(circuit, coins, layer - 1);
    let (u, v) = ends(circuit, coins, layer);
    let sums = gate_sums(field, circuit.gates(layer - 1), point.coordinates(), u, v);
    let terms = OPERATIONS.map(|kind| field.mul(sums[kind as usize], gate::value(field, kind, at_u, at_v)));
    terms.into_iter().fold(0, |sum, term| field.add(sum, term))
}

/// A, M and S: the weights of the gates of each kind, summed, at the kind's place. Empty gates have none.
fn gate_sums(field: Field, gates: &[Gate], point: &[u32], u: &[u32], v: &[u32]) -> [u32; 1 + OPERATIONS.len()] {
    let mut sums = [0; 1 + OPERATIONS.len()];
    for (index, &[kind, left, right]) in gates.iter().enumerate() {
        if kind != EMPTY {
            let wires = field.mul(weight(field, left as usize, u), weight(field, right as usize, v));
            let sum = &mut sums[kind as usize];
            *sum = field.add(*sum, field.mul(weight(field, index, point), wires));
        }
    }
    sums
}
