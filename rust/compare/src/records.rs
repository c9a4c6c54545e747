//! Forged records: ended ones, ones that fit no circuit, and ones that fit another place than the walk came to.

use crate::arena::Arena;
use crate::call::{Call, List};
use crate::draw::Draw;
use crate::instance::Instance;
use crate::residues::ends_sum;
use crate::tally::Kind;

/// A step on a forged record.
pub fn any(arena: &mut Arena, instance: &Instance) {
    let draw = &mut arena.draw;
    let mut call = instance.step(draw.below(instance.places.len()));
    if draw.one_in(2) {
        fitting(draw, instance, &mut call);
    } else {
        forged(draw, instance, &mut call);
    }
    arena.compare(Kind::Record, &call);
}

/// Figures in and out of range, each drawn by itself.
fn forged(draw: &mut Draw, instance: &Instance, call: &mut Call) {
    let prime = instance.prime;
    let depth = instance.depth() as u32;
    let (inside, any) = (1 + draw.below(depth as usize) as u32, draw.word());
    let layer = draw.pick(&[0, depth, depth + 1, inside, inside, inside, any, u32::MAX]);
    let k = instance.exponents[layer.clamp(1, depth) as usize];
    let round = draw.below(2 * k as usize + 1) as u32;
    let [_, _, honest, _] = call.record;
    let (any, residue) = (draw.word(), draw.residue(prime));
    call.record = [
        layer,
        draw.pick(&[0, 2 * k, 2 * k + 1, round, round, any, u32::MAX]),
        draw.pick(&[honest, honest, 0, residue, prime - 1, prime, u32::MAX]),
        draw.pick(&[0, 1, 1, 1, 1, 2, u32::MAX]),
    ];
}

/// An open record of any place, with any claim, and a message of that place's length. A sum message often fits the claim.
fn fitting(draw: &mut Draw, instance: &Instance, call: &mut Call) {
    let place = instance.places[draw.below(instance.places.len())];
    let message: Vec<u32> = (0..place.length).map(|_| draw.residue(instance.prime)).collect();
    let fit = if place.line { 0 } else { ends_sum(instance.prime, &message) };
    let residue = draw.residue(instance.prime);
    call.record = [place.layer, place.round, draw.pick(&[fit, fit, residue]), 1];
    *call.list_mut(List::Messages) = message;
}
