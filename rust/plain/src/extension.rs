//! Multilinear extensions: weights, halving, and the point where the walk stands.

use crate::circuit::{Circuit, MOST_WIDTH};
use crate::field::Field;

/// A list over the indices of a layer; only its front is used for a narrower one.
pub(crate) type Table = [u32; MOST_WIDTH];

/// The most coordinates of a point.
const MOST_COORDINATES: usize = 8;

/// A point of up to eight coordinates.
pub(crate) struct Point {
    coordinates: [u32; MOST_COORDINATES],
    count: usize,
}

impl Point {
    pub(crate) fn coordinates(&self) -> &[u32] {
        &self.coordinates[..self.count]
    }
}

/// The point on layer 0, which is the coins before any message.
pub(crate) fn first_point<'a>(circuit: &Circuit, coins: &'a [u32]) -> &'a [u32] {
    &coins[..circuit.exponent(0)]
}

/// The two points of a layer, which are its coins: u, then v.
pub(crate) fn ends<'a>(circuit: &Circuit, coins: &'a [u32], layer: usize) -> (&'a [u32], &'a [u32]) {
    let k = circuit.exponent(layer);
    let first = circuit.first_coin(layer);
    coins[first..first + 2 * k].split_at(k)
}

/// The point where the claim on a layer stands: the first point, or the line's at its coin.
pub(crate) fn point_on(circuit: &Circuit, coins: &[u32], layer: usize) -> Point {
    let count = circuit.exponent(layer);
    let mut coordinates = [0; MOST_COORDINATES];
    if layer == 0 {
        coordinates[..count].copy_from_slice(first_point(circuit, coins));
    } else {
        let (u, v) = ends(circuit, coins, layer);
        let t = coins[circuit.first_coin(layer) + 2 * count];
        for (z, (&u, &v)) in coordinates.iter_mut().zip(u.iter().zip(v)) {
            *z = circuit.field.between(u, v, t);
        }
    }
    Point { coordinates, count }
}

/// The weight of an index at a point, the highest bit belonging to the first coordinate.
pub(crate) fn weight(field: Field, index: usize, point: &[u32]) -> u32 {
    let mut weight = 1;
    let mut bit = 1 << point.len();
    for &z in point {
        bit >>= 1;
        weight = field.mul(weight, if index & bit != 0 { z } else { field.sub(1, z) });
    }
    weight
}

/// The weights of all indices at a point.
pub(crate) fn weights(field: Field, point: &[u32]) -> Table {
    let mut table = [0; MOST_WIDTH];
    table[0] = 1;
    for (done, &z) in point.iter().enumerate() {
        // From the top down, so that no entry is overwritten before it is split.
        for index in (0..1 << done).rev() {
            let high = field.mul(table[index], z);
            table[2 * index + 1] = high;
            table[2 * index] = field.sub(table[index], high);
        }
    }
    table
}

/// The list with its first coordinates fixed: each one halves it.
pub(crate) fn fold(field: Field, list: &[u32], fixed: &[u32]) -> Table {
    let mut table = [0; MOST_WIDTH];
    table[..list.len()].copy_from_slice(list);
    let mut half = list.len();
    for &z in fixed {
        half /= 2;
        let (low, high) = table.split_at_mut(half);
        for (low, &high) in low.iter_mut().zip(&*high) {
            *low = field.between(*low, high, z);
        }
    }
    table
}

/// The extension of a list at a point.
pub(crate) fn extension(field: Field, list: &[u32], point: &[u32]) -> u32 {
    fold(field, list, point)[0]
}

/// Writes the coefficients, constant first, of the extension along u + t × (v - u).
pub(crate) fn along_line(field: Field, list: &[u32], u: &[u32], v: &[u32], message: &mut [u32]) {
    // Polynomials in t, all of one length, one after the other: half as many at each step, one coefficient longer.
    // A pair of n coefficients each leaves one of n + 1, so the front of the table can be reused.
    let mut table = [0; MOST_WIDTH];
    table[..list.len()].copy_from_slice(list);
    let mut half = list.len();
    for (length, (&u, &v)) in (1..).zip(u.iter().zip(v)) {
        half /= 2;
        let lines = table;
        let (low, high) = lines.split_at(half * length);
        let rows = low.chunks_exact(length).zip(high.chunks_exact(length));
        for (row, (low, high)) in table.chunks_exact_mut(length + 1).zip(rows) {
            blend(field, low, high, (u, field.sub(v, u)), row);
        }
    }
    message.copy_from_slice(&table[..message.len()]);
}

/// Writes low + (u + t × slope) × (high - low), one coefficient longer than low and high.
fn blend(field: Field, low: &[u32], high: &[u32], (u, slope): (u32, u32), row: &mut [u32]) {
    row.fill(0);
    for (index, (&low, &high)) in low.iter().zip(high).enumerate() {
        let difference = field.sub(high, low);
        let constant = field.add(low, field.mul(u, difference));
        row[index] = field.add(row[index], constant);
        row[index + 1] = field.mul(slope, difference);
    }
}
