//! One unit of work: inputs of every kind on drawn instances, all from one seed.

use crate::arena::Arena;
use crate::instance::{Instance, Size};
use crate::tally::{Kind, Tally};
use crate::{buffers, bytes, damage, gates, lying, pairs, records, valid};

/// A unit has at least this many inputs.
pub const INPUTS: u64 = 1_000;

/// How many units have one with the largest circuit among them.
const UNITS_PER_LARGEST: u64 = 8;

pub fn run(seed: u64, unit: u64) -> Tally {
    let mut arena = Arena::new(seed, unit);
    if unit.is_multiple_of(UNITS_PER_LARGEST) {
        one_instance(&mut arena, Size::Largest);
        bytes::largest(&mut arena);
    }
    while arena.tally.inputs < INPUTS {
        let size = draw_size(&mut arena);
        one_instance(&mut arena, size);
    }
    arena.tally
}

fn draw_size(arena: &mut Arena) -> Size {
    match arena.draw.below(16) {
        0 => Size::Any,
        1 | 2 => Size::Wide,
        3 | 4 => Size::Deep,
        5..=8 => Size::Small,
        _ => Size::Tiny,
    }
}

fn one_instance(arena: &mut Arena, size: Size) {
    let instance = Instance::draw(arena, size);
    // Work on wide circuits takes long, so they get fewer inputs each.
    let share = if matches!(size, Size::Wide | Size::Any | Size::Largest) { 4 } else { 1 };
    valid::each_operation(arena, &instance);
    valid::session(arena, Kind::Session, &instance, &instance.outputs, &instance.messages);
    for _ in 0..4 / share {
        lying::transcript(arena, &instance);
        damage::same_remainder(arena, &instance);
        buffers::any(arena, &instance);
        gates::any(arena, &instance);
    }
    for _ in 0..16 / share {
        damage::any(arena, &instance);
        pairs::two_faults(arena, &instance);
        records::any(arena, &instance);
    }
    bytes::all(arena, &instance);
}
