//! Tests of the operations: the specification's cases, its edges, lists of several outputs, and honest transcripts
//! of drawn circuits.

mod cases;
mod edges;
mod honest;
mod outputs;

/// What unused words of a lent buffer hold before a call, and must hold after it.
const SENTINEL: u32 = 0xfcdc_ba98;

const CIRCUIT: [u32; 7] = [13, 1, 0, 1, 2, 0, 1];
const INPUT: [u32; 2] = [3, 5];
const COINS: [u32; 3] = [4, 6, 9];
const MESSAGES: [u32; 8] = [2, 8, 3, 0, 5, 12, 11, 4];

/// The figures of a record: layer, round, claim, and 1 where it is open.
fn figures(session: &crate::Session) -> [u32; 4] {
    [session.layer, session.round, session.claim, u32::from(session.open)]
}
