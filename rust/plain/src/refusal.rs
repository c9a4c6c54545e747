//! The numbers of the refusals.

pub(crate) const NO_HEAD: u32 = 1;
pub(crate) const PRIME: u32 = 2;
pub(crate) const DEPTH: u32 = 3;
pub(crate) const EXPONENT: u32 = 4;
pub(crate) const CIRCUIT_LENGTH: u32 = 5;
pub(crate) const KIND: u32 = 6;
pub(crate) const WIRE: u32 = 7;
pub(crate) const INPUT_LENGTH: u32 = 8;
pub(crate) const INPUT_WORD: u32 = 9;
pub(crate) const BUFFER: u32 = 10;
pub(crate) const COIN_COUNT: u32 = 11;
pub(crate) const COIN_WORD: u32 = 12;
pub(crate) const OUTPUT_WORD: u32 = 13;
pub(crate) const MESSAGE_LENGTH: u32 = 14;
pub(crate) const MESSAGE_WORD: u32 = 15;
pub(crate) const SUM: u32 = 16;
pub(crate) const LINE: u32 = 17;
pub(crate) const INPUT_CLAIM: u32 = 18;
pub(crate) const RECORD: u32 = 19;
pub(crate) const BYTES: u32 = 20;
pub(crate) const OUTPUT_COUNT: u32 = 21;

/// Refuses with the number unless the condition holds.
pub(crate) fn require(condition: bool, number: u32) -> Result<(), u32> {
    if condition {
        Ok(())
    } else {
        Err(number)
    }
}
