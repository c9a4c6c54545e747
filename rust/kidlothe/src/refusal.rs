//! Why an operation refuses.
use std::error::Error;
use std::fmt;

/// Why an operation refuses: a case for each number of the specification.
#[derive(Clone, Copy, Debug, PartialEq, Eq, PartialOrd, Ord, Hash)]
#[repr(u32)]
pub enum Refusal {
    /// The circuit has fewer than 3 words.
    HeaderShort = 1,
    /// The modulus is not one of the listed primes.
    PrimeUnlisted = 2,
    /// The depth is not from 1 to [`MAX_DEPTH`](crate::MAX_DEPTH).
    DepthRange = 3,
    /// The circuit ends before its exponents, k_0 is above [`MAX_OUTPUT_EXPONENT`](crate::MAX_OUTPUT_EXPONENT), or
    /// another is above [`MAX_EXPONENT`](crate::MAX_EXPONENT).
    ExponentRange = 4,
    /// The circuit has not as many words as its exponents call for.
    WordCount = 5,
    /// A gate's kind is unknown.
    GateKind = 6,
    /// A wire is outside the next layer, out of order where the gate does not subtract, or an empty gate has one.
    GateWires = 7,
    /// The input has not as many words as the input layer.
    InputCount = 8,
    /// An input word is not below p.
    InputWord = 9,
    /// A lent buffer is too short.
    BufferShort = 10,
    /// The number of coins is wrong.
    CoinCount = 11,
    /// A coin is not below p.
    CoinWord = 12,
    /// An output is not below p.
    OutputWord = 13,
    /// A message, or all of them, has the wrong length.
    MessageLength = 14,
    /// A message word is not below p.
    MessageWord = 15,
    /// A sum round does not add up to the standing claim.
    RoundDiffers = 16,
    /// A line message does not give the standing claim.
    LineDiffers = 17,
    /// The input does not give the last claim.
    InputDiffers = 18,
    /// The session has ended, or its record does not fit the circuit.
    RecordUnfit = 19,
    /// The bytes are not the arrays that were called for.
    BytesUnfit = 20,
    /// The output list has not 2^k_0 words.
    OutputCount = 21,
}

impl Refusal {
    /// All refusals, in the order of their numbers.
    pub const ALL: [Refusal; 21] = [
        Refusal::HeaderShort,
        Refusal::PrimeUnlisted,
        Refusal::DepthRange,
        Refusal::ExponentRange,
        Refusal::WordCount,
        Refusal::GateKind,
        Refusal::GateWires,
        Refusal::InputCount,
        Refusal::InputWord,
        Refusal::BufferShort,
        Refusal::CoinCount,
        Refusal::CoinWord,
        Refusal::OutputWord,
        Refusal::MessageLength,
        Refusal::MessageWord,
        Refusal::RoundDiffers,
        Refusal::LineDiffers,
        Refusal::InputDiffers,
        Refusal::RecordUnfit,
        Refusal::BytesUnfit,
        Refusal::OutputCount,
    ];

    /// The specification's number of this refusal, from 1 to 21.
    pub fn number(self) -> u32 {
        self as u32
    }

    /// The refusal with this number.
    pub fn from_number(number: u32) -> Option<Refusal> {
        let index = number.checked_sub(1)?;
        Refusal::ALL.get(index as usize).copied()
    }

    /// What is wrong, in words.
    pub fn words(self) -> &'static str {
        match self {
            Refusal::HeaderShort => "the circuit has fewer than 3 words",
            Refusal::PrimeUnlisted => "the modulus is not a listed prime",
            Refusal::DepthRange => "the depth is not from 1 to 12",
            Refusal::ExponentRange => "the circuit ends before its exponents, k_0 is above 4, or another is above 8",
            Refusal::WordCount => "the circuit has not as many words as its exponents call for",
            Refusal::GateKind => "a gate's kind is unknown",
            Refusal::GateWires => "a gate's wires are outside the next layer, out of order where it does not subtract, or an empty gate has one",
            Refusal::InputCount => "the input has not as many words as the input layer",
            Refusal::InputWord => "an input word is not below p",
            Refusal::BufferShort => "the buffer is too short",
            Refusal::CoinCount => "the number of coins is wrong",
            Refusal::CoinWord => "a coin is not below p",
            Refusal::OutputWord => "an output is not below p",
            Refusal::MessageLength => "a message, or all of them, has the wrong length",
            Refusal::MessageWord => "a message word is not below p",
            Refusal::RoundDiffers => "a sum round does not add up to the standing claim",
            Refusal::LineDiffers => "a line message does not give the standing claim",
            Refusal::InputDiffers => "the input does not give the last claim",
            Refusal::RecordUnfit => "the session has ended, or its record does not fit the circuit",
            Refusal::BytesUnfit => "the bytes are not the arrays that were called for",
            Refusal::OutputCount => "the output list has not 2^k_0 words",
        }
    }
}

impl fmt::Display for Refusal {
    fn fmt(&self, out: &mut fmt::Formatter<'_>) -> fmt::Result {
        write!(out, "refused {}: {}", self.number(), self.words())
    }
}

impl Error for Refusal {}
