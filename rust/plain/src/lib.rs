//! Layered arithmetic circuits and their sum-check verifier, in plain Rust.
//!
//! An independent plain implementation of the specification, for comparison and as the yardstick of the benchmark.
//! Every list is a slice of words, every refusal is its number alone, and a refused call writes nothing,
//! but for the end of a session.

mod circuit;
mod evaluation;
mod extension;
mod field;
mod gate;
mod prover;
mod refusal;
mod verifier;
mod xdr;

#[cfg(test)]
mod tests;

pub use circuit::load;
pub use evaluation::evaluate;
pub use prover::{prove, prove_one};
pub use verifier::{check, open, step, Progress, Session};
pub use xdr::read;
