//! The check of the argued outputs of a layered arithmetic circuit, and what belongs to it: safe functions over the
//! proved library.
//!
//! A client has a circuit over a prime field and its input. Another machine computes the outputs and argues for them,
//! message by message; the check decides whether the outputs are released. Each function here passes its lists to a
//! function of the library that is proved to answer, on all lists, as the specification's definition of the operation
//! does. Nothing here is wrong to call: a list that is not legal is refused.
//!
//! # Lists
//!
//! A circuit is the list p, D, k_0, k_1 to k_D, then three words for each gate (kind, left, right) of the layers 0 to
//! D-1 in order. Layer i has 2^k_i gates; those of layer 0 give the outputs; layer D is the input, 2^k_D words. Kind 0
//! is an empty gate: its value is 0 and its wires are 0 0. Kind 1 adds, kind 2 multiplies and kind 3 is left minus
//! right, modulo p. Left and right name gates of the next layer, from 0 on; left is at most right, but for kind 3.
//!
//! The outputs are a list of 2^k_0 words, in the order of their gates. It is false if one of its words is.
//!
//! The first k_0 coins come before any message. They are a point, the first coin for the highest bit of an output's
//! index, and the first claim is the value there of the multilinear extension of the outputs. Then, for each layer from
//! 1 to D, with k its exponent, come 2k sum messages of three words, one for each coordinate of the layer's two points
//! u and v, u's first, and then one line message of k + 1 words. The words are coefficients, the constant first. Each
//! message has one coin. So a circuit has n coins, k_0 and the sum of 2 k_i + 1 for the layers from 1 to D, and its
//! messages the sum of 7 k_i + 1 words. A list of coins or of message words has them in this order.
//!
//! # Check and session
//!
//! ```
//! // p = 13; one gate multiplies the two inputs.
//! let circuit = [13, 1, 0, 1, 2, 0, 1];
//! let input = [3, 5];
//! let coins = [4, 6, 9];
//!
//! let mut messages = [0; kidlothe::MAX_MESSAGE_WORDS];
//! let proof = kidlothe::prove(&circuit, &input, &coins, &mut messages)?;
//! assert_eq!(*proof.outputs, [2]);
//!
//! let messages = &messages[..proof.words];
//! assert_eq!(kidlothe::check(&circuit, &input, &[2], &coins, messages), Ok(()));
//! assert_eq!(kidlothe::check(&circuit, &input, &[3], &coins, messages), Err(kidlothe::Refusal::RoundDiffers));
//! # Ok::<(), kidlothe::Refusal>(())
//! ```
//!
//! A session takes the messages one by one. It hands out the first k_0 coins when it is opened, and each other one
//! after its message:
//!
//! ```
//! use kidlothe::{Progress, Session};
//!
//! // Two outputs: the product of the two inputs, and their sum.
//! let (circuit, input, coins) = ([13, 1, 1, 1, 2, 0, 1, 1, 0, 1], [3, 5], [10, 4, 6, 9]);
//! let opening = Session::open(&circuit, &input, &[2, 8], &coins)?;
//! assert_eq!(*opening.coins, [10]);
//!
//! let mut session = opening.session;
//! assert_eq!(session.step(&circuit, &input, &coins, &[10, 11, 5])?, Progress::GoOn(4));
//! assert_eq!(session.step(&circuit, &input, &coins, &[0, 3, 1])?, Progress::GoOn(6));
//! assert_eq!(session.step(&circuit, &input, &coins, &[11, 4])?, Progress::Accepted);
//! # Ok::<(), kidlothe::Refusal>(())
//! ```
//!
//! # What the caller sees to
//!
//! Coins are drawn at random below p, anew for each list of outputs and after the prover has sent that list. It learns
//! the first k_0 of them before its first message, and each other one only after it has sent the message that the coin
//! belongs to. False outputs are then accepted with a chance of at most k_0 + 5 (k_1 + ... + k_D) in p, and no code can
//! look at a coin and tell. A session is kept and stored as [`Session`] says.
#![warn(missing_docs)]

mod foreign;
mod refusal;
mod session;
mod short_list;

pub use refusal::Refusal;
pub use session::{Opening, Progress, Session};
pub use short_list::ShortList;

/// The layers of the deepest circuit.
pub const MAX_DEPTH: usize = 12;

/// The largest width exponent of a layer from 1 on.
pub const MAX_EXPONENT: usize = 8;

/// The largest width exponent of layer 0, k_0.
pub const MAX_OUTPUT_EXPONENT: usize = 4;

/// The gates of the widest layer.
const MAX_WIDTH: usize = 1 << MAX_EXPONENT;

/// The most outputs of a circuit.
pub const MAX_OUTPUTS: usize = 1 << MAX_OUTPUT_EXPONENT;

/// The words of the longest legal circuit, and the largest count of an array that is read.
pub const MAX_CIRCUIT_WORDS: usize = 3 + MAX_DEPTH + 3 * (MAX_OUTPUTS + (MAX_DEPTH - 1) * MAX_WIDTH);

/// The gate and input values of the largest circuit: enough for every buffer of [`evaluate`].
pub const MAX_VALUES: usize = MAX_OUTPUTS + MAX_DEPTH * MAX_WIDTH;

/// The coins of the largest circuit.
pub const MAX_COINS: usize = MAX_OUTPUT_EXPONENT + MAX_DEPTH * (2 * MAX_EXPONENT + 1);

/// The message words of the largest circuit: enough for every buffer of [`prove`].
pub const MAX_MESSAGE_WORDS: usize = MAX_DEPTH * (7 * MAX_EXPONENT + 1);

/// The words of the longest message, a line: enough for every buffer of [`prove_one`].
pub const MAX_ONE_MESSAGE: usize = MAX_EXPONENT + 1;

/// The outputs, and the number of message words that were written for them.
#[derive(Clone, Copy, Debug, PartialEq, Eq)]
pub struct Proof {
    /// The circuit's outputs.
    pub outputs: ShortList,
    /// How many words the messages have.
    pub words: usize,
}

/// An answer, unless its refusal has a number.
fn answered<T>(number: u32, answer: T) -> Result<T, Refusal> {
    if number == 0 {
        return Ok(answer);
    }
    Err(Refusal::from_number(number).expect("every refusal has a number from 1 to 21"))
}

/// Load: whether the list is a legal circuit. Refuses by the first of 1 to 7.
pub fn load(circuit: &[u32]) -> Result<(), Refusal> {
    // SAFETY: the list is borrowed for the call.
    let number = unsafe { foreign::kidlothe_load(circuit.as_ptr(), circuit.len()) };
    answered(number, ())
}

/// Evaluate: the outputs. The buffer then begins with the values of all gates, layers 0 to D-1 in order, and the input
/// words; the rest of it is unchanged. Refuses by the first of 1 to 9 and 10, and leaves the buffer then.
pub fn evaluate(circuit: &[u32], input: &[u32], buffer: &mut [u32]) -> Result<ShortList, Refusal> {
    // SAFETY: the lists are borrowed for the call, the buffer mutably, so it overlaps none of them.
    let answer = unsafe {
        foreign::kidlothe_evaluate(
            circuit.as_ptr(),
            circuit.len(),
            input.as_ptr(),
            input.len(),
            buffer.as_mut_ptr(),
            buffer.len(),
        )
    };
    answered(answer.refusal, answer.outputs)
}

/// Read: the given number, 1 to 4, of arrays of unsigned integers (RFC 4506) that the bytes are made of. Answers their
/// counts, 0 for arrays not called for. The buffer then begins with the words of all arrays in order; the rest of it is
/// unchanged. Refuses by the first of 20 and 10, and leaves the buffer then.
pub fn read(bytes: &[u8], number: u32, buffer: &mut [u32]) -> Result<[u32; 4], Refusal> {
    // SAFETY: the bytes are borrowed for the call, the buffer mutably, so they do not overlap.
    let answer =
        unsafe { foreign::kidlothe_read(bytes.as_ptr(), bytes.len(), number, buffer.as_mut_ptr(), buffer.len()) };
    answered(answer.refusal, answer.counts)
}

/// Prove, whole: the outputs and the honest messages for these coins. The buffer then begins with the messages, one
/// directly after another; the rest of it is unchanged. Refuses by the first of 1 to 9, 11, 12 and 10, and leaves the
/// buffer then.
pub fn prove(circuit: &[u32], input: &[u32], coins: &[u32], messages: &mut [u32]) -> Result<Proof, Refusal> {
    // SAFETY: the lists are borrowed for the call, the buffer mutably, so it overlaps none of them.
    let answer = unsafe {
        foreign::kidlothe_prove(
            circuit.as_ptr(),
            circuit.len(),
            input.as_ptr(),
            input.len(),
            coins.as_ptr(),
            coins.len(),
            messages.as_mut_ptr(),
            messages.len(),
        )
    };
    let proof = Proof { outputs: answer.outputs, words: answer.words };
    answered(answer.refusal, proof)
}

/// Prove, one message: the honest message that follows the coins handed out so far, the first k_0 among them. Answers
/// how many words it has. The buffer then begins with them; the rest of it is unchanged. Refuses by the first of 1 to
/// 9, 11, 12 and 10, and leaves the buffer then. 11 is for fewer than k_0 coins, and for all n of them or more, which
/// no message follows.
pub fn prove_one(circuit: &[u32], input: &[u32], prefix: &[u32], buffer: &mut [u32]) -> Result<usize, Refusal> {
    // SAFETY: the lists are borrowed for the call, the buffer mutably, so it overlaps none of them.
    let answer = unsafe {
        foreign::kidlothe_prove_one(
            circuit.as_ptr(),
            circuit.len(),
            input.as_ptr(),
            input.len(),
            prefix.as_ptr(),
            prefix.len(),
            buffer.as_mut_ptr(),
            buffer.len(),
        )
    };
    answered(answer.refusal, answer.words)
}

/// Check, whole: accepts where nothing is refused: the lists are legal and have the lengths called for, the outputs and
/// all message words are below p, and every comparison of the walk holds. Refuses by the first of 1 to 9, 21, 13, 11,
/// 12, 14, and then by the first message that earns one of 15 to 17, or by 18.
pub fn check(circuit: &[u32], input: &[u32], outputs: &[u32], coins: &[u32], messages: &[u32]) -> Result<(), Refusal> {
    // SAFETY: the lists are borrowed for the call.
    let number = unsafe {
        foreign::kidlothe_check(
            circuit.as_ptr(),
            circuit.len(),
            input.as_ptr(),
            input.len(),
            outputs.as_ptr(),
            outputs.len(),
            coins.as_ptr(),
            coins.len(),
            messages.as_ptr(),
            messages.len(),
        )
    };
    answered(number, ())
}
