//! A session: the check, one message at a time.
use crate::foreign;
use crate::{answered, Refusal, ShortList};

/// What an opening answers where it refuses nothing.
#[derive(Clone, Copy, Debug, PartialEq, Eq)]
pub struct Opening {
    /// The session, which waits for its first message.
    pub session: Session,
    /// The first k_0 coins, which may now be told to the prover.
    pub coins: ShortList,
}

/// What a step answers where it refuses nothing.
#[derive(Clone, Copy, Debug, PartialEq, Eq)]
pub enum Progress {
    /// That was the last message: the outputs are accepted.
    Accepted,
    /// The session goes on. The coin of this message may now be told to the prover.
    GoOn(u32),
}

/// A session's record: where the next message stands, the standing claim, and whether the session is open.
///
/// It has neither the outputs nor the lists nor the coins: keep these beside it, the same for every call, and release
/// the outputs that the session was opened with.
///
/// # Storing a session
///
/// The record may be copied and stored by the verifier alone, and in this order: open or step, write the new
/// [words](Session::words) away, an opening's outputs with them, then tell the answer with its coins. Never step from
/// an older copy once the answer to it is out: the prover could send another message for the same round, with the coin
/// known, or try again what was refused. Never open twice on the same coins: those handed out are known. The prover
/// never holds or chooses the words: a forged record at the last line can be made to pass, whatever the outputs were.
#[derive(Clone, Copy, Debug, PartialEq, Eq)]
pub struct Session {
    words: [u32; 4],
}

impl Session {
    /// Opens a session about these outputs, and hands out the coins that come before any message. Refuses by the first
    /// of 1 to 9, 21, 13, 11 and 12.
    pub fn open(circuit: &[u32], input: &[u32], outputs: &[u32], coins: &[u32]) -> Result<Opening, Refusal> {
        let mut words = [0; 4];
        // SAFETY: the lists are borrowed for the call, and `words` is a local of four words that overlaps none of them.
        let answer = unsafe {
            foreign::kidlothe_open(
                circuit.as_ptr(),
                circuit.len(),
                input.as_ptr(),
                input.len(),
                outputs.as_ptr(),
                outputs.len(),
                coins.as_ptr(),
                coins.len(),
                &mut words,
            )
        };
        answered(answer.refusal, Opening { session: Session { words }, coins: answer.coins })
    }

    /// Judges the next message. Every call takes the circuit, input and coins with which the session was opened.
    ///
    /// Refuses by the first of 1 to 9, 11, 12, 19, 14, 15, 16 or 17, and 18. An acceptance and the refusals 14 to 18
    /// end the session; the other refusals leave it as it was.
    pub fn step(
        &mut self,
        circuit: &[u32],
        input: &[u32],
        coins: &[u32],
        message: &[u32],
    ) -> Result<Progress, Refusal> {
        // SAFETY: the lists are borrowed for the call, and the session's words are borrowed mutably, so they overlap
        // none of them.
        let answer = unsafe {
            foreign::kidlothe_step(
                circuit.as_ptr(),
                circuit.len(),
                input.as_ptr(),
                input.len(),
                coins.as_ptr(),
                coins.len(),
                &mut self.words,
                message.as_ptr(),
                message.len(),
            )
        };
        let progress = match answer.accepted {
            1 => Progress::Accepted,
            _ => Progress::GoOn(answer.coin),
        };
        answered(answer.refusal, progress)
    }

    /// The layer whose message comes next, from 1 on.
    pub fn layer(&self) -> u32 {
        self.words[0]
    }

    /// The round of that layer, from 0 on; the last round of a layer is its line.
    pub fn round(&self) -> u32 {
        self.words[1]
    }

    /// The standing claim.
    pub fn claim(&self) -> u32 {
        self.words[2]
    }

    /// Whether the session is open.
    pub fn is_open(&self) -> bool {
        self.words[3] == 1
    }

    /// The record as four words, to be stored: layer, round, claim, and 1 while it is open.
    pub fn words(&self) -> [u32; 4] {
        self.words
    }

    /// The record that was stored as these words. They must be the last ones of a session that was opened here: nothing
    /// can tell them from others. A step refuses by 19 those that do not fit the circuit, and judges its message at the
    /// place that the others name.
    pub fn from_words(words: [u32; 4]) -> Session {
        Session { words }
    }
}
