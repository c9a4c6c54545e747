//! A list of few words, by value.
use crate::MAX_OUTPUTS;
use std::fmt;
use std::ops::Deref;

/// A list of at most [`MAX_OUTPUTS`] words: a circuit's outputs, or the coins that come before any message. It is
/// read as a slice: `&*list`.
#[derive(Clone, Copy, PartialEq, Eq)]
#[repr(C)]
pub struct ShortList {
    count: usize,
    words: [u32; MAX_OUTPUTS],
}

impl ShortList {
    /// The words of the list, and zeros past them.
    pub fn row(&self) -> &[u32; MAX_OUTPUTS] {
        &self.words
    }
}

impl Deref for ShortList {
    type Target = [u32];

    fn deref(&self) -> &[u32] {
        &self.words[..self.count]
    }
}

impl fmt::Debug for ShortList {
    fn fmt(&self, out: &mut fmt::Formatter<'_>) -> fmt::Result {
        (**self).fmt(out)
    }
}
