//! A list of few words as an answer holds it: in a row of a fixed length.

use kidlothe::{ShortList, MAX_OUTPUTS};

/// The list, and the words of the row past it.
#[derive(Clone, Copy, Debug, PartialEq, Eq)]
pub struct Row {
    count: usize,
    words: [u32; MAX_OUTPUTS],
}

impl Row {
    /// The list with zeros past it, which is how every answer should hold it.
    pub fn of(list: &[u32]) -> Self {
        let mut words = [0; MAX_OUTPUTS];
        words[..list.len()].copy_from_slice(list);
        Row { count: list.len(), words }
    }

    pub fn list(&self) -> &[u32] {
        &self.words[..self.count]
    }
}

impl From<ShortList> for Row {
    /// The row as the library gave it, so that a word past the list that is not 0 is a difference.
    fn from(list: ShortList) -> Self {
        Row { count: list.len(), words: *list.row() }
    }
}
