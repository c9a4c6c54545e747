//! Single changes of a call, which can be put together.

use crate::call::{Call, List};

#[derive(Clone, Debug)]
pub enum Edit {
    Set(List, usize, u32),
    /// Cuts the list down to a length.
    Cut(List, usize),
    Extend(List, Vec<u32>),
    Record(usize, u32),
    Buffer(usize),
}

impl Edit {
    /// Changes the call, if the place of the change is still there.
    pub fn apply(&self, call: &mut Call) -> bool {
        match *self {
            Edit::Set(list, index, word) => match call.list_mut(list).get_mut(index) {
                Some(place) => *place = word,
                None => return false,
            },
            Edit::Cut(list, length) => call.list_mut(list).truncate(length),
            Edit::Extend(list, ref words) => call.list_mut(list).extend(words),
            Edit::Record(index, word) => call.record[index] = word,
            Edit::Buffer(length) => call.buffer = length,
        }
        true
    }

    /// Whether one of the two could undo the other.
    pub fn clashes(&self, other: &Edit) -> bool {
        match (self, other) {
            (Edit::Set(one, index, _), Edit::Set(two, at, _)) => one == two && index == at,
            (Edit::Record(index, _), Edit::Record(at, _)) => index == at,
            _ => self.resized().is_some() && self.resized() == other.resized(),
        }
    }

    fn resized(&self) -> Option<List> {
        match *self {
            Edit::Cut(list, _) | Edit::Extend(list, _) => Some(list),
            _ => None,
        }
    }
}
