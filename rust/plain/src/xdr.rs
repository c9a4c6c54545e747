//! RFC 4506 arrays of unsigned integers.

use crate::circuit::MOST_LIST_WORDS;
use crate::refusal::{self, require};

const MOST_ARRAYS: usize = 4;

/// No array is longer than the largest circuit's list.
const MOST_WORDS: u32 = MOST_LIST_WORDS as u32;

/// Reads the given number of arrays; the buffer then begins with the words of all of them.
pub fn read(bytes: &[u8], number: u32, buffer: &mut [u32]) -> Result<[u32; 4], u32> {
    let number = number as usize;
    require((1..=MOST_ARRAYS).contains(&number), refusal::BYTES)?;
    let mut counts = [0; MOST_ARRAYS];
    let mut arrays: [&[u8]; MOST_ARRAYS] = [&[]; MOST_ARRAYS];
    let mut rest = bytes;
    for (count, array) in counts.iter_mut().zip(&mut arrays).take(number) {
        (*count, *array, rest) = split_array(rest).ok_or(refusal::BYTES)?;
    }
    require(rest.is_empty(), refusal::BYTES)?;
    let words: u32 = counts.iter().sum();
    require(buffer.len() >= words as usize, refusal::BUFFER)?;
    let all = arrays.iter().flat_map(|array| array.as_chunks().0);
    for (word, &bytes) in buffer.iter_mut().zip(all) {
        *word = u32::from_be_bytes(bytes);
    }
    Ok(counts)
}

/// The count of the first array, the bytes of its words, and the bytes after it.
fn split_array(bytes: &[u8]) -> Option<(u32, &[u8], &[u8])> {
    let (count, rest) = bytes.split_first_chunk()?;
    let count = u32::from_be_bytes(*count);
    if count > MOST_WORDS {
        return None;
    }
    let (array, rest) = rest.split_at_checked(4 * count as usize)?;
    Some((count, array, rest))
}
