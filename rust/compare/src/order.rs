//! The refusals of each operation in the order in which they are tried, which is not that of the numbers.

use crate::call::Operation;

/// The refusals that the operation can give.
pub fn order(operation: Operation) -> &'static [u32] {
    match operation {
        Operation::Load => &[1, 2, 3, 4, 5, 6, 7],
        Operation::Evaluate => &[1, 2, 3, 4, 5, 6, 7, 8, 9, 10],
        Operation::Prove | Operation::ProveOne => &[1, 2, 3, 4, 5, 6, 7, 8, 9, 11, 12, 10],
        Operation::Check => &[1, 2, 3, 4, 5, 6, 7, 8, 9, 21, 13, 11, 12, 14, 15, 16, 17, 18],
        Operation::Open => &[1, 2, 3, 4, 5, 6, 7, 8, 9, 21, 13, 11, 12],
        Operation::Step => &[1, 2, 3, 4, 5, 6, 7, 8, 9, 11, 12, 19, 14, 15, 16, 17, 18],
        Operation::Read => &[20, 10],
    }
}

/// The number that stands for a group of refusals tried gate by gate or message by message.
fn group(number: u32) -> u32 {
    match number {
        7 => 6,
        16..=18 => 15,
        _ => number,
    }
}

/// When a refusal is tried: its group, then its gate or message, then its number.
pub fn rank(operation: Operation, number: u32, index: usize) -> (usize, usize, u32) {
    let stage = order(operation).iter().position(|&other| other == group(number));
    (stage.expect("a refusal of the operation"), index, number)
}

/// Every pair of a refusal and one that would come after it, on one input.
pub fn pairs(operation: Operation) -> Vec<(u32, u32)> {
    let numbers = order(operation);
    let mut pairs = Vec::new();
    for (position, &first) in numbers.iter().enumerate() {
        for &second in &numbers[position + 1..] {
            pairs.extend([(first, second)].into_iter().filter(|&pair| possible(operation, pair)));
            pairs.extend([(second, first)].into_iter().filter(|&pair| possible_backwards(operation, pair)));
        }
    }
    pairs
}

fn possible(operation: Operation, pair: (u32, u32)) -> bool {
    match pair {
        // A list of fewer than 3 words has no exponents and no gates that could be wrong.
        (1, 4..=7) => false,
        // A step's one message is either a sum round or a line, and the input is compared after a line only.
        (16, 17 | 18) => operation != Operation::Step,
        _ => true,
    }
}

/// Pairs in which an earlier gate or message turns the order of the numbers around. Nothing comes after 18.
fn possible_backwards(operation: Operation, pair: (u32, u32)) -> bool {
    match pair {
        (7, 6) => true,
        (16, 15) | (17, 15) | (17, 16) => operation == Operation::Check,
        _ => false,
    }
}
