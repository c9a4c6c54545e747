//! One call of one operation, with everything that it is given.

#[derive(Clone, Copy, Debug, PartialEq, Eq, PartialOrd, Ord)]
pub enum Operation {
    Load,
    Evaluate,
    Prove,
    ProveOne,
    Check,
    Open,
    Step,
    Read,
}

use Operation::*;

impl Operation {
    pub const ALL: [Operation; 8] = [Load, Evaluate, Prove, ProveOne, Check, Open, Step, Read];

    /// The operations on a circuit.
    pub const ON_CIRCUITS: [Operation; 7] = [Load, Evaluate, Prove, ProveOne, Check, Open, Step];

    pub fn name(self) -> &'static str {
        match self {
            Load => "load",
            Evaluate => "evaluate",
            Prove => "prove",
            ProveOne => "prove one",
            Check => "check",
            Open => "open",
            Step => "step",
            Read => "read",
        }
    }

    /// The word lists that the operation takes.
    pub fn lists(self) -> &'static [List] {
        match self {
            Load => &[List::Circuit],
            Evaluate => &[List::Circuit, List::Input],
            Prove | ProveOne => &[List::Circuit, List::Input, List::Coins],
            Check => &[List::Circuit, List::Input, List::Outputs, List::Coins, List::Messages],
            Open => &[List::Circuit, List::Input, List::Outputs, List::Coins],
            Step => &[List::Circuit, List::Input, List::Coins, List::Messages],
            Read => &[],
        }
    }
}

/// A word list of a call. A step's one message stands in `Messages`.
#[derive(Clone, Copy, Debug, PartialEq, Eq)]
pub enum List {
    Circuit,
    Input,
    Outputs,
    Coins,
    Messages,
}

/// Fields that an operation doesn't take are empty or 0.
#[derive(Clone, Debug)]
pub struct Call {
    pub operation: Operation,
    /// Circuit, input, outputs, coins, messages.
    lists: [Vec<u32>; 5],
    /// Layer, round, claim, and 1 for open.
    pub record: [u32; 4],
    pub bytes: Vec<u8>,
    /// The number of arrays to read.
    pub number: u32,
    /// The length of the lent buffer.
    pub buffer: usize,
}

impl Call {
    /// Takes what the operation does of circuit, input, outputs, coins and messages.
    pub fn new(operation: Operation, lists: [&[u32]; 5]) -> Self {
        let mut call = Call {
            operation,
            lists: [const { Vec::new() }; 5],
            record: [0; 4],
            bytes: Vec::new(),
            number: 0,
            buffer: 0,
        };
        for &list in operation.lists() {
            call.lists[list as usize] = lists[list as usize].to_vec();
        }
        call
    }

    pub fn read(bytes: Vec<u8>, number: u32, buffer: usize) -> Self {
        Call { bytes, number, buffer, ..Call::new(Read, [&[]; 5]) }
    }

    pub fn list(&self, list: List) -> &[u32] {
        &self.lists[list as usize]
    }

    pub fn list_mut(&mut self, list: List) -> &mut Vec<u32> {
        &mut self.lists[list as usize]
    }

    pub fn swap_lists(&mut self, one: List, other: List) {
        self.lists.swap(one as usize, other as usize);
    }

    pub fn circuit(&self) -> &[u32] {
        self.list(List::Circuit)
    }

    pub fn input(&self) -> &[u32] {
        self.list(List::Input)
    }

    pub fn outputs(&self) -> &[u32] {
        self.list(List::Outputs)
    }

    pub fn coins(&self) -> &[u32] {
        self.list(List::Coins)
    }

    pub fn messages(&self) -> &[u32] {
        self.list(List::Messages)
    }
}
