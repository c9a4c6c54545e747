//! How often each operation met each kind of input and gave each answer.

use std::cmp::Ordering;
use std::collections::{BTreeMap, BTreeSet};

use crate::call::Operation;
use crate::outcome::Answer;

/// How an input came about.
#[derive(Clone, Copy, Debug, PartialEq, Eq, PartialOrd, Ord)]
pub enum Kind {
    Valid,
    Session,
    FalseOutput,
    FalseMessages,
    Word,
    Length,
    Misplaced,
    Remainder,
    Refusal,
    Pair,
    Buffer,
    Record,
    Bytes,
    Gate,
}

impl Kind {
    pub fn name(self) -> &'static str {
        match self {
            Kind::Valid => "valid",
            Kind::Session => "session",
            Kind::FalseOutput => "false output",
            Kind::FalseMessages => "false messages",
            Kind::Word => "words damaged",
            Kind::Length => "length damaged",
            Kind::Misplaced => "lists exchanged",
            Kind::Remainder => "word plus p",
            Kind::Refusal => "refusal on purpose",
            Kind::Pair => "two refusals",
            Kind::Buffer => "buffer length",
            Kind::Record => "record forged",
            Kind::Bytes => "bytes damaged",
            Kind::Gate => "gate exchanged",
        }
    }
}

/// Answers that are counted as one.
#[derive(Clone, Copy, Debug, PartialEq, Eq, PartialOrd, Ord)]
pub enum Class {
    Accepted,
    GoOn,
    Refused(u32),
}

impl Class {
    fn of(answer: Answer) -> Self {
        match answer {
            Answer::GoOn(_) => Class::GoOn,
            Answer::Refused(number) => Class::Refused(number),
            _ => Class::Accepted,
        }
    }

    pub fn name(self) -> String {
        match self {
            Class::Accepted => "accepted".into(),
            Class::GoOn => "go on".into(),
            Class::Refused(number) => number.to_string(),
        }
    }
}

/// Something that a run must have met, beside the answers.
#[derive(Clone, Copy, Debug, PartialEq, Eq, PartialOrd, Ord)]
pub enum Feature {
    /// An accepted transcript, over this prime, of a circuit so deep.
    Depth(u32, u32),
    /// An accepted transcript, over this prime, of a circuit with a layer of this exponent below its outputs.
    Exponent(u32, u32),
    /// An accepted transcript, over this prime, of a circuit whose outputs have this exponent.
    OutputExponent(u32, u32),
    /// An accepted transcript of the largest circuit over this prime.
    LargestCircuit(u32),
    /// An accepted transcript of a circuit with a gate of this kind, its left wire so beside its right one.
    Accepted(u32, Ordering),
    /// A gate of this kind put in another's place, its wires so. All unknown kinds count as one.
    Gate(u32, Ordering),
    /// A false output that was accepted by luck with a message's coin.
    FalseOutputAccepted,
    /// A false output, over this prime, that was accepted since the coins before any message gave it no weight.
    HiddenOutputAccepted(u32),
    /// A false output of this index that was refused.
    FalseOutputRefused(usize),
    /// A 4 of a circuit whose k_0 is one above the largest.
    OutputExponentRefused,
    /// A 5 of a circuit whose k_0 is another one that the limits allow.
    OtherOutputExponentRefused,
    /// A 21 of so many outputs beside the right number.
    OutputCountRefused(Ordering),
    /// A 13 of the output of this index.
    OutputWordRefused(usize),
    /// An 11 of a prefix that lacks the last of this many coins before any message.
    ShortPrefixRefused(usize),
    /// An 18 of a circuit with one input word.
    SingleInputRefused,
}

#[derive(Default)]
pub struct Tally {
    pub inputs: u64,
    pub answers: BTreeMap<(Operation, Kind), BTreeMap<Class, u64>>,
    /// The refusal given and the one that came too late.
    pub pairs: BTreeMap<(Operation, u32, u32), u64>,
    pub features: BTreeSet<Feature>,
}

impl Tally {
    pub fn count(&mut self, operation: Operation, kind: Kind, answer: Answer) {
        self.inputs += 1;
        *self.answers.entry((operation, kind)).or_default().entry(Class::of(answer)).or_default() += 1;
    }

    pub fn count_pair(&mut self, operation: Operation, first: u32, second: u32) {
        *self.pairs.entry((operation, first, second)).or_default() += 1;
    }

    pub fn merge(&mut self, other: Tally) {
        self.inputs += other.inputs;
        for (row, classes) in other.answers {
            let row = self.answers.entry(row).or_default();
            for (class, count) in classes {
                *row.entry(class).or_default() += count;
            }
        }
        for (pair, count) in other.pairs {
            *self.pairs.entry(pair).or_default() += count;
        }
        self.features.extend(other.features);
    }

    /// How often the operation gave the answer, over all kinds of input.
    pub fn given(&self, operation: Operation, class: Class) -> u64 {
        let rows = self.answers.iter().filter(|((of, _), _)| *of == operation);
        rows.filter_map(|(_, classes)| classes.get(&class)).sum()
    }

    pub fn print(&self) {
        println!("{:<10} {:<19} {:>9}  answers", "operation", "kind of input", "inputs");
        for ((operation, kind), classes) in &self.answers {
            let answers: Vec<String> =
                classes.iter().map(|(class, count)| format!("{}: {count}", class.name())).collect();
            let inputs: u64 = classes.values().sum();
            println!("{:<10} {:<19} {inputs:>9}  {}", operation.name(), kind.name(), answers.join(", "));
        }
        let met: u64 = self.pairs.values().sum();
        println!("{} ordered pairs of refusals, met {met} times", self.pairs.len());
    }
}
