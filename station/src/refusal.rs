//! Why the library refuses a call.

use std::fmt::{self, Display, Formatter};

/// A refusal. Whatever was lent to the call has kept its contents.
///
/// Requests to come bring new numbers, so a `match` needs an arm for the rest.
#[derive(Clone, Copy, Debug, PartialEq, Eq, Hash)]
#[non_exhaustive]
pub enum Refusal {
    /// An x or y of the segment is not a whole number within the bound.
    NotWhole = 1,
    /// Both ends of the segment have the same x and y.
    SameNode = 2,
    /// The segment would make more nodes than [`NODE_LIMIT`](crate::layout::NODE_LIMIT).
    TooManyNodes = 3,
    /// The segment would make more edges than [`EDGE_LIMIT`](crate::layout::EDGE_LIMIT).
    TooManyEdges = 4,
    /// The call needs another [`Stage`](crate::Stage).
    WrongStage = 5,
    /// A lent slice is shorter than its least length in [`layout`](crate::layout).
    TableTooShort = 6,
    /// What the lent slices hold is no graph.
    Unsound = 7,
    /// A lent result list is too short.
    ListTooShort = 8,
    /// A file ends within a record: fewer than 4 bytes are left, or fewer than its length says.
    RecordShort = 9,
    /// A record's length is below 2, not 54 for a segment, or below 14 for a ring.
    RecordLength = 10,
    /// A record's kind is not 1 to 15.
    RecordKind = 11,
    /// The segment needs a place for its line id, and all
    /// [`PAIR_LIMIT`](crate::layout::PAIR_LIMIT) are in use.
    TooManyPairs = 12,
    /// The lent hole list is too short.
    TooFewHoles = 13,
    /// What is lent to write into, bytes, rings or node numbers, is too short for all records.
    OutputTooShort = 14,
    /// A ring to be written has no node, more than 65,535, or reaches past its list; or the count in a ring's
    /// record is 0 or does not fit its length.
    BadRing = 15,
}

impl Refusal {
    /// All of them, by number.
    pub const ALL: &'static [Refusal] = &[
        Refusal::NotWhole,
        Refusal::SameNode,
        Refusal::TooManyNodes,
        Refusal::TooManyEdges,
        Refusal::WrongStage,
        Refusal::TableTooShort,
        Refusal::Unsound,
        Refusal::ListTooShort,
        Refusal::RecordShort,
        Refusal::RecordLength,
        Refusal::RecordKind,
        Refusal::TooManyPairs,
        Refusal::TooFewHoles,
        Refusal::OutputTooShort,
        Refusal::BadRing,
    ];

    /// The refusal with this number, if there is one.
    pub fn from_number(number: u32) -> Option<Refusal> {
        let mut refusals = Refusal::ALL.iter().copied();
        refusals.find(|why| why.number() == number)
    }

    /// Its number, by which the documents and the listing name it.
    pub fn number(self) -> u32 {
        self as u32
    }

    /// Its name in words.
    pub fn name(self) -> &'static str {
        match self {
            Refusal::NotWhole => "not whole",
            Refusal::SameNode => "same node",
            Refusal::TooManyNodes => "too many nodes",
            Refusal::TooManyEdges => "too many edges",
            Refusal::WrongStage => "wrong stage",
            Refusal::TableTooShort => "table too short",
            Refusal::Unsound => "unsound",
            Refusal::ListTooShort => "list too short",
            Refusal::RecordShort => "record short",
            Refusal::RecordLength => "record length",
            Refusal::RecordKind => "record kind",
            Refusal::TooManyPairs => "too many pairs",
            Refusal::TooFewHoles => "too few holes",
            Refusal::OutputTooShort => "output too short",
            Refusal::BadRing => "bad ring",
        }
    }

    /// What happened, in a sentence.
    pub fn sentence(self) -> &'static str {
        match self {
            Refusal::NotWhole => "An x or y is not a whole number from -1,048,576 to 1,048,576.",
            Refusal::SameNode => "Both ends of the segment are the same node.",
            Refusal::TooManyNodes => "The segment would make more nodes than a graph may have.",
            Refusal::TooManyEdges => "The segment would make more edges than a graph may have.",
            Refusal::WrongStage => "The graph is in another stage than this call needs.",
            Refusal::TableTooShort => "A table is shorter than the limits need.",
            Refusal::Unsound => "The tables contradict themselves.",
            Refusal::ListTooShort => "A result list is too short for the graph.",
            Refusal::RecordShort => "The file ends within a record.",
            Refusal::RecordLength => "The record's length does not fit its kind.",
            Refusal::RecordKind => "The record's kind is not 1 to 15.",
            Refusal::TooManyPairs => "The table of line ids has no space for one more.",
            Refusal::TooFewHoles => "The hole list has fewer records than there are open rings.",
            Refusal::OutputTooShort => "There is too little room for all records.",
            Refusal::BadRing => "A ring has no node or too many, or its count is wrong.",
        }
    }
}

impl Display for Refusal {
    fn fmt(&self, out: &mut Formatter<'_>) -> fmt::Result {
        write!(out, "refused {}: {}", self.number(), self.sentence())
    }
}

impl std::error::Error for Refusal {}
