//! Why a call is refused, and where.

use std::fmt;

/// A refusal: why, and the place that the table of refusals gives.
#[derive(Clone, Copy, Debug, PartialEq, Eq)]
pub struct Refusal {
    pub why: Why,
    pub place: usize,
}

impl fmt::Display for Refusal {
    fn fmt(&self, f: &mut fmt::Formatter<'_>) -> fmt::Result {
        write!(f, "refused {} at {}", self.why.number(), self.place)
    }
}

macro_rules! reasons {
    ($($(#[$doc:meta])* $reason:ident = $number:literal,)*) => {
        /// Every reason, finer than the numbers, so that it can be counted how often each is met.
        #[derive(Clone, Copy, Debug, PartialEq, Eq)]
        pub enum Why { $($(#[$doc])* $reason),* }

        impl Why {
            pub const ALL: &[Why] = &[$(Why::$reason),*];

            pub fn number(self) -> u32 {
                match self { $(Why::$reason => $number),* }
            }
        }
    };
}

reasons! {
    NodesFull = 1,
    EntriesFull = 1,
    NodeKind = 2,
    EntryKind = 2,
    NodeRange = 3,
    EntryRange = 3,
    NodeOperand = 4,
    EntryOperand = 4,
    /// T below all, some or T.
    NodeTypical = 5,
    /// T on the right of an inclusion, or on its left other than on top.
    EntryTypical = 5,
    NotLive = 6,
    StepsLength = 7,
    InterpretationLength = 7,
    PairsLength = 7,
    RanksLength = 7,
    UnknownOp = 8,
    UnusedOperand = 8,
    NoSuchEntry = 9,
    StruckEntry = 9,
    NoSuchConstraint = 9,
    NoSuchEdge = 9,
    NoSuchLabel = 9,
    Misfit = 10,
    ConstraintsFull = 11,
    EdgesFull = 11,
    SplitsFull = 11,
    LabelsFull = 11,
    AfterClosing = 12,
    NotClosed = 13,
    BadSize = 14,
    BadNameMask = 14,
    BadRoleMask = 14,
    /// The mask of a role at an element that is not there, which is not 0.
    BadRoleElement = 14,
    BadIndividual = 14,
    /// A row of pairs that names its own element.
    BetterThanItself = 15,
    /// A row of pairs that names an element past the size.
    BetterPastSize = 15,
    /// A row of pairs that lacks what is better than a better element.
    NotTransitive = 15,
    OrderSize = 16,
    ListLength = 17,
    EntryFails = 18,
    TooShort = 19,
    CountsOverLimit = 19,
    WrongDistance = 19,
    /// The distance is longer than what precedes the trailer.
    NoRoom = 19,
}

impl Why {
    /// The refusal for this reason at a place.
    pub fn at(self, place: usize) -> Refusal {
        Refusal { why: self, place }
    }
}
