//! The refusals by their numbers.

#[derive(Clone, Copy, PartialEq, Eq, PartialOrd, Ord, Debug)]
pub enum Refusal {
    ShortSlice = 1,
    SheetTooLong,
    BadLine,
    OutOfLimits,
    OutOfOrder,
    UnknownReference,
    ValueMismatch,
    MalformedTree,
    UnboundVariable,
    NoCommonType,
    WrongOperandType,
    NoAttribute,
    TypeTooDeep,
    NotFound,
    OtherClass,
    StepStop,
    SizeStop,
    ReportTooLong,
    OverRange,
    NoSentence,
    BoardFull,
    OutsideProfile,
    CallUpward,
    UnknownDefinition,
}

/// A refusal with its line from 1, or 0 where no line is to blame.
#[derive(Clone, Copy, PartialEq, Eq, Debug)]
pub struct Refused {
    pub refusal: Refusal,
    pub place: usize,
}

impl Refusal {
    pub fn at(self, place: usize) -> Refused {
        Refused {
            refusal: self,
            place,
        }
    }
}
