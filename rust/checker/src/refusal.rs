//! Why a call has no answer.

use core::error::Error;
use core::fmt;

/// Why a call has no answer, by its number.
#[derive(Clone, Copy, PartialEq, Eq, PartialOrd, Ord, Hash, Debug)]
#[repr(u64)]
pub enum Refusal {
    /// A word slice or the output is too short. Nothing was touched.
    ShortSlice = 1,
    /// The text is longer than a sheet may be.
    SheetTooLong,
    /// A line is misspelled: its fields, letter, form, numbers or line feed.
    BadLine,
    /// A number, count, size or nesting is outside its limits.
    OutOfLimits,
    /// Lines, numbers or members are out of order; a name or variable is there
    /// twice.
    OutOfOrder,
    /// The sheet does not have this class, row or object by then.
    UnknownReference,
    /// A row does not take the value, or the object has no such row.
    ValueMismatch,
    /// The nodes of a rule or a definition make no tree, or one that is too deep.
    MalformedTree,
    /// Nothing binds the variable.
    UnboundVariable,
    /// Two types have no common one, or a cast is between unrelated classes.
    NoCommonType,
    /// A form does not take an operand of this type.
    WrongOperandType,
    /// The class has no attribute of this name.
    NoAttribute,
    /// A type would be over three deep.
    TypeTooDeep,
    /// The sheet has no such rule, or no such object.
    NotFound,
    /// The rule does not apply to objects of this class.
    OtherClass,
    /// More than [`MOST_STEPS`](crate::MOST_STEPS) steps are due.
    StepStop,
    /// A value of a size over 128 would be formed.
    SizeStop,
    /// The report, the rows or the lines about undefined are longer than the output, or a
    /// board's verdicts than their bytes.
    ReportTooLong,
    /// A result of Integers leaves their range, or one of Reals is infinite.
    OverRange,
    /// The text of a rule is no sentence.
    NotASentence,
    /// After the edit a board would have over 1,024 values, or over size 2,048 in all.
    BoardFull,
    /// A rule is outside the free-numbering profile.
    OutsideProfile,
    /// A definition calls itself or a larger one.
    CallUpward,
    /// A rule calls a definition that the sheet does not have.
    UnknownDefinition,
}

impl Refusal {
    /// All of them, in the order of their numbers.
    pub const ALL: [Refusal; 24] = [
        Refusal::ShortSlice,
        Refusal::SheetTooLong,
        Refusal::BadLine,
        Refusal::OutOfLimits,
        Refusal::OutOfOrder,
        Refusal::UnknownReference,
        Refusal::ValueMismatch,
        Refusal::MalformedTree,
        Refusal::UnboundVariable,
        Refusal::NoCommonType,
        Refusal::WrongOperandType,
        Refusal::NoAttribute,
        Refusal::TypeTooDeep,
        Refusal::NotFound,
        Refusal::OtherClass,
        Refusal::StepStop,
        Refusal::SizeStop,
        Refusal::ReportTooLong,
        Refusal::OverRange,
        Refusal::NotASentence,
        Refusal::BoardFull,
        Refusal::OutsideProfile,
        Refusal::CallUpward,
        Refusal::UnknownDefinition,
    ];

    /// The refusal of a number from 1 to 24.
    pub fn of(number: u64) -> Option<Refusal> {
        Refusal::ALL
            .into_iter()
            .find(|refusal| refusal.number() == number)
    }

    /// Its number.
    pub fn number(self) -> u64 {
        self as u64
    }

    /// Its trade word.
    pub fn word(self) -> &'static str {
        match self {
            Refusal::ShortSlice => "short bench",
            Refusal::SheetTooLong => "long sheet",
            Refusal::BadLine => "bad line",
            Refusal::OutOfLimits => "over measure",
            Refusal::OutOfOrder => "out of row",
            Refusal::UnknownReference => "unknown part",
            Refusal::ValueMismatch => "wrong thread",
            Refusal::MalformedTree => "broken tree",
            Refusal::UnboundVariable => "loose end",
            Refusal::NoCommonType => "no match",
            Refusal::WrongOperandType => "wrong piece",
            Refusal::NoAttribute => "no such mark",
            Refusal::TypeTooDeep => "too many layers",
            Refusal::NotFound => "not listed",
            Refusal::OtherClass => "other class",
            Refusal::StepStop => "step stop",
            Refusal::SizeStop => "size stop",
            Refusal::ReportTooLong => "slip too long",
            Refusal::OverRange => "over the range",
            Refusal::NotASentence => "not a sentence",
            Refusal::BoardFull => "board full",
            Refusal::OutsideProfile => "outside the profile",
            Refusal::CallUpward => "call upward",
            Refusal::UnknownDefinition => "unknown definition",
        }
    }

    /// What it says, on one line.
    pub fn meaning(self) -> &'static str {
        match self {
            Refusal::ShortSlice => "a lent slice is too short",
            Refusal::SheetTooLong => "the text is longer than a sheet may be",
            Refusal::BadLine => "the line is misspelled",
            Refusal::OutOfLimits => "a number, count, size or nesting is outside its limits",
            Refusal::OutOfOrder => "something is out of order, or there twice",
            Refusal::UnknownReference => "the sheet has no such class, row or object",
            Refusal::ValueMismatch => "the value does not suit its row, or the row its object",
            Refusal::MalformedTree => "the nodes make no tree, or one that is too deep",
            Refusal::UnboundVariable => "nothing binds the variable",
            Refusal::NoCommonType => {
                "there is no common type, or the cast is between unrelated classes"
            }
            Refusal::WrongOperandType => "the form does not take an operand of this type",
            Refusal::NoAttribute => "the class has no attribute of this name",
            Refusal::TypeTooDeep => "the type would be over three deep",
            Refusal::NotFound => "the sheet has no such rule or object",
            Refusal::OtherClass => "the object is not of the rule's class or below",
            Refusal::StepStop => "more steps are due than an evaluation may take",
            Refusal::SizeStop => "a value of a size over 128 would be formed",
            Refusal::ReportTooLong => "what is to be written is longer than the output",
            Refusal::OverRange => {
                "a result of Integers leaves their range, or one of Reals is infinite"
            }
            Refusal::NotASentence => "the text of the rule is no sentence",
            Refusal::BoardFull => "there would be too many values, or too large ones",
            Refusal::OutsideProfile => "what the rule says may follow the objects' numbers",
            Refusal::CallUpward => "the definition calls itself or a larger one",
            Refusal::UnknownDefinition => "the sheet has no such definition",
        }
    }
}

/// A call's refusal, or a stop of its evaluation.
#[derive(Clone, Copy, PartialEq, Eq, Debug)]
pub struct Refused {
    /// The refusal's number. The calls give no other than 1 to 24.
    pub number: u64,
    /// The steps begun where an evaluation was stopped, else 0.
    pub steps: u64,
    /// The line that is to blame, counted from 1, or 0.
    pub place: u64,
}

impl Refused {
    /// The refusal that the number stands for.
    pub fn refusal(self) -> Option<Refusal> {
        Refusal::of(self.number)
    }
}

/// In words, as `line 2: bad line (3): the line is misspelled`.
impl fmt::Display for Refused {
    fn fmt(&self, out: &mut fmt::Formatter<'_>) -> fmt::Result {
        let refusal = self.refusal();
        if self.place != 0 {
            write!(out, "line {}: ", self.place)?;
        }
        let word = refusal.map_or("unknown", Refusal::word);
        write!(out, "{word} ({})", self.number)?;
        if self.steps != 0 {
            write!(out, " after {} steps", self.steps)?;
        }
        match refusal {
            Some(refusal) => write!(out, ": {}", refusal.meaning()),
            None => Ok(()),
        }
    }
}

impl Error for Refused {}
