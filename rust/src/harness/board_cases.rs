//! The cases of making a board and of editing it that a comparison must have met.

use super::board_values::edited;
use super::named::cases;
use crate::calls::{Answer, LEAST_BOARD, LEAST_VERDICTS, LEAST_WORDS};
use crate::generate::turns::{Tampering, Turn, What};
use crate::model::Sheet;
use crate::read::edits::edit;
use crate::read::MOST_VALUES;

cases! {
    BoardCase:
    ShortWords: "a board, and a word slice too short",
    ShortBoard: "a board, and its words too few",
    ShortVerdicts: "a board, and verdict bytes too few",
    LongerBoard: "a board with more words than it needs",
    MadeAgain: "a board made again",
    MadeJustFits: "a board made, its verdicts just fitting",
    MadeTooLong: "a board refused for its verdicts",
    NoRules: "a board without rules",
    NoValues: "a board without values",
    Set: "an edit that sets a value where none stood",
    Changed: "an edit that changes a value",
    Same: "an edit with the value that stood",
    Cleared: "an edit that clears a value",
    ClearedEmpty: "an edit that clears where no value stood",
    FirstOfAll: "an edit before all other values",
    LastOfAll: "an edit behind all other values",
    Unseen: "an edit that no rule sees",
    SeenByAll: "an edit that every rule of several sees",
    SeenBySome: "an edit that some rules see and others do not",
    Called: "an edit that a rule sees only through a definition",
    CalledFurther: "an edit that a rule sees only through a definition's call",
    Collected: "an edit that a rule sees only by collect",
    Unrun: "an edit that a rule sees only in a part that is not run",
    SameName: "an edit in a row with the name of one that a rule sees",
    NoObjects: "an edit that a rule without objects sees",
    OtherObject: "an edit after which another object has another verdict",
    OneOfSeveral: "an edit after which not all verdicts of a rule are others",
    NoOther: "an edit seen by a rule, after which no verdict is another one",
    Longer: "an edit after which verdicts are longer",
    Shorter: "an edit after which verdicts are shorter",
    MovedBack: "an edit after which a later rule's lines stand further back",
    MovedAhead: "an edit after which a later rule's lines stand further ahead",
    Stopped: "an edit after which a rule is stopped",
    NoLongerStopped: "an edit after which a rule is no longer stopped",
    StepsOfStop: "an edit with the steps of a step stop among its own",
    JustFits: "an edit, its verdicts just fitting",
    TooLong: "an edit refused for its verdicts",
    AfterTooLong: "an edit after one that was refused for its verdicts",
    AfterFull: "an edit after one that found the board full",
    AfterBad: "an edit after a bad one",
    LongSheet: "an edit after which a sheet would be too long",
    Lines: "an edit that is one value too many",
    Sizes: "an edit that is too large for the board",
    MostLines: "an edit that fills the board with values",
    MostSizes: "an edit that fills the board by sizes",
    ChangedFull: "an edit that changes a value on a full board",
    LargerTaken: "an edit that fits because the value before it goes",
    ClearedFull: "an edit that clears a value on a full board",
    EmptyFull: "an edit that clears where no value stood on a full board",
    FullTooLong: "an edit too large for the board, its verdicts too long",
    MismatchFull: "an edit that does not suit, on a full board",
    NoLineFeed: "an edit without a line feed",
    TwoLines: "an edit of two lines",
    NoBytes: "an edit of no bytes",
    OtherLetter: "an edit that is another line",
    Undefined: "an edit with u",
    ClearedAbsent: "an edit that clears what is not on the sheet",
    ClearedMismatch: "an edit that clears what the object does not have",
    Faults34: "an edit with 3 and 4",
    Faults35: "an edit with 3 and 5",
    Faults36: "an edit with 3 and 6",
    Faults37: "an edit with 3 and 7",
    Faults45: "an edit with 4 and 5",
    Faults46: "an edit with 4 and 6",
    Faults47: "an edit with 4 and 7",
    Faults56: "an edit with 5 and 6",
    Faults57: "an edit with 5 and 7",
    Faults67: "an edit with 6 and 7",
    BadText: "an edit of a refused sheet",
    Bit: "a bit of a board changed",
    Words: "words of a board changed",
    AllWords: "a board of other words",
    NoWords: "a board of zeroes",
    Bytes: "verdict bytes changed",
    Text: "a board of another text",
}

/// A call about a board of a text, or of one that is refused.
pub struct Happened<'h> {
    pub text: &'h [u8],
    pub turn: &'h Turn,
    pub answer: Answer,
    /// With the values that the board had before; none where there was no board.
    pub sheet: Option<&'h Sheet>,
    /// All verdicts before and after.
    pub before: &'h [u8],
    pub after: &'h [u8],
    /// The number of the call before.
    pub last: u64,
}

/// Cases, and whether each is met.
pub type Met = Vec<(bool, BoardCase)>;

impl BoardCase {
    pub fn of(how: Tampering) -> BoardCase {
        match how {
            Tampering::Bit { .. } => BoardCase::Bit,
            Tampering::Words(_) => BoardCase::Words,
            Tampering::AllWords(_) => BoardCase::AllWords,
            Tampering::NoWords => BoardCase::NoWords,
            Tampering::Bytes(_) => BoardCase::Bytes,
            Tampering::Text(_) => BoardCase::Text,
        }
    }
}

pub fn met(happened: &Happened) -> Vec<BoardCase> {
    let Turn { what, faults, .. } = happened.turn;
    let mut met = lent(happened);
    match (what, happened.sheet) {
        (What::Edit(bytes), Some(sheet)) => {
            met.extend(spelt(bytes, happened.answer.number, faults));
            if let Ok(edit) = edit(&sheet.model, bytes) {
                met.extend(edited(happened, sheet, &edit));
            }
            met.push((
                happened.answer.number == 7 && sheet.model.values.len() == MOST_VALUES,
                BoardCase::MismatchFull,
            ));
        }
        (What::Edit(_), None) => met.push((happened.answer.number > 2, BoardCase::BadText)),
        (_, sheet) => met.push((
            sheet.is_some() && happened.answer.number == 0,
            BoardCase::MadeAgain,
        )),
    }
    let met = met.into_iter().filter(|(is_met, _)| *is_met);
    met.map(|(_, case)| case).collect()
}

/// What is lent, and whether verdicts fit.
fn lent(happened: &Happened) -> Met {
    let Turn { words, .. } = happened.turn;
    let (board, verdicts) = (happened.turn.board, happened.turn.verdicts);
    let is_made = happened.turn.what == What::Make;
    let number = happened.answer.number;
    let few = words.iter().any(|words| *words < LEAST_WORDS);
    let fits = number == 0 && happened.answer.length == verdicts as u64;
    vec![
        (
            few && board >= LEAST_BOARD && verdicts >= LEAST_VERDICTS,
            BoardCase::ShortWords,
        ),
        (
            !few && board == LEAST_BOARD - 1 && verdicts >= LEAST_VERDICTS,
            BoardCase::ShortBoard,
        ),
        (
            !few && board >= LEAST_BOARD && verdicts == LEAST_VERDICTS - 1,
            BoardCase::ShortVerdicts,
        ),
        (number == 0 && board > LEAST_BOARD, BoardCase::LongerBoard),
        (is_made && fits, BoardCase::MadeJustFits),
        (is_made && number == 18, BoardCase::MadeTooLong),
        (!is_made && fits, BoardCase::JustFits),
        (!is_made && number == 18, BoardCase::TooLong),
    ]
}

/// How an edit is spelt, and the faults that were put into it.
fn spelt(bytes: &[u8], number: u64, faults: &[u64]) -> Met {
    let feeds = bytes.iter().filter(|byte| **byte == b'\n').count();
    let is_value = bytes.starts_with(b"V\t");
    let clears = bytes.ends_with(b"\t-\n");
    let pairs = [
        (3, 4, BoardCase::Faults34),
        (3, 5, BoardCase::Faults35),
        (3, 6, BoardCase::Faults36),
        (3, 7, BoardCase::Faults37),
        (4, 5, BoardCase::Faults45),
        (4, 6, BoardCase::Faults46),
        (4, 7, BoardCase::Faults47),
        (5, 6, BoardCase::Faults56),
        (5, 7, BoardCase::Faults57),
        (6, 7, BoardCase::Faults67),
    ];
    let both = pairs.into_iter().map(|(low, high, case)| {
        let is_met = number == low && faults.contains(&low) && faults.contains(&high);
        (is_met, case)
    });
    let mut met: Met = both.collect();
    met.extend([
        (number == 3 && is_value && feeds == 0, BoardCase::NoLineFeed),
        (number == 3 && is_value && feeds == 2, BoardCase::TwoLines),
        (number == 3 && bytes.is_empty(), BoardCase::NoBytes),
        (
            number == 3 && !is_value && feeds == 1,
            BoardCase::OtherLetter,
        ),
        (
            number == 3 && bytes.ends_with(b"\tu\n"),
            BoardCase::Undefined,
        ),
        (number == 6 && clears, BoardCase::ClearedAbsent),
        (number == 7 && clears, BoardCase::ClearedMismatch),
    ]);
    met
}
