//! Stands in for a product that makes or edits boards wrongly, to show that the comparison
//! finds it: the second evaluator's board in other words, with a fault.

use super::boards::{Boards, Second};
use super::misjudged_edits::{own, put, steps, Done};
use super::named::cases;
use crate::board::taken;
use crate::calls::{accepted, Answer, Words, LEAST_BOARD, LEAST_VERDICTS, LEAST_WORDS};
use crate::model::{Rule, Sheet};
use crate::refusal::Refused;
use crate::report::report;
use std::ops::Range;

cases! {
    Mishandling:
    MakingSteps: "making answers the steps of all verdicts",
    ShortBoard: "a board of a word too few is made and edited",
    ShortVerdicts: "a verdict byte too few is enough",
    OldMinimum: "verdict bytes have the minimum that outputs once had",
    RefusedMaking: "making that is refused writes into the board",
    RefusedVerdicts: "making that is refused for its verdicts writes what fits",
    Zeroed: "the words of a board are zeroed where an edit is refused",
    Beyond: "a word behind the board's is written",
    WordLeft: "a word slice keeps a word",
    JustFits: "verdicts that just fit are too long",
    TailCleared: "bytes behind shorter verdicts are cleared",
    LengthOfChange: "the length is that of what was evaluated again",
    NoLineFeed: "an edit needs no line feed",
    TwoLines: "an edit's second line is left aside",
    NoBytes: "an edit of no bytes changes nothing and is accepted",
    AnyLine: "an edit of another line is out of order",
    Undefined: "u clears",
    ClearedAbsent: "clearing what is not on the sheet changes nothing and is accepted",
    ClearedMismatch: "clearing what the object does not have does so too",
    Ascending: "an edit comes behind the last value, or is out of order",
    Members: "members may be in any order",
    Place: "an edit's place is 0",
    PlaceBehind: "an edit's place is a line behind the sheet's last",
    PlaceFull: "a full board has no place",
    PlaceLong: "verdicts too long have a place",
    FullIs4: "a full board is 4",
    FullAtLimit: "a board is full with 1,024 values",
    SizesAtLimit: "a board is full with a size of 2,048",
    OldSizeStays: "the size of the value before is not taken off",
    OldLineStays: "a value that is changed counts twice",
    ClearingFull: "clearing on a full board is refused",
    FullBeforeMismatch: "a full board comes before what does not suit",
    LongBeforeFull: "verdicts too long come before a full board",
    EditBeforeText: "an edit's faults come before the sheet's",
    EditBeforeTypes: "an edit's faults come before those of types",
    AllAgain: "all rules are evaluated again",
    StepsOfObject: "the steps are those of one object",
    OwnObject: "only the edited object's verdicts are renewed",
    CalledLeft: "rules are left that see the row through a definition",
    CollectLeft: "rules are left that see the row by collect",
    UnrunLeft: "rules are left that do not run what sees the row",
    ByName: "rules are evaluated again that read the name",
    StopsLeft: "the steps of stops are left out",
    NothingNew: "an edit with the value that stood takes no steps",
    NothingCleared: "clearing where no value stood takes no steps",
    NotMoved: "lines behind a longer or shorter rule stay where they are",
    MovedByOne: "lines behind a longer rule are a byte off",
    RefusedTaken: "an edit refused for its verdicts is on the board",
    FullTaken: "an edit of a full board takes the value before off",
    ClearedStays: "clearing leaves the value",
    TextValues: "an edit is of the text's values",
    Lost: "the last value is lost where a board is full",
}

/// A sheet with the values of a board, and where the rules' verdicts stand.
type Opened = (Sheet, Vec<Range<usize>>);

impl Boards for Mishandling {
    fn make(&self, text: &[u8], words: Words, board: &mut [u64], bytes: &mut [u8]) -> Answer {
        if let Some((mut board, mut bytes)) = self.lengthened(board, bytes) {
            return Second.make(text, words, &mut board, &mut bytes);
        }
        let [first, middle, last] = words;
        let left = middle.get(9).copied();
        let words = [&mut *first, &mut *middle, last];
        let room = bytes.len() - usize::from(*self == Mishandling::JustFits && !bytes.is_empty());
        let mut answer = Second.make(text, words, board, &mut bytes[..room]);
        let sheet = accepted(text).ok().map(|(sheet, _)| sheet);
        match (self, answer.number, sheet) {
            (Mishandling::MakingSteps, 0, Some(sheet)) => {
                answer.steps = steps(&sheet, |_, _| true);
            }
            (Mishandling::RefusedMaking, 2.., _) => board[0] ^= 1,
            (Mishandling::RefusedVerdicts, 18, Some(sheet)) => {
                let lines = report(&sheet, usize::MAX).unwrap_or_default();
                bytes.copy_from_slice(&lines[..room]);
            }
            (Mishandling::Beyond, 0, _) if board.len() > LEAST_BOARD => board[LEAST_BOARD] ^= 1,
            (Mishandling::WordLeft, 0, _) => middle[9] = left.unwrap_or(0),
            _ => {}
        }
        answer
    }

    fn edit(
        &self,
        text: &[u8],
        line: &[u8],
        words: Words,
        board: &mut [u64],
        bytes: &mut [u8],
    ) -> Answer {
        if let Some((mut board, mut bytes)) = self.lengthened(board, bytes) {
            return Second.edit(text, line, words, &mut board, &mut bytes);
        }
        let few = words.iter().any(|words| words.len() < LEAST_WORDS);
        if few || board.len() < LEAST_BOARD || bytes.len() < LEAST_VERDICTS {
            return bare(1, 0);
        }
        for words in words {
            words[..LEAST_WORDS].fill(0);
        }
        match self.edited(text, line, board, bytes) {
            Ok(done) => self.written(done, board, bytes),
            Err(Refused { refusal, place }) => {
                if *self == Mishandling::Zeroed {
                    board[..LEAST_BOARD].fill(0);
                }
                self.refused(refusal as u64, place as u64, text)
            }
        }
    }
}

fn bare(number: u64, place: u64) -> Answer {
    Answer {
        number,
        place,
        ..Answer::default()
    }
}

impl Mishandling {
    /// The slices as long as they must be, where the fault takes shorter ones.
    fn lengthened(self, board: &[u64], bytes: &[u8]) -> Option<(Vec<u64>, Vec<u8>)> {
        let is_taken = match self {
            Mishandling::ShortBoard => board.len() == LEAST_BOARD - 1,
            Mishandling::ShortVerdicts => bytes.len() == LEAST_VERDICTS - 1,
            Mishandling::OldMinimum => (2_048..LEAST_VERDICTS).contains(&bytes.len()),
            _ => false,
        };
        let mut longer = (board.to_vec(), bytes.to_vec());
        longer.0.resize(board.len().max(LEAST_BOARD), 0);
        longer.1.resize(bytes.len().max(LEAST_VERDICTS), 0);
        is_taken.then_some(longer)
    }

    fn refused(self, number: u64, place: u64, text: &[u8]) -> Answer {
        let behind = text.split(|byte| *byte == b'\n').count() as u64;
        match (self, number, place) {
            (Mishandling::Place, 3..=7, 1) | (Mishandling::PlaceFull, 21, _) => bare(number, 0),
            (Mishandling::PlaceBehind, 3..=7, 1) => bare(number, behind),
            (Mishandling::PlaceLong, 18, _) => bare(18, 1),
            (Mishandling::FullIs4, 21, _) => bare(4, 1),
            _ => bare(number, place),
        }
    }

    /// Writes what an edit comes to.
    fn written(self, done: Done, board: &mut [u64], bytes: &mut [u8]) -> Answer {
        let length = done.verdicts.len();
        board[..done.words.len()].copy_from_slice(&done.words);
        bytes[..length].copy_from_slice(&done.verdicts);
        if self == Mishandling::TailCleared {
            bytes[length..].fill(b' ');
        }
        if self == Mishandling::Beyond && board.len() > LEAST_BOARD {
            board[LEAST_BOARD] ^= 1;
        }
        let length = match self {
            Mishandling::LengthOfChange => done.renewed,
            _ => length,
        };
        Answer {
            steps: done.steps,
            length: length as u64,
            ..Answer::default()
        }
    }

    /// None where the words are no board of the sheet.
    fn opened(self, text: &[u8], board: &[u64], bytes: &[u8]) -> Result<Option<Opened>, Refused> {
        let (mut sheet, _) = accepted(text).map_err(|(refused, _)| refused)?;
        let own_values = sheet.model.values.clone();
        let parts = taken(&mut sheet, board, bytes);
        if self == Mishandling::TextValues {
            sheet.model.values = own_values;
        }
        Ok(parts.map(|parts| (sheet, parts)))
    }

    /// An edit, from the sheet's faults to what becomes of the board.
    fn edited(
        self,
        text: &[u8],
        line: &[u8],
        board: &mut [u64],
        bytes: &[u8],
    ) -> Result<Done, Refused> {
        self.judged_early(text, line)?;
        let Some((mut sheet, parts)) = self.opened(text, board, bytes)? else {
            return Ok(Done::default());
        };
        let Some(edit) = self.judged(&sheet.model, line).map_err(own)? else {
            return self.evaluated(&sheet, |_: &Rule| false, bytes, &parts);
        };
        let old = sheet.model.value(edit.object, edit.row).cloned();
        if let Err(full) = self.room(&sheet, &edit, old.as_ref()) {
            self.overfilled(sheet, edit, &parts, board, bytes)?;
            return Err(own(full));
        }
        if self != Mishandling::ClearedStays || edit.value.is_some() {
            sheet.model.edit(edit.clone());
        }
        let sees = |rule: &Rule| self.sees(&sheet, rule, edit.row);
        let mut done = self
            .evaluated(&sheet, sees, bytes, &parts)
            .inspect_err(|_| {
                if self == Mishandling::RefusedTaken {
                    put(&sheet, &parts, board);
                }
            })?;
        self.recounted(&mut done, &sheet, &edit, old.as_ref());
        if self == Mishandling::OwnObject {
            self.keep_others(&mut done, bytes, edit.object);
        }
        Ok(done)
    }
}
