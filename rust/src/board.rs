//! A running board (F-10): the values of a sheet with the edits so far made, in words, and
//! the verdicts on them, in bytes. How they lie in the words is this evaluator's own.

use crate::calls::LEAST_BOARD;
use crate::model::{Edit, Sheet};
use crate::read::edits::edit;
use crate::read::{MOST_VALUES, MOST_VALUE_SIZES};
use crate::refusal::{Refusal, Refused};
use crate::report::verdicts;
use crate::rows::rows_seen;
use std::ops::Range;

/// The most rules of a sheet.
const MOST_RULES: usize = 64;
/// How many bytes of V lines and how many rules there are, then where each rule's verdicts
/// end, then the V lines, eight bytes a word.
const ENDS: usize = 2;
const LINES: usize = ENDS + MOST_RULES;

/// What making or an edit leaves: the words, the verdicts, and the steps of those that were
/// found anew.
#[derive(Default)]
pub struct Board {
    pub words: Vec<u64>,
    pub verdicts: Vec<u8>,
    pub steps: u64,
}

impl Board {
    /// The board of a typed sheet, with verdicts of at most `room` bytes.
    pub fn made(sheet: &Sheet, room: usize) -> Result<Board, Refused> {
        let board = Board::with(sheet, room, |_| None)?;
        Ok(Board { steps: 0, ..board })
    }

    /// The board after an edit. The sheet is the text's, and its values are replaced by those
    /// that the two slices hold; where these hold no board of the sheet, the board is empty.
    pub fn edited(
        mut sheet: Sheet,
        edit: Edit,
        words: &[u64],
        bytes: &[u8],
    ) -> Result<Board, Refused> {
        let Some(parts) = taken(&mut sheet, words, bytes) else {
            return Ok(Board::default());
        };
        let row = edit.row;
        sheet.model.edit(edit);
        if !has_room(&sheet) {
            return Err(Refusal::BoardFull.at(1));
        }
        Board::with(&sheet, bytes.len(), |rule| {
            let is_renewed = rows_seen(&sheet, &sheet.rules[rule]).contains(&row);
            (!is_renewed).then(|| &bytes[parts[rule].clone()])
        })
    }

    /// A board with the verdicts of each rule: those that `kept` gives, or else found anew.
    fn with<'b>(
        sheet: &Sheet,
        room: usize,
        kept: impl Fn(usize) -> Option<&'b [u8]>,
    ) -> Result<Board, Refused> {
        let mut board = Board::default();
        let mut ends = Vec::new();
        for rule in 0..sheet.rules.len() {
            match kept(rule) {
                Some(bytes) => board.verdicts.extend(bytes),
                None => board.steps += verdicts(sheet, rule, room, &mut board.verdicts)?,
            }
            ends.push(board.verdicts.len());
        }
        if board.verdicts.len() > room {
            return Err(Refusal::ReportTooLong.at(0));
        }
        board.words = laid(sheet, &ends);
        Ok(board)
    }
}

/// Whether the values are no more, and together no larger, than a board can hold.
fn has_room(sheet: &Sheet) -> bool {
    sheet.model.values.len() <= MOST_VALUES && sheet.model.value_sizes() <= MOST_VALUE_SIZES
}

/// The words that hold a sheet's values and where the verdicts of its rules end.
pub fn laid(sheet: &Sheet, ends: &[usize]) -> Vec<u64> {
    let mut lines = Vec::new();
    for ((object, row), value) in &sheet.model.values {
        lines.extend(format!("V\t{object}\t{row}\t").as_bytes());
        value.spell(&mut lines);
        lines.push(b'\n');
    }
    let mut words = vec![0; LINES];
    words[0] = lines.len() as u64;
    words[1] = ends.len() as u64;
    for (word, end) in words[ENDS..].iter_mut().zip(ends) {
        *word = *end as u64;
    }
    words.extend(lines.chunks(8).map(|bytes| {
        let mut word = [0; 8];
        word[..bytes.len()].copy_from_slice(bytes);
        u64::from_le_bytes(word)
    }));
    words
}

/// Gives the sheet the values in the words, and tells where the verdicts of each rule lie;
/// none where the two slices hold no board of this sheet.
pub fn taken(sheet: &mut Sheet, words: &[u64], bytes: &[u8]) -> Option<Vec<Range<usize>>> {
    let length = usize::try_from(words[0]).ok()?;
    let rules = sheet.rules.len();
    if length > 8 * (LEAST_BOARD - LINES) || words[1] != rules as u64 {
        return None;
    }
    let mut parts = Vec::new();
    let mut start = 0;
    for end in &words[ENDS..ENDS + rules] {
        let end = usize::try_from(*end).ok()?;
        if end < start || end > bytes.len() {
            return None;
        }
        parts.push(start..end);
        start = end;
    }
    let lines = words[LINES..LEAST_BOARD].iter();
    let lines: Vec<u8> = lines.flat_map(|word| word.to_le_bytes()).collect();
    sheet.model.values.clear();
    for line in lines[..length].split_inclusive(|byte| *byte == b'\n') {
        let Edit { object, row, value } = edit(&sheet.model, line).ok()?;
        let last = sheet.model.values.last();
        let ascends = last.is_none_or(|(last, _)| *last < (object, row));
        let value = value.filter(|_| ascends)?;
        sheet.model.values.push(((object, row), value));
    }
    has_room(sheet).then_some(parts)
}
