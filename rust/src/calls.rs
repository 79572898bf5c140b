//! The calls, with everything they answer: number, steps, place, length,
//! the output bytes and the word slices. Each reads the text anew.

use crate::board::Board;
use crate::eval::evaluate;
use crate::model::Sheet;
use crate::origins;
use crate::profile::lowest_line;
use crate::read::edits::edit;
use crate::read::read;
use crate::refusal::{Refusal, Refused};
use crate::report;
use crate::rows;
use crate::types::Type;
use crate::typing::type_rules;

pub const LONGEST_SHEET: usize = 49_152;
pub const LEAST_WORDS: usize = 8_192;
pub const LEAST_OUTPUT: usize = 2_560;
/// The fewest words of a board, and the fewest bytes for its verdicts.
pub const LEAST_BOARD: usize = 8_192;
pub const LEAST_VERDICTS: usize = LEAST_OUTPUT;
/// The output bytes the program lends.
pub const PROGRAM_OUTPUT: usize = 65_536;

#[derive(Clone, Copy, Default, PartialEq, Eq, Debug)]
pub struct Answer {
    /// 0 for an answer, else the refusal's.
    pub number: u64,
    pub steps: u64,
    pub place: u64,
    pub length: u64,
}

/// The three word slices lent to a call.
pub type Words<'w> = [&'w mut [u64]; 3];

/// What a call writes and the steps it took, or its refusal and the steps begun.
type Work = Result<(Vec<u8>, u64), (Refused, u64)>;

/// Reads the sheet and writes its rules' types, one a line.
pub fn read_types(text: &[u8], words: Words, out: &mut [u8]) -> Answer {
    lent(words, out, |_| {
        let (_, types) = accepted(text)?;
        Ok((type_lines(&types), 0))
    })
}

/// The same, for a sheet that is held to the free-numbering profile.
pub fn read_free_numbering(text: &[u8], words: Words, out: &mut [u8]) -> Answer {
    lent(words, out, |_| {
        let (sheet, types) = accepted(text)?;
        match lowest_line(&sheet) {
            Some(line) => Err((Refusal::OutsideProfile.at(line), 0)),
            None => Ok((type_lines(&types), 0)),
        }
    })
}

pub fn evaluate_rule(text: &[u8], rule: u64, object: u64, words: Words, out: &mut [u8]) -> Answer {
    lent(words, out, |_| {
        let (sheet, _) = accepted(text)?;
        let rule = listed(rule, sheet.rules.len())?;
        let object = listed(object, sheet.model.objects.len())?;
        let (rule, object) = (&sheet.rules[rule], object as u8);
        if !sheet.model.is_of(object, rule.context) {
            return Err((Refusal::OtherClass.at(0), 0));
        }
        let (outcome, steps) = evaluate(&sheet, rule, object);
        let value = outcome.map_err(|stop| (stop.refusal().at(0), steps))?;
        let mut spelt = Vec::new();
        report::spell(value.as_ref(), &mut spelt);
        Ok((spelt, steps))
    })
}

pub fn report(text: &[u8], words: Words, out: &mut [u8]) -> Answer {
    lent(words, out, |out| {
        let (sheet, _) = accepted(text)?;
        let written = report::report(&sheet, out.len()).map_err(without_steps)?;
        Ok((written, 0))
    })
}

/// Reads and types the sheet and writes the rows that each rule sees, a line a rule.
pub fn rows(text: &[u8], words: Words, out: &mut [u8]) -> Answer {
    lent(words, out, |out| {
        let (sheet, _) = accepted(text)?;
        let written = rows::lines(&sheet, out.len()).map_err(without_steps)?;
        Ok((written, 0))
    })
}

/// Reads and types the sheet and writes where each undefined verdict came from.
pub fn undefined(text: &[u8], words: Words, out: &mut [u8]) -> Answer {
    lent(words, out, |out| {
        let (sheet, _) = accepted(text)?;
        let written = origins::lines(&sheet, out.len()).map_err(without_steps)?;
        Ok((written, 0))
    })
}

/// Makes a running board of a sheet: the verdicts are its report.
pub fn make_board(text: &[u8], words: Words, board: &mut [u64], verdicts: &mut [u8]) -> Answer {
    on_board(words, board, verdicts, |_, verdicts| {
        let (sheet, _) = accepted(text)?;
        Board::made(&sheet, verdicts.len()).map_err(without_steps)
    })
}

/// Sets or clears one value on a board of the sheet, and brings its verdicts up to date.
pub fn edit_board(
    text: &[u8],
    line: &[u8],
    words: Words,
    board: &mut [u64],
    verdicts: &mut [u8],
) -> Answer {
    on_board(words, board, verdicts, |board, verdicts| {
        let (sheet, _) = accepted(text)?;
        let edit = edit(&sheet.model, line).map_err(|refusal| (refusal.at(1), 0))?;
        Board::edited(sheet, edit, board, verdicts).map_err(without_steps)
    })
}

/// What `ocl_report` prints for a text.
pub fn program(text: &[u8]) -> Vec<u8> {
    printed(text, report)
}

/// What `ocl_rows` prints for a text.
pub fn rows_program(text: &[u8]) -> Vec<u8> {
    printed(text, rows)
}

/// What the gate's program that holds a sheet to the profile prints for a text.
pub fn profile_program(text: &[u8]) -> Vec<u8> {
    printed(text, read_free_numbering)
}

/// What `ocl_undefined` prints for a text.
pub fn undefined_program(text: &[u8]) -> Vec<u8> {
    printed(text, undefined)
}

/// What the gate's program that makes and edits a board prints: for each call the answer's
/// four numbers, parted by one space, and then the verdicts that it gives. The pieces, the
/// sheet and then the edits, end in a tilde and a line feed each; words and verdict bytes
/// are lent at their minimum.
pub fn board_program(pieces: &[u8]) -> Vec<u8> {
    let mut words = vec![0; 3 * LEAST_WORDS];
    let mut board = vec![0; LEAST_BOARD];
    let mut verdicts = vec![0; LEAST_VERDICTS];
    let mut printed = Vec::new();
    let mut sheet = None;
    let mut rest = pieces;
    while let Some(end) = rest.iter().position(|byte| *byte == b'~') {
        let piece = &rest[..end];
        let (first, others) = words.split_at_mut(LEAST_WORDS);
        let (second, third) = others.split_at_mut(LEAST_WORDS);
        let words = [first, second, third];
        let answer = match sheet {
            None => make_board(piece, words, &mut board, &mut verdicts),
            Some(text) => edit_board(text, piece, words, &mut board, &mut verdicts),
        };
        let Answer {
            number,
            steps,
            place,
            length,
        } = answer;
        printed.extend(format!("{number} {steps} {place} {length}\n").as_bytes());
        printed.extend(&verdicts[..length as usize]);
        sheet = sheet.or(Some(piece));
        rest = rest.get(end + 2..).unwrap_or_default();
    }
    printed
}

/// What a program that makes the call prints for a text.
fn printed(text: &[u8], call: impl Fn(&[u8], Words, &mut [u8]) -> Answer) -> Vec<u8> {
    let mut words = vec![0; 3 * LEAST_WORDS];
    let (first, rest) = words.split_at_mut(LEAST_WORDS);
    let (second, third) = rest.split_at_mut(LEAST_WORDS);
    let mut out = vec![0; PROGRAM_OUTPUT];
    let answer = call(text, [first, second, third], &mut out);
    if answer.number != 0 {
        return format!("! {} {}\n", answer.number, answer.place).into_bytes();
    }
    out.truncate(answer.length as usize);
    out
}

/// The sheet and its rules' types: it is accepted only if its definitions and all
/// of its rules type.
pub fn accepted(text: &[u8]) -> Result<(Sheet, Vec<Type>), (Refused, u64)> {
    if text.len() > LONGEST_SHEET {
        return Err((Refusal::SheetTooLong.at(0), 0));
    }
    let mut sheet = read(text).map_err(without_steps)?;
    let types = type_rules(&mut sheet).map_err(without_steps)?;
    Ok((sheet, types))
}

fn type_lines(types: &[Type]) -> Vec<u8> {
    let mut lines = Vec::new();
    for ty in types {
        ty.spell(&mut lines);
        lines.push(b'\n');
    }
    lines
}

/// The number of a rule or an object, of which there are so many.
fn listed(number: u64, count: usize) -> Result<usize, (Refused, u64)> {
    let number = usize::try_from(number).ok();
    let listed = number.filter(|number| *number < count);
    listed.ok_or((Refusal::NotFound.at(0), 0))
}

fn without_steps(refused: Refused) -> (Refused, u64) {
    (refused, 0)
}

/// A call's work on a board: given its words and its verdicts as they are, those that they
/// become. A refusal leaves them.
fn on_board(
    words: Words,
    board: &mut [u64],
    verdicts: &mut [u8],
    work: impl FnOnce(&[u64], &[u8]) -> Result<Board, (Refused, u64)>,
) -> Answer {
    if board.len() < LEAST_BOARD {
        return Answer {
            number: Refusal::ShortSlice as u64,
            ..Answer::default()
        };
    }
    lent(words, verdicts, |verdicts| {
        let after = work(board, verdicts)?;
        board[..after.words.len()].copy_from_slice(&after.words);
        Ok((after.verdicts, after.steps))
    })
}

/// A call's work within what is lent to it, given the output as it is.
fn lent(words: Words, out: &mut [u8], work: impl FnOnce(&[u8]) -> Work) -> Answer {
    if words.iter().any(|slice| slice.len() < LEAST_WORDS) || out.len() < LEAST_OUTPUT {
        return Answer {
            number: Refusal::ShortSlice as u64,
            ..Answer::default()
        };
    }
    for slice in words {
        slice[..LEAST_WORDS].fill(0);
    }
    match work(out) {
        Ok((written, steps)) => {
            out[..written.len()].copy_from_slice(&written);
            Answer {
                steps,
                length: written.len() as u64,
                ..Answer::default()
            }
        }
        Err((refused, steps)) => Answer {
            number: refused.refusal as u64,
            steps,
            place: refused.place as u64,
            length: 0,
        },
    }
}
