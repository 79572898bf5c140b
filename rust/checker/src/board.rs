//! A running board: single values are corrected, and the verdicts stay the report's.

use crate::calls;
use crate::{checked, written, Memory, Refused, LEAST_BOARD};

/// The words of a running board, 64 KiB: the values of the sheet with the edits so far
/// made. It goes with one text and one slice of verdict bytes; [`make_board`] begins anew.
pub struct Board {
    words: [u64; LEAST_BOARD],
}

impl Board {
    /// No board yet.
    pub const fn new() -> Board {
        Board {
            words: [0; LEAST_BOARD],
        }
    }
}

impl Default for Board {
    fn default() -> Board {
        Board::new()
    }
}

/// What an edit comes to.
#[derive(Clone, Copy, PartialEq, Eq, Debug)]
pub struct Edited<'v> {
    /// All verdicts, as [`report`](crate::report) would write them for the sheet with the
    /// edits made.
    pub verdicts: &'v str,
    /// The steps of the rules that were evaluated again.
    pub steps: u64,
}

/// Makes a board of a sheet, and gives its verdicts: the report, which stands in front of
/// the verdict bytes.
///
/// # Errors
///
/// What [`report`](crate::report) refuses; board and verdicts are then as they were.
pub fn make_board<'v>(
    text: &[u8],
    memory: &mut Memory,
    board: &mut Board,
    verdicts: &'v mut [u8],
) -> Result<&'v str, Refused> {
    let answer = calls::make_board(text, memory.lend(), &mut board.words, verdicts);
    checked(answer).map(|answer| written(verdicts, answer))
}

/// Edits a board by one V line with its line feed, or by one with `-` for the value, which
/// clears. Only rules that see the row ([`rows`](crate::rows)) are evaluated again, for all
/// their objects.
///
/// Text, board and verdict bytes have to be those of the last call that had an answer, with
/// nothing written to them since. Else the call still ends, and its answer means nothing.
///
/// # Errors
///
/// What [`report`](crate::report) refuses; then, at place 1, what is wrong with the edit,
/// [`Refusal::BadLine`](crate::Refusal::BadLine) to
/// [`Refusal::ValueMismatch`](crate::Refusal::ValueMismatch), or
/// [`Refusal::BoardFull`](crate::Refusal::BoardFull); then
/// [`Refusal::ReportTooLong`](crate::Refusal::ReportTooLong). The board is then as it was.
///
/// ```
/// use ocl_checker::{edit_board, make_board, Board, Memory, LEAST_VERDICTS};
///
/// let sheet = b"C\t0\t-\nA\t0\t0\t5\tInt\nO\t0\t0\nV\t0\t0\t13\nR\t0\t0\nX\tself.a5 < 12\n";
/// let mut memory = Box::new(Memory::new());
/// let mut board = Box::new(Board::new());
/// let mut verdicts = [0; LEAST_VERDICTS];
/// let made = make_board(sheet, &mut memory, &mut board, &mut verdicts);
/// assert_eq!(made, Ok("0 0 f 4\n"));
/// let edit = b"V\t0\t0\t9\n";
/// let edited = edit_board(sheet, edit, &mut memory, &mut board, &mut verdicts).unwrap();
/// assert_eq!((edited.verdicts, edited.steps), ("0 0 t 4\n", 4));
/// ```
pub fn edit_board<'v>(
    text: &[u8],
    edit: &[u8],
    memory: &mut Memory,
    board: &mut Board,
    verdicts: &'v mut [u8],
) -> Result<Edited<'v>, Refused> {
    let answer = calls::edit_board(text, edit, memory.lend(), &mut board.words, verdicts);
    checked(answer).map(|answer| Edited {
        verdicts: written(verdicts, answer),
        steps: answer.steps,
    })
}
