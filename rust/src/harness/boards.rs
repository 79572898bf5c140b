//! One call about a running board: what is lent to it, and what it may leave of it.

use super::compare::{cut, first_unlike, GARBAGE, MARGIN};
use crate::calls::{self, Answer, Words, LEAST_BOARD, LEAST_WORDS, PROGRAM_OUTPUT};
use crate::generate::random::Random;
use crate::generate::turns::{Tampering, Turn, What};
use std::ops::Range;
use std::thread;

/// An implementation of the calls about boards.
pub trait Boards: Sync {
    /// The stack that the calls must do with; the caller's where there is none.
    fn stack(&self) -> Option<usize> {
        None
    }

    fn make(&self, text: &[u8], words: Words, board: &mut [u64], verdicts: &mut [u8]) -> Answer;

    fn edit(
        &self,
        text: &[u8],
        edit: &[u8],
        words: Words,
        board: &mut [u64],
        verdicts: &mut [u8],
    ) -> Answer;
}

/// The second evaluator's own.
pub struct Second;

impl Boards for Second {
    fn make(&self, text: &[u8], words: Words, board: &mut [u64], verdicts: &mut [u8]) -> Answer {
        calls::make_board(text, words, board, verdicts)
    }

    fn edit(
        &self,
        text: &[u8],
        edit: &[u8],
        words: Words,
        board: &mut [u64],
        verdicts: &mut [u8],
    ) -> Answer {
        calls::edit_board(text, edit, words, board, verdicts)
    }
}

/// The words and the verdict bytes of a board, in the middle of what is not lent.
#[derive(Clone)]
pub struct Slices {
    board: Vec<u64>,
    verdicts: Vec<u8>,
}

/// The most words and verdict bytes that are lent.
const MOST_BOARD: usize = LEAST_BOARD + 300;
const MOST_VERDICTS: usize = PROGRAM_OUTPUT;

impl Slices {
    pub fn garbage(random: &mut Random) -> Slices {
        let (words, bytes) = &*GARBAGE;
        Slices {
            board: cut(random, words, MOST_BOARD).to_vec(),
            verdicts: cut(random, bytes, MOST_VERDICTS).to_vec(),
        }
    }

    /// The first so many verdict bytes.
    pub fn verdicts(&self, length: usize) -> &[u8] {
        &self.verdicts[MARGIN..MARGIN + length.min(MOST_VERDICTS)]
    }

    /// Does to the board what is done between two calls.
    pub fn tamper(&mut self, how: Tampering, length: usize) {
        let (words, _) = &*GARBAGE;
        let board = &mut self.board[MARGIN..MARGIN + LEAST_BOARD];
        match how {
            Tampering::Bit { word, bit } => board[word] ^= 1 << bit,
            Tampering::Words(seed) => {
                let mut random = Random::new(seed);
                for _ in 0..random.between(1, 40) {
                    board[random.below(LEAST_BOARD)] = random.word() >> random.below(64);
                }
            }
            Tampering::AllWords(seed) => {
                let start = Random::new(seed).below(words.len() - LEAST_BOARD);
                board.copy_from_slice(&words[start..start + LEAST_BOARD]);
            }
            Tampering::NoWords => board.fill(0),
            Tampering::Bytes(seed) => {
                let mut random = Random::new(seed);
                for _ in 0..random.between(1, 40) {
                    let at = MARGIN + random.below(length.max(1));
                    self.verdicts[at] = random.word() as u8;
                }
            }
            Tampering::Text(_) => {}
        }
    }

    /// Where they differ from others outside these words and bytes.
    fn differ(&self, other: &Slices, words: Range<usize>, bytes: Range<usize>) -> Option<String> {
        if let Some(at) = unlike_outside(&self.board, &other.board, words) {
            return Some(format!("word {at} of the board was changed"));
        }
        let at = unlike_outside(&self.verdicts, &other.verdicts, bytes)?;
        Some(format!("verdict byte {at} was changed"))
    }
}

/// Where two slices differ first, outside what is in the range; both are counted from the
/// start of what is lent.
fn unlike_outside<T: PartialEq>(left: &[T], right: &[T], range: Range<usize>) -> Option<isize> {
    let (start, end) = (range.start + MARGIN, range.end + MARGIN);
    if left[..start] != right[..start] {
        return Some(first_unlike(left, right));
    }
    let unlike = left[end..] != right[end..];
    unlike.then(|| end as isize + first_unlike(&left[end..], &right[end..]))
}

/// An answer and, where the call did to what it was lent what it may not, how.
pub struct Called {
    pub answer: Answer,
    pub broken: Option<String>,
}

/// A call on a board, the garbage in its three word slices following from the seed.
pub fn call(
    boards: &dyn Boards,
    text: &[u8],
    turn: &Turn,
    seed: u64,
    slices: &mut Slices,
) -> Called {
    let mut random = Random::new(seed);
    let lent = turn
        .words
        .map(|length| cut(&mut random, &GARBAGE.0, length));
    let mut words = lent.map(<[u64]>::to_vec);
    let before = slices.clone();
    let copy = text.to_vec();
    let answer = on_stack(boards, &copy, turn, &mut words, slices);
    let broken = of_words(&lent, &words, answer.number)
        .or_else(|| (copy != text).then(|| "the text was changed".to_string()))
        .or_else(|| of_answer(turn, answer))
        .or_else(|| match (&turn.what, answer.number) {
            (_, 1) => slices.differ(&before, 0..0, 0..0),
            (What::Touched(..), _) => slices.differ(&before, 0..LEAST_BOARD, 0..turn.verdicts),
            (_, 0) => slices.differ(&before, 0..LEAST_BOARD, 0..answer.length as usize),
            _ => slices.differ(&before, 0..0, 0..0),
        });
    Called { answer, broken }
}

/// All words that are needed are zero afterwards, and the others as they were; after 1 all
/// are.
fn of_words(lent: &[&[u64]; 3], words: &[Vec<u64>; 3], number: u64) -> Option<String> {
    let zeros = if number == 1 { 0 } else { LEAST_WORDS };
    (0..3).find_map(|slice| {
        let (lent, words) = (lent[slice], &words[slice]);
        let zeros = zeros.min(lent.len() - 2 * MARGIN);
        let left = words[MARGIN..MARGIN + zeros]
            .iter()
            .position(|word| *word != 0);
        let at = left
            .map(|at| at as isize)
            .or_else(|| unlike_outside(lent, words, 0..zeros))?;
        Some(format!("word {at} of word slice {slice}"))
    })
}

/// An answer is no longer than what was lent, and a refusal writes nothing.
fn of_answer(turn: &Turn, answer: Answer) -> Option<String> {
    let most = if answer.number == 0 { turn.verdicts } else { 0 };
    (answer.length > most as u64).then(|| format!("{answer:?} of {} bytes", turn.verdicts))
}

fn on_stack(
    boards: &dyn Boards,
    text: &[u8],
    turn: &Turn,
    words: &mut [Vec<u64>; 3],
    slices: &mut Slices,
) -> Answer {
    let words = words.each_mut().map(|words| {
        let end = words.len() - MARGIN;
        &mut words[MARGIN..end]
    });
    let board = &mut slices.board[MARGIN..MARGIN + turn.board];
    let verdicts = &mut slices.verdicts[MARGIN..MARGIN + turn.verdicts];
    let call = || match &turn.what {
        What::Make => boards.make(text, words, board, verdicts),
        What::Edit(edit) | What::Touched(_, edit) => {
            boards.edit(text, edit, words, board, verdicts)
        }
    };
    let Some(stack) = boards.stack() else {
        return call();
    };
    thread::scope(|scope| {
        thread::Builder::new()
            .stack_size(stack)
            .spawn_scoped(scope, call)
            .expect("a thread can be started")
            .join()
            .expect("the call returns")
    })
}
