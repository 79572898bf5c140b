//! Compares the product's calls and program with the second evaluator's.

pub mod astray;
pub mod board_cases;
pub mod board_tally;
mod board_values;
pub mod board_verdicts;
pub mod boards;
pub mod cases;
pub mod clock;
pub mod compare;
pub mod corrections;
pub mod definitions;
pub mod faults;
#[cfg(feature = "linked")]
pub mod linked;
pub mod mishandlings;
mod misjudged_edits;
pub mod misreadings;
mod named;
pub mod numberings;
pub mod numbers;
pub mod operations;
pub mod origin_cases;
pub mod origins;
pub mod oversights;
pub mod pairs;
pub mod profiles;
pub mod program;
pub mod reals;
pub mod run;
pub mod runs;
pub mod shrink;
pub mod slack;
pub mod slips;
pub mod soak;
pub mod standin;
pub mod tally;
pub mod text_cases;
pub mod texts;
pub mod vectors;

use crate::calls::{self, Answer, Words, LEAST_WORDS};
use crate::generate::{Ask, Call};

/// An implementation of the calls.
pub trait Calls: Sync {
    /// The stack that the calls must do with; the caller's where there is none.
    fn stack(&self) -> Option<usize> {
        None
    }

    /// The call, which reads nothing but the text and what is lent.
    fn call(&self, call: Call, text: &[u8], words: Words, out: &mut [u8]) -> Answer;
}

/// The second evaluator's own answer.
pub fn second(call: Call, text: &[u8], words: Words, out: &mut [u8]) -> Answer {
    match call {
        Call::Read => calls::read_types(text, words, out),
        Call::Evaluate { rule, object } => calls::evaluate_rule(text, rule, object, words, out),
        Call::Report => calls::report(text, words, out),
        Call::Rows => calls::rows(text, words, out),
        Call::FreeNumbering => calls::read_free_numbering(text, words, out),
        Call::Undefined => calls::undefined(text, words, out),
    }
}

/// The same, what it writes left aside.
pub fn answer(text: &[u8], ask: Ask) -> Answer {
    let mut slices: [Vec<u64>; 3] = ask.words.map(|length| vec![0; length.min(LEAST_WORDS)]);
    let words = slices.each_mut().map(Vec::as_mut_slice);
    let mut out = vec![0; ask.out];
    second(ask.call, text, words, &mut out)
}
