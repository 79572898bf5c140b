//! The product's calls, linked from its static library.

use super::boards::Boards;
use super::Calls;
use crate::calls::{Answer, Words};
use crate::generate::Call;
use ocl_checker::calls as product;

pub struct Linked {
    /// Of each call, if it gets one of its own.
    stack: Option<usize>,
}

impl Linked {
    /// On the stack that `docs/USING.md` says a call does with.
    pub const BOUNDED: Linked = Linked {
        stack: Some(192 * 1024),
    };
    /// On the caller's.
    pub const PLAIN: Linked = Linked { stack: None };
}

impl Calls for Linked {
    fn stack(&self) -> Option<usize> {
        self.stack
    }

    fn call(&self, call: Call, text: &[u8], words: Words, out: &mut [u8]) -> Answer {
        let answer = match call {
            Call::Read => product::read_types(text, words, out),
            Call::Evaluate { rule, object } => {
                product::evaluate_rule(text, rule, object, words, out)
            }
            Call::Report => product::report(text, words, out),
            Call::Rows => product::rows(text, words, out),
            Call::FreeNumbering => product::read_free_numbering(text, words, out),
            Call::Undefined => product::undefined(text, words, out),
        };
        told(answer)
    }
}

fn told(answer: product::Answer) -> Answer {
    Answer {
        number: answer.number,
        steps: answer.steps,
        place: answer.place,
        length: answer.length,
    }
}

impl Boards for Linked {
    fn stack(&self) -> Option<usize> {
        self.stack
    }

    fn make(&self, text: &[u8], words: Words, board: &mut [u64], verdicts: &mut [u8]) -> Answer {
        told(product::make_board(text, words, board, verdicts))
    }

    fn edit(
        &self,
        text: &[u8],
        edit: &[u8],
        words: Words,
        board: &mut [u64],
        verdicts: &mut [u8],
    ) -> Answer {
        told(product::edit_board(text, edit, words, board, verdicts))
    }
}
