//! The calls as they are exported, on slices of any length: the answer's four
//! numbers, and no `Result`. The functions of the crate's root call these.

#![allow(unsafe_code)]

/// What a call returns.
#[repr(C)]
#[derive(Clone, Copy, PartialEq, Eq, Debug)]
pub struct Answer {
    /// 0 for an answer, else the number of a [`Refusal`](crate::Refusal).
    pub number: u64,
    /// The steps of an evaluation, also of one that was stopped; else 0.
    pub steps: u64,
    /// The line that is to blame, counted from 1; 0 where there is none.
    pub place: u64,
    /// The bytes written to the output; 0 for a refusal.
    pub length: u64,
}

/// The three word slices that a call is lent. A slice below
/// [`LEAST_WORDS`](crate::LEAST_WORDS) words is refused, and all is left as it
/// was. Else that many words of each are 0 afterwards, the others as they were.
pub type Words<'w> = [&'w mut [u64]; 3];

// A slice is a pointer and a length in elements.
extern "C" {
    fn ocl_read_sheet(
        text: *const u8,
        text_length: usize,
        words0: *mut u64,
        words0_length: usize,
        words1: *mut u64,
        words1_length: usize,
        words2: *mut u64,
        words2_length: usize,
        output: *mut u8,
        output_length: usize,
    ) -> Answer;

    fn ocl_read_free_numbering(
        text: *const u8,
        text_length: usize,
        words0: *mut u64,
        words0_length: usize,
        words1: *mut u64,
        words1_length: usize,
        words2: *mut u64,
        words2_length: usize,
        output: *mut u8,
        output_length: usize,
    ) -> Answer;

    fn ocl_evaluate_rule(
        text: *const u8,
        text_length: usize,
        rule: u64,
        object: u64,
        words0: *mut u64,
        words0_length: usize,
        words1: *mut u64,
        words1_length: usize,
        words2: *mut u64,
        words2_length: usize,
        output: *mut u8,
        output_length: usize,
    ) -> Answer;

    fn ocl_report(
        text: *const u8,
        text_length: usize,
        words0: *mut u64,
        words0_length: usize,
        words1: *mut u64,
        words1_length: usize,
        words2: *mut u64,
        words2_length: usize,
        output: *mut u8,
        output_length: usize,
    ) -> Answer;

    fn ocl_rows(
        text: *const u8,
        text_length: usize,
        words0: *mut u64,
        words0_length: usize,
        words1: *mut u64,
        words1_length: usize,
        words2: *mut u64,
        words2_length: usize,
        output: *mut u8,
        output_length: usize,
    ) -> Answer;

    fn ocl_undefined(
        text: *const u8,
        text_length: usize,
        words0: *mut u64,
        words0_length: usize,
        words1: *mut u64,
        words1_length: usize,
        words2: *mut u64,
        words2_length: usize,
        output: *mut u8,
        output_length: usize,
    ) -> Answer;

    fn ocl_make_board(
        text: *const u8,
        text_length: usize,
        words0: *mut u64,
        words0_length: usize,
        words1: *mut u64,
        words1_length: usize,
        words2: *mut u64,
        words2_length: usize,
        board: *mut u64,
        board_length: usize,
        verdicts: *mut u8,
        verdicts_length: usize,
    ) -> Answer;

    fn ocl_edit_board(
        text: *const u8,
        text_length: usize,
        edit: *const u8,
        edit_length: usize,
        words0: *mut u64,
        words0_length: usize,
        words1: *mut u64,
        words1_length: usize,
        words2: *mut u64,
        words2_length: usize,
        board: *mut u64,
        board_length: usize,
        verdicts: *mut u8,
        verdicts_length: usize,
    ) -> Answer;
}

/// A call: what it reads, its numbers, the words and what else is written to.
macro_rules! call {
    ($call:ident, [$($read:ident)*], [$($number:ident)*], $words:ident, [$($output:ident)*]) => {{
        let [words0, words1, words2] = $words;
        // SAFETY: each pointer and length are those of a slice that lives as long
        // as the call, and none that is written to overlaps another one, since it is
        // mutable. The call asks nothing else of its caller.
        unsafe {
            $call(
                $($read.as_ptr(), $read.len(),)*
                $($number,)*
                words0.as_mut_ptr(),
                words0.len(),
                words1.as_mut_ptr(),
                words1.len(),
                words2.as_mut_ptr(),
                words2.len(),
                $($output.as_mut_ptr(), $output.len(),)*
            )
        }
    }};
}

/// Reads a sheet, types all its rules and writes the types, one a line.
pub fn read_types(text: &[u8], words: Words, output: &mut [u8]) -> Answer {
    call!(ocl_read_sheet, [text], [], words, [output])
}

/// Reads and types likewise, and holds the sheet to the free-numbering profile.
pub fn read_free_numbering(text: &[u8], words: Words, output: &mut [u8]) -> Answer {
    call!(ocl_read_free_numbering, [text], [], words, [output])
}

/// Reads and types, evaluates a rule for an object and writes its value.
pub fn evaluate_rule(
    text: &[u8],
    rule: u64,
    object: u64,
    words: Words,
    output: &mut [u8],
) -> Answer {
    call!(ocl_evaluate_rule, [text], [rule object], words, [output])
}

/// Reads and types, evaluates all rules and writes the report.
pub fn report(text: &[u8], words: Words, output: &mut [u8]) -> Answer {
    call!(ocl_report, [text], [], words, [output])
}

/// Reads and types, and writes the rows that each rule sees, a line for each rule.
pub fn rows(text: &[u8], words: Words, output: &mut [u8]) -> Answer {
    call!(ocl_rows, [text], [], words, [output])
}

/// Reads and types, evaluates all rules and writes where undefined came from, a line for
/// each undefined verdict.
pub fn undefined(text: &[u8], words: Words, output: &mut [u8]) -> Answer {
    call!(ocl_undefined, [text], [], words, [output])
}

/// Makes a board of a sheet: its words, at least
/// [`LEAST_BOARD`](crate::LEAST_BOARD), hold the sheet's values, and its verdicts, at
/// least [`LEAST_VERDICTS`](crate::LEAST_VERDICTS) bytes, the report.
pub fn make_board(text: &[u8], words: Words, board: &mut [u64], verdicts: &mut [u8]) -> Answer {
    call!(ocl_make_board, [text], [], words, [board verdicts])
}

/// Edits a board of the sheet by a V line, or by one with `-` for the value.
pub fn edit_board(
    text: &[u8],
    edit: &[u8],
    words: Words,
    board: &mut [u64],
    verdicts: &mut [u8],
) -> Answer {
    call!(ocl_edit_board, [text edit], [], words, [board verdicts])
}
