//! The rule checker of job sheets: reads a sheet, types its rules, evaluates
//! them, writes the report, tells which rows a rule sees and where undefined came from,
//! and holds a sheet to the free-numbering profile. What the functions answer is proved;
//! this crate only lends them memory and turns their answers into [`Result`]s.
//!
//! Numbers that are not whole are binary64. Floating point has to be in the state in
//! which a program starts: it rounds to nearest and keeps subnormal numbers.
//!
//! Nothing is kept between calls: each reads the text anew. So a [`Memory`]
//! serves any number of calls, one after the other; threads take one each. No
//! function allocates, and none touches anything but what it is lent.
//!
//! ```
//! use ocl_checker::{evaluate_rule, read_types, report, Memory, LEAST_OUTPUT};
//!
//! // A class, two objects of it, and the rule "1 is less than 2".
//! let sheet = b"C\t0\t-\nO\t0\t0\nO\t1\t0\nR\t0\t0\nN\t0\tint\t1\nN\t1\tint\t2\nN\t2\tless\t0\t1\n";
//! let mut memory = Box::new(Memory::new());
//! let mut output = [0; LEAST_OUTPUT];
//! let types = read_types(sheet, &mut memory, &mut output).unwrap();
//! assert_eq!(types.collect::<Vec<_>>(), ["Bool"]);
//! let evaluated = evaluate_rule(sheet, 0, 1, &mut memory, &mut output).unwrap();
//! assert_eq!((evaluated.value, evaluated.steps), ("t", 3));
//! assert_eq!(report(sheet, &mut memory, &mut output), Ok("0 0 t 3\n0 1 t 3\n"));
//! ```

#![no_std]

mod board;
pub mod calls;
mod refusal;

pub use board::{edit_board, make_board, Board, Edited};

use calls::{Answer, Words};
use core::str::Lines;
pub use refusal::{Refusal, Refused};

/// This crate's version, which is that of the library it is made for.
pub const VERSION: &str = env!("CARGO_PKG_VERSION");
/// The fewest words of each of the three slices that a call is lent.
pub const LEAST_WORDS: usize = 8_192;
/// The fewest bytes of an output. Every value fits, and so do the types of all
/// rules.
pub const LEAST_OUTPUT: usize = 2_560;
/// The fewest words of a running board.
pub const LEAST_BOARD: usize = 8_192;
/// The fewest bytes for a board's verdicts.
pub const LEAST_VERDICTS: usize = 2_560;
/// The most bytes of a sheet.
pub const LONGEST_TEXT: usize = 49_152;
/// The bytes that the program `ocl_report` lends for a report.
pub const REPORT_OUTPUT: usize = 65_536;
/// The most steps of an evaluation.
pub const MOST_STEPS: u64 = 1_000_000;

/// The working memory of a call: three slices of words, 192 KiB in all. It can
/// stand in a `static`, or in a [`Box`]. After each call it is all zero.
///
/// [`Box`]: https://doc.rust-lang.org/std/boxed/struct.Box.html
pub struct Memory {
    words: [[u64; LEAST_WORDS]; 3],
}

impl Memory {
    /// New memory, all zero.
    pub const fn new() -> Memory {
        Memory {
            words: [[0; LEAST_WORDS]; 3],
        }
    }

    fn lend(&mut self) -> Words<'_> {
        self.words.each_mut().map(|words| words.as_mut_slice())
    }
}

impl Default for Memory {
    fn default() -> Memory {
        Memory::new()
    }
}

/// What a rule comes to for an object.
#[derive(Clone, Copy, PartialEq, Eq, Debug)]
pub struct Evaluated<'o> {
    /// The value as sheets spell it, `u` where it is undefined. A number that is
    /// no Integer has `r` and the 16 hexadecimal digits of its bits.
    pub value: &'o str,
    /// The steps it took.
    pub steps: u64,
}

/// Reads a sheet and types its definitions and all its rules. Answers with the
/// rules' types in order, as `Bool` or `S(#2)`, which stand in the output, one a
/// line. A sheet is accepted only if all its definitions and rules type.
///
/// # Errors
///
/// Why it is refused: [`Refusal::SheetTooLong`] to [`Refusal::MalformedTree`],
/// [`Refusal::CallUpward`] and [`Refusal::UnknownDefinition`], or
/// [`Refusal::UnboundVariable`] to [`Refusal::TypeTooDeep`] where a definition or a
/// rule has no type; [`Refusal::ShortSlice`] where the output has fewer than
/// [`LEAST_OUTPUT`] bytes.
///
/// ```
/// use ocl_checker::{read_types, Memory, Refusal, LEAST_OUTPUT};
///
/// let mut memory = Box::new(Memory::new());
/// let mut output = [0; LEAST_OUTPUT];
/// let sheet = b"C\t0\t-\nR\t0\t0\nN\t0\tself\nR\t1\t0\nN\t0\tint\t7\n";
/// let types = read_types(sheet, &mut memory, &mut output).unwrap();
/// assert_eq!(types.collect::<Vec<_>>(), ["#0", "Int"]);
/// let refused = read_types(b"C\t0\t-\nC\t1\t7\n", &mut memory, &mut output).unwrap_err();
/// assert_eq!((refused.refusal(), refused.place), (Some(Refusal::UnknownReference), 2));
/// ```
pub fn read_types<'o>(
    text: &[u8],
    memory: &mut Memory,
    output: &'o mut [u8],
) -> Result<Lines<'o>, Refused> {
    let answer = calls::read_types(text, memory.lend(), output);
    checked(answer).map(|answer| written(output, answer).lines())
}

/// Does what [`read_types`] does, and holds the sheet to the free-numbering profile: no
/// rule, and no definition that a rule reaches, may have an `iter`, an `asSequence`, or a
/// `union`, `including` or `collect` on a type `Q(..)`, run or not. What such rules
/// answer does not follow from how the objects are numbered.
///
/// # Errors
///
/// What [`read_types`] refuses; then [`Refusal::OutsideProfile`], at the lowest line of
/// such a node.
///
/// ```
/// use ocl_checker::{read_free_numbering, Memory, Refusal, LEAST_OUTPUT};
///
/// let mut memory = Box::new(Memory::new());
/// let mut output = [0; LEAST_OUTPUT];
/// let sheet = b"C\t0\t-\nR\t0\t0\nX\t#0.allInstances()->size()\n";
/// let types = read_free_numbering(sheet, &mut memory, &mut output).unwrap();
/// assert_eq!(types.collect::<Vec<_>>(), ["Int"]);
/// let sheet = b"C\t0\t-\nR\t0\t0\nX\t#0.allInstances()->asSequence()\n";
/// let refused = read_free_numbering(sheet, &mut memory, &mut output).unwrap_err();
/// assert_eq!((refused.refusal(), refused.place), (Some(Refusal::OutsideProfile), 3));
/// ```
pub fn read_free_numbering<'o>(
    text: &[u8],
    memory: &mut Memory,
    output: &'o mut [u8],
) -> Result<Lines<'o>, Refused> {
    let answer = calls::read_free_numbering(text, memory.lend(), output);
    checked(answer).map(|answer| written(output, answer).lines())
}

/// Evaluates a rule for an object, both counted from 0, as on the sheet. The value
/// stands in the output.
///
/// # Errors
///
/// What [`read_types`] refuses, whichever rule is asked for; then
/// [`Refusal::NotFound`] where there is no such rule or object, and
/// [`Refusal::OtherClass`] where the rule does not apply to it;
/// [`Refusal::StepStop`], [`Refusal::SizeStop`] and [`Refusal::OverRange`], with
/// the steps.
///
/// ```
/// use ocl_checker::{evaluate_rule, Memory, Refusal, LEAST_OUTPUT};
///
/// let sheet = b"C\t0\t-\nO\t0\t0\nR\t0\t0\nN\t0\tundef\n";
/// let mut memory = Box::new(Memory::new());
/// let mut output = [0; LEAST_OUTPUT];
/// let evaluated = evaluate_rule(sheet, 0, 0, &mut memory, &mut output).unwrap();
/// assert_eq!(evaluated.value, "u");
/// let refused = evaluate_rule(sheet, 0, 1, &mut memory, &mut output).unwrap_err();
/// assert_eq!(refused.refusal(), Some(Refusal::NotFound));
/// ```
pub fn evaluate_rule<'o>(
    text: &[u8],
    rule: u64,
    object: u64,
    memory: &mut Memory,
    output: &'o mut [u8],
) -> Result<Evaluated<'o>, Refused> {
    let answer = calls::evaluate_rule(text, rule, object, memory.lend(), output);
    checked(answer).map(|answer| Evaluated {
        value: written(output, answer),
        steps: answer.steps,
    })
}

/// The report: a line for each rule and each object it applies to, with value and
/// steps. A stop is written in its line as `!16`, `!17` or `!19`, and the report
/// goes on.
///
/// # Errors
///
/// What [`read_types`] refuses; [`Refusal::ReportTooLong`] where the report is
/// longer than the output.
pub fn report<'o>(
    text: &[u8],
    memory: &mut Memory,
    output: &'o mut [u8],
) -> Result<&'o str, Refused> {
    let answer = calls::report(text, memory.lend(), output);
    checked(answer).map(|answer| written(output, answer))
}

/// The rows that each rule sees: a line for each rule, with the rule and then its
/// rows, ascending. A rule sees a row if one of its nodes, or of a definition that it
/// reaches, reads the row, whether that node is ever run or not. The values of all
/// other rows can change nothing in what [`evaluate_rule`] answers for it.
///
/// # Errors
///
/// What [`read_types`] refuses; [`Refusal::ReportTooLong`] where the lines are longer
/// than the output. They have at most 11,830 bytes.
///
/// ```
/// use ocl_checker::{rows, Memory, LEAST_OUTPUT};
///
/// // Two rows; rule 0 reads the second, and rule 1 none.
/// let sheet = b"C\t0\t-\nA\t0\t0\t5\tInt\nA\t1\t0\t6\tInt\n\
///     R\t0\t0\nX\tself.a6 < 12\nR\t1\t0\nX\ttrue\n";
/// let mut memory = Box::new(Memory::new());
/// let mut output = [0; LEAST_OUTPUT];
/// assert_eq!(rows(sheet, &mut memory, &mut output), Ok("0 1\n1\n"));
/// ```
pub fn rows<'o>(
    text: &[u8],
    memory: &mut Memory,
    output: &'o mut [u8],
) -> Result<&'o str, Refused> {
    let answer = calls::rows(text, memory.lend(), output);
    checked(answer).map(|answer| written(output, answer))
}

/// Where undefined came from: a line for each undefined verdict of the [`report`], in its
/// order, with the rule, the object, the line of the sheet and the step at which undefined
/// arose. Steps are counted as [`evaluate_rule`] counts them: the rule's root begins at
/// step 1. Other verdicts have no line.
///
/// # Errors
///
/// What [`read_types`] refuses; [`Refusal::ReportTooLong`] where the lines are longer
/// than the output.
///
/// ```
/// use ocl_checker::{report, undefined, Memory, LEAST_OUTPUT};
///
/// // Object 1 has no value in row 0, which is asked for on line 7, at step 2.
/// let sheet = b"C\t0\t-\nA\t0\t0\t5\tInt\nO\t0\t0\nO\t1\t0\nV\t0\t0\t9\nR\t0\t0\nX\tself.a5 < 12\n";
/// let mut memory = Box::new(Memory::new());
/// let mut output = [0; LEAST_OUTPUT];
/// assert_eq!(report(sheet, &mut memory, &mut output), Ok("0 0 t 4\n0 1 u 3\n"));
/// assert_eq!(undefined(sheet, &mut memory, &mut output), Ok("0 1 7 2\n"));
/// ```
pub fn undefined<'o>(
    text: &[u8],
    memory: &mut Memory,
    output: &'o mut [u8],
) -> Result<&'o str, Refused> {
    let answer = calls::undefined(text, memory.lend(), output);
    checked(answer).map(|answer| written(output, answer))
}

/// The answer, or its refusal.
fn checked(answer: Answer) -> Result<Answer, Refused> {
    match answer {
        Answer { number: 0, .. } => Ok(answer),
        Answer {
            number,
            steps,
            place,
            ..
        } => Err(Refused {
            number,
            steps,
            place,
        }),
    }
}

/// What the call wrote.
fn written(output: &[u8], answer: Answer) -> &str {
    let bytes = &output[..answer.length as usize];
    core::str::from_utf8(bytes).expect("what a call writes is ASCII")
}
