//! Calls of the second evaluator, with all that was lent checked.

mod text;

use second_evaluator::calls::{self, Answer, Words};
pub use text::text;

/// The answer and what was written, with all that was lent checked.
pub fn lent(call: impl Fn(Words, &mut [u8]) -> Answer) -> (Answer, String) {
    lent_with([8_192, 8_193, 9_000], 2_560, call)
}

pub fn lent_with(
    lengths: [usize; 3],
    room: usize,
    call: impl Fn(Words, &mut [u8]) -> Answer,
) -> (Answer, String) {
    let mut slices = lengths.map(|length| vec![7; length]);
    let mut out = vec![b'~'; room];
    let answer = call(slices.each_mut().map(Vec::as_mut_slice), &mut out);
    let wiped = if answer.number == 1 { 0 } else { 8_192 };
    for slice in &slices {
        assert!(slice[..wiped].iter().all(|word| *word == 0));
        assert!(slice[wiped..].iter().all(|word| *word == 7));
    }
    let length = answer.length as usize;
    assert!(out[length..].iter().all(|byte| *byte == b'~'));
    (answer, String::from_utf8(out[..length].to_vec()).unwrap())
}

pub fn answer(number: u64, steps: u64, place: u64, written: &str) -> (Answer, String) {
    let length = written.len() as u64;
    let answer = Answer {
        number,
        steps,
        place,
        length,
    };
    (answer, written.to_string())
}

pub fn read(sheet: &str) -> (Answer, String) {
    lent(|words, out| calls::read_types(&text(sheet), words, out))
}

pub fn evaluate_on(sheet: &str, rule: u64, object: u64) -> (Answer, String) {
    lent(|words, out| calls::evaluate_rule(&text(sheet), rule, object, words, out))
}
