//! What is wrong with a text that is no sentence: the slips without which it is one.

use super::text_cases::TextCase;
use crate::read::sentences::sentence;
use crate::read::spelling::{self, Spelt, LAST_CLASS, LAST_DEFINITION, LAST_NAME, LAST_VARIABLE};
use crate::refusal::Refusal;

/// Longer texts are not tried word by word.
const MOST_TOKENS: usize = 200;

/// Which number outside its limits a word is, if it is one.
pub fn is_over(word: &[u8]) -> Option<TextCase> {
    fn over<T>(spelt: Spelt<T>, case: TextCase) -> Option<TextCase> {
        matches!(spelt, Err(Refusal::OutOfLimits)).then_some(case)
    }
    let number = |digits, least, most| spelling::number(digits, least, most);
    match word {
        [b'v', digits @ ..] => over(number(digits, 1, LAST_VARIABLE), TextCase::OverVariable),
        [b'a', digits @ ..] => over(number(digits, 0, LAST_NAME), TextCase::OverName),
        [b'#', digits @ ..] => over(number(digits, 0, LAST_CLASS), TextCase::OverClass),
        [b'd', digits @ ..] => over(number(digits, 0, LAST_DEFINITION), TextCase::OverDefinition),
        [b'r', ..] => over(spelling::real(word), TextCase::OverReal),
        _ => over(number(word, 0, i32::MAX as u64), TextCase::OverInteger),
    }
}

/// The slips that a text has, each the only thing that keeps it from a sentence.
pub fn mended(tokens: &[&[u8]]) -> Vec<TextCase> {
    let mut met = Vec::new();
    if tokens.len() > MOST_TOKENS {
        return met;
    }
    for place in 0..tokens.len() {
        let new = slip(tokens, place).filter(|case| !met.contains(case));
        met.extend(new);
    }
    met
}

/// The tokens with others in the place of some of them, and whether that is a
/// sentence.
fn reads(tokens: &[&[u8]], from: usize, to: usize, others: &[&[u8]]) -> bool {
    let changed = [&tokens[..from], others, &tokens[to..]].concat();
    sentence(&changed).is_some()
}

fn slip(tokens: &[&[u8]], place: usize) -> Option<TextCase> {
    let after = place + 1;
    let token = tokens[place];
    let case = match token {
        b"=" | b"<" => {
            let one = reads(tokens, place, after, &[b"+"]);
            one.then_some(TextCase::SecondComparison)
        }
        b"-" => reads(tokens, place, after, &[]).then_some(TextCase::OneSidedMinus),
        b"let" => {
            let inside = [&[b"(".as_slice()], &tokens[place..], &[b")"]].concat();
            let whole = reads(tokens, place, tokens.len(), &inside);
            whole.then_some(TextCase::LetInside)
        }
        b"," if tokens.iter().filter(|token| **token == b",").count() > 3 => {
            let four = after < tokens.len() && reads(tokens, place, after + 1, &[]);
            four.then_some(TextCase::FifthMember)
        }
        _ => None,
    };
    case.or_else(|| misspelt(tokens, place))
}

/// A word that is misspelt, or two that run together.
fn misspelt(tokens: &[&[u8]], place: usize) -> Option<TextCase> {
    let word = tokens[place];
    let reads = |others: &[&[u8]]| reads(tokens, place, place + 1, others);
    let label = usize::from(!word[0].is_ascii_digit());
    let (letter, digits) = word.split_at(label);
    let zeros = digits.iter().take_while(|digit| **digit == b'0').count();
    if zeros > 0 {
        // A zero alone is well spelt.
        let without = [letter, &digits[zeros.min(digits.len() - 1)..]].concat();
        if without != word && reads(&[&without]) {
            return Some(TextCase::LeadingZero);
        }
    }
    let whole = word.len() == 17 && spelling::real(word) == Err(Refusal::BadLine);
    if whole && word[0] == b'r' && reads(&[b"r3ff8000000000000"]) {
        return Some(TextCase::WholeReal);
    }
    let mut ends = 1..word.len();
    let two = ends.any(|end| reads(&[&word[..end], &word[end..]]));
    two.then_some(TextCase::RunTogether)
}
