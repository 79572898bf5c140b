//! How far a text can be read that is no sentence.

use super::lines::{cut, shown_bytes};
use super::remedies::remedy;
use crate::read::kinds::is_arrow_step;
use crate::read::sentences::read_up_to;
use crate::read::tokens::tokens;
use crate::wording::spaced;

/// The place up to which a text is read, and how what stands there is written here.
pub fn no_sentence(text: &[u8]) -> Vec<String> {
    let tokens = tokens(text);
    let at = stop(&tokens);
    let letter = tokens.get(at).and_then(|token| outside_ascii(text, token));
    let before: Vec<String> = tokens[..at]
        .iter()
        .map(|token| shown_bytes(token))
        .collect();
    let before = spaced(&before);
    let before = match before.trim() {
        "" => "at its start".to_string(),
        before => format!("behind `{}`", last(before)),
    };
    let stopped = match (tokens.get(at), letter) {
        (Some(_), Some(letter)) => {
            format!(
                "it can't be read on {before}, where {} stands",
                named(letter)
            )
        }
        (Some(token), None) => format!(
            "it can't be read on {before}, where `{}` stands",
            cut(&shown_bytes(token), 40)
        ),
        (None, _) => format!("it ends too early, {before}"),
    };
    let remedy = remedy(&tokens, at, letter);
    std::iter::once(stopped).chain(remedy).collect()
}

/// The token at which a text fails. Of a step that there is not, the reader takes the word
/// before it fails.
fn stop(tokens: &[&[u8]]) -> usize {
    let read = read_up_to(tokens);
    match tokens[..read] {
        [.., b"->", word] if !is_arrow_step(word) => read - 1,
        _ => read,
    }
}

/// The letter outside ASCII that begins at a token: each of its bytes is a token.
fn outside_ascii(text: &[u8], token: &[u8]) -> Option<char> {
    let start = token.as_ptr() as usize - text.as_ptr() as usize;
    let rest = text.get(start..).filter(|rest| !rest[0].is_ascii())?;
    let lengths = 2..=rest.len().min(4);
    let mut letters = lengths.filter_map(|length| std::str::from_utf8(&rest[..length]).ok());
    letters.next()?.chars().next()
}

/// A letter outside ASCII with its bytes, by which the quoted line shows it. One that can't be
/// seen has its bytes alone.
fn named(letter: char) -> String {
    let bytes = shown_bytes(letter.to_string().as_bytes());
    let is_sign = matches!(letter, '\u{2010}'..='\u{2027}' | '\u{2190}'..='\u{22ff}' | '×' | '÷');
    if letter.is_alphanumeric() || is_sign {
        return format!("`{letter}`, {bytes},");
    }
    format!("`{bytes}`")
}

/// The end of a text.
fn last(text: &str) -> String {
    let count = text.chars().count();
    if count <= 60 {
        return text.to_string();
    }
    format!(".. {}", text.chars().skip(count - 60).collect::<String>())
}
