//! What each word and sign of a text is, by its spelling alone.

use super::spelling::{number, real, LAST_CLASS, LAST_DEFINITION, LAST_NAME, LAST_VARIABLE};
use super::tokens::is_of_word;

/// The kind of a word or sign, as an editor may show it.
pub fn kind(token: &[u8]) -> &'static str {
    match token {
        b"let" | b"in" | b"if" | b"then" | b"else" | b"endif" => "keyword",
        b"and" | b"or" | b"not" | b"div" | b"mod" => "word operator",
        b"true" | b"false" | b"undef" => "constant",
        b"self" => "self",
        b"Set" | b"Sequence" | b"Bag" => "type",
        b"Void" | b"Bool" | b"Int" | b"Real" | b"Any" | b"S" | b"Q" | b"B" | b"C" => "type",
        b"allInstances" | b"isUndef" | b"oclAsType" => "step",
        _ if is_arrow_step(token) => "step",
        b"." | b"->" => "accessor",
        b"+" | b"-" | b"*" | b"/" | b"=" | b"<" => "sign",
        b"(" | b")" | b"{" | b"}" => "bracket",
        b"," | b";" | b":" | b"|" => "separator",
        [b'r', ..] if real(token).is_ok() => "real",
        _ if number(token, 0, i32::MAX as u64).is_ok() => "integer",
        _ => label(token),
    }
}

/// Whether a word is a step that stands behind an arrow.
pub fn is_arrow_step(token: &[u8]) -> bool {
    matches!(
        token,
        b"size"
            | b"asSet"
            | b"asBag"
            | b"asSequence"
            | b"collect"
            | b"includes"
            | b"including"
            | b"union"
            | b"forAll"
            | b"exists"
            | b"iter"
    )
}

/// A letter with a number behind it, or nothing that a text knows.
fn label(token: &[u8]) -> &'static str {
    let labels = [
        (b'v', 1, LAST_VARIABLE, "variable"),
        (b'#', 0, LAST_CLASS, "class"),
        (b'a', 0, LAST_NAME, "attribute"),
        (b'd', 0, LAST_DEFINITION, "definition"),
    ];
    let found = labels.iter().find(|(letter, least, most, _)| {
        let digits = token.strip_prefix(&[*letter]);
        digits.is_some_and(|digits| number(digits, *least, *most).is_ok())
    });
    match found {
        Some((.., kind)) => kind,
        None if token.iter().copied().all(is_of_word) => "unknown word",
        None => "unknown sign",
    }
}
