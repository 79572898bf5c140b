//! A refused sheet in words.

use super::advice::advice;
use super::hints::hints;
use super::lines::{numbered, Lines};
use super::typed::Typed;
use crate::wording::shown;

/// The refusal, the line that is to blame, the rule that it stands in, and what to look at.
pub fn refused(text: &[u8], number: u64, place: usize) -> String {
    let lines = Lines::new(text);
    let Some(advice) = advice(number) else {
        return format!("Refused with {number}, which no document names.\n");
    };
    let mut out = heading(advice.word, number, place);
    out += &format!(".\n  means    {}.\n", advice.meaning);
    if place > 0 {
        let line = if number == 3 {
            lines.with_tabs(place)
        } else {
            lines.quoted(place)
        };
        out += &numbered(place, &line);
        if let Some(head) = lines.head(place).filter(|head| *head < place) {
            out += &format!("  below    {}\n", lines.named(head));
        }
    }
    let typed = matches!(number, 9..=13)
        .then(|| Typed::new(text, number, place))
        .flatten();
    if let Some(typed) = &typed {
        let (rule, part) = (shown(typed.root()), shown(typed.blamed()));
        out += &format!("  rule     {rule}\n");
        if part != rule {
            out += &format!("  part     {part}\n");
        }
    }
    // A number that is asked for without a sheet has no line.
    if place > 0 {
        for hint in hints(&lines, typed.as_ref(), number, place) {
            out += &format!("  here     {hint}.\n");
        }
    }
    out += &format!("  look at  {}.\n", advice.look);
    out
}

/// What it is, by its word and number, and where.
fn heading(word: &str, number: u64, place: usize) -> String {
    // A stop ends one verdict, and the sheet is accepted.
    let what = match number {
        16 | 17 | 19 => "Stopped",
        _ => "Refused",
    };
    let at = match place {
        0 => String::new(),
        _ => format!(" at line {place}"),
    };
    format!("{what}: {word} ({number}){at}")
}
