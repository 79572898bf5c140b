//! What can be seen of a refused line itself.

use super::known::{on_the_sheet, slot};
use super::limits::over;
use super::lines::Lines;
use super::operands::{operands, unnamed};
use super::order::out_of_row;
use super::spelling::misspelt;
use super::texts::no_sentence;
use super::trees::no_tree;
use super::typed::Typed;

/// What is seen of the line with this refusal.
pub fn hints(lines: &Lines, typed: Option<&Typed>, number: u64, place: usize) -> Vec<String> {
    let hint = match (number, typed) {
        (3, _) => return misspelt(lines, place),
        (4, _) => over(lines, place),
        (5, _) => out_of_row(lines, place),
        (6 | 23 | 24, _) => on_the_sheet(lines, place),
        (7, _) => slot(lines, place),
        (8, _) => return no_tree(lines, place),
        (20, _) => {
            let text = lines.bytes(place).strip_prefix(b"X\t");
            return text.map(no_sentence).unwrap_or_default();
        }
        (12, Some(typed)) => unnamed(typed),
        (9..=13, Some(typed)) => return operands(typed, number),
        _ => None,
    };
    hint.into_iter().collect()
}
