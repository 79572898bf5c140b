//! Rules in text: a day's work, and texts that are all about reading.

use super::cap::cap;
use crate::generate::chains::spread;
use crate::wording::in_text;

/// The sheet of a day's work with its rules in text.
pub fn told(seed: u64) -> Vec<u8> {
    let (told, left) = in_text(&cap(seed)).expect("a sheet that is read");
    assert!(left.is_empty(), "no Integer is below zero");
    told
}

/// A sheet of one rule, this many quantifiers in one text of six nodes each.
pub fn quantified(count: usize) -> Vec<u8> {
    let one = "#0.allInstances()->exists(v1 | v1.oclAsType(#0).isUndef())";
    rule(&spread(count, one, "or"))
}

/// A sheet of this many bytes, nearly all of them one sum, of more nodes than a sheet
/// may have.
pub fn sum(bytes: usize) -> Vec<u8> {
    let mut text = "(self.a5 + 12) * 7".to_string();
    while text.len() < bytes - 40 {
        text += " - self.a5 * 100";
    }
    rule(&text)
}

fn rule(text: &str) -> Vec<u8> {
    format!("C\t0\t-\nO\t0\t0\nR\t0\t0\nX\t{text}\n").into_bytes()
}
