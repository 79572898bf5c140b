//! Rules in text: those of any sheet, written with spaces and brackets in all places.

use super::random::Random;
use super::slips::change_text;
use crate::read::read;
use crate::tree::{Form, Node};
use crate::wording::{is_word, spaced, worded};

/// A sheet that is read with most of its rules in text; none where it is not read.
/// Integers below zero are computed, since a text has none.
pub fn retold(random: &mut Random, text: &[u8]) -> Option<Vec<u8>> {
    let mut rules = read(text).ok()?.rules.into_iter();
    let mut told = Vec::new();
    let mut is_told = false;
    for line in text.split_inclusive(|byte| *byte == b'\n') {
        if is_told && matches!(line[0], b'N' | b'X') {
            continue;
        }
        told.extend(line);
        is_told = false;
        if line[0] == b'R' && !random.one_in(6) {
            let mut root = rules.next()?.root;
            without_minus(&mut root);
            told.extend(b"X\t");
            told.extend(any_text(random, &root)?.as_bytes());
            told.push(b'\n');
            is_told = true;
        } else if line[0] == b'R' {
            rules.next();
        }
    }
    Some(told)
}

/// A sheet with a slip in one of its texts, if it has any.
pub fn slipped(random: &mut Random, text: Vec<u8>) -> Vec<u8> {
    let mut lines: Vec<&[u8]> = text.split_inclusive(|byte| *byte == b'\n').collect();
    let texts: Vec<usize> = (0..lines.len())
        .filter(|line| lines[*line].starts_with(b"X\t"))
        .collect();
    if texts.is_empty() {
        return text;
    }
    let chosen = *random.pick(&texts);
    let field = lines[chosen].strip_prefix(b"X\t").unwrap_or_default();
    let mut field = field.strip_suffix(b"\n").unwrap_or(field).to_vec();
    change_text(random, &mut field);
    let line = [b"X\t", field.as_slice(), b"\n"].concat();
    lines[chosen] = &line;
    lines.concat()
}

/// A tree in text: its brackets as few as can be, or more; its spaces as people write
/// them, as few as can be, or anywhere.
fn any_text(random: &mut Random, root: &Node) -> Option<String> {
    let often = *random.pick(&[0, 0, 3, 12]);
    let mut more = || match often {
        0 => 0,
        often if random.one_in(often) => random.between(1, 2),
        _ => 0,
    };
    let tokens = worded(root, &mut more)?;
    Some(match random.below(3) {
        0 => spaced(&tokens),
        1 => scattered(random, &tokens, 0),
        _ => scattered(random, &tokens, 3),
    })
}

/// Tokens with up to so many spaces around each; two words have one at least.
pub fn scattered(random: &mut Random, tokens: &[String], most: usize) -> String {
    let mut text = String::new();
    let mut after_word = false;
    for token in tokens {
        let word = is_word(token);
        let least = usize::from(after_word && word);
        text += &" ".repeat(random.between(least, most.max(least)));
        text += token;
        after_word = word;
    }
    text + &" ".repeat(random.between(0, most))
}

fn without_minus(node: &mut Node) {
    if let Form::Int(number @ ..0) = node.form {
        let line = node.line;
        let leaf = |number| Node {
            form: Form::Int(number),
            operands: Vec::new(),
            line,
            ty: None,
        };
        let minus = |left, right| Node {
            form: Form::Minus(None),
            operands: vec![left, right],
            line,
            ty: None,
        };
        // The least Integer has no opposite one.
        *node = match number.checked_neg() {
            Some(opposite) => minus(leaf(0), leaf(opposite)),
            None => minus(minus(leaf(0), leaf(i32::MAX)), leaf(1)),
        };
    }
    for operand in &mut node.operands {
        without_minus(operand);
    }
}
