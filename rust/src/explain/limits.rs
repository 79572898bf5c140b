//! Which limit a line passes that is well spelled.

use super::fields::{of_line, Field};
use super::lines::{cut, shown_bytes, Lines};
use crate::read::nodes::MOST_NODES;
use crate::read::spelling::{integer, real};
use crate::read::tokens::{most_open, tokens, MOST_OPEN};
use crate::read::{MOST_VALUES, MOST_VALUE_SIZES};
use crate::refusal::Refusal;
use crate::types::DEEPEST;
use crate::values::LARGEST;

/// The limit that the line passes.
pub fn over(lines: &Lines, place: usize) -> Option<String> {
    let split = lines.fields(place);
    if split[0] == b"X" {
        return split.get(1).map(|text| over_in_text(&tokens(text)));
    }
    let fields = of_line(&split)?;
    let outside = |(field, spelt): &(&Field, &&[u8])| is_over(field.refusal(spelt));
    match fields.iter().zip(&split[1..]).find(outside) {
        Some((field, spelt)) => Some(over_in_field(*field, spelt)),
        None => over_in_all(lines, place, split[0]),
    }
}

fn is_over(refusal: Option<Refusal>) -> bool {
    refusal == Some(Refusal::OutOfLimits)
}

/// A line that is one too many, or the values that are too large together.
fn over_in_all(lines: &Lines, place: usize, letter: &[u8]) -> Option<String> {
    let before = || (1..place).filter(|line| lines.fields(*line)[0] == letter);
    Some(match letter {
        b"V" if before().count() >= MOST_VALUES => {
            format!("there are {MOST_VALUES} V lines before it, as many as may be")
        }
        b"V" => format!("with it the sizes of all values come to more than {MOST_VALUE_SIZES}"),
        b"N" => format!("with it the sheet has more than {MOST_NODES} nodes"),
        _ => return None,
    })
}

fn over_in_field(field: Field, spelt: &[u8]) -> String {
    let named = cut(&shown_bytes(spelt), 40);
    match (field, field.range()) {
        (_, Some(([_, many], least, most))) => outside(&named, many, least, most),
        (Field::Type, _) => over_in_type(spelt),
        (Field::Real, _) => no_number(&named),
        (Field::Integer, _) => out_of_integers(&named),
        _ => over_in_value(spelt),
    }
}

fn outside(named: &str, many: &str, least: u64, most: u64) -> String {
    match least {
        0 => format!("{named} is too much: {many} go to {most}"),
        _ => format!("{named} is out of range: {many} go from {least} to {most}"),
    }
}

fn out_of_integers(named: &str) -> String {
    let (least, most) = (i32::MIN, i32::MAX);
    format!("{named} is out of range: Integers go from {least} to {most}")
}

fn no_number(named: &str) -> String {
    format!("{named} has the bits of an infinity or a NaN, which are no numbers")
}

/// A class that is too large, or else letters that are too many.
fn over_in_type(spelt: &[u8]) -> String {
    let words = spelt.split(|byte| b"()".contains(byte));
    let mut labels = words.filter_map(over_in_label);
    labels.next().unwrap_or(too_deep())
}

fn too_deep() -> String {
    format!("over {DEEPEST} of the letters S, Q, B and C stand inside one another")
}

/// A part that is too large, or else too many letters or members.
fn over_in_value(spelt: &[u8]) -> String {
    let parts = spelt.split(|byte| b"(),".contains(byte));
    let over = parts.filter_map(|part| match part {
        [b'@', ..] => over_in_label(part),
        [b'r', ..] => is_over(real(part).err()).then(|| no_number(&shown_bytes(part))),
        _ => is_over(integer(part).err()).then(|| out_of_integers(&shown_bytes(part))),
    });
    let mut open: usize = 0;
    let mut deepest = 0;
    for byte in spelt {
        open = match byte {
            b'(' => open + 1,
            b')' => open.saturating_sub(1),
            _ => open,
        };
        deepest = deepest.max(open);
    }
    let all = if deepest > DEEPEST {
        too_deep()
    } else {
        format!("its size is over {LARGEST}: 1, and the sizes of its members")
    };
    over.take(1).next().unwrap_or(all)
}

/// A letter with a number behind it that is out of its range.
fn over_in_label(word: &[u8]) -> Option<String> {
    let labels = [
        Field::Variable,
        Field::Class,
        Field::Name,
        Field::Definition,
        Field::Object,
    ];
    let (first, digits) = word.split_first()?;
    let field = labels
        .into_iter()
        .find(|field| field.letter() == Some(*first))?;
    let ([_, many], least, most) = field.range()?;
    is_over(field.refusal(digits)).then(|| {
        let named = format!("`{}`", cut(&shown_bytes(word), 40));
        outside(&named, many, least, most)
    })
}

/// Brackets come first, as they do where a text is read; nodes are what is left.
fn over_in_text(tokens: &[&[u8]]) -> String {
    if most_open(tokens) > MOST_OPEN {
        return format!("over {MOST_OPEN} brackets and `if`s are open together");
    }
    let words = tokens.iter().find_map(|word| match word {
        [b'r', ..] if is_over(real(word).err()) => Some(no_number(&shown_bytes(word))),
        [b'0'..=b'9', ..] if is_over(integer(word).err()) => {
            Some(out_of_integers(&cut(&shown_bytes(word), 40)))
        }
        _ => over_in_label(word),
    });
    words.unwrap_or_else(|| {
        let is_letter = |word: &[u8]| matches!(word, b"S" | b"Q" | b"B" | b"C");
        let deep = tokens.windows(2 * DEEPEST + 1).any(|words| {
            let letters = words.iter().step_by(2);
            letters.into_iter().all(|word| is_letter(word))
        });
        match deep {
            true => too_deep(),
            false => format!("with it the sheet has more than {MOST_NODES} nodes"),
        }
    })
}
