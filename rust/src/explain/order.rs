//! What is out of order: lines, numbers, members, names and variables.

use super::lines::{decimal, Lines};
use crate::read::sentences::sentence;
use crate::read::tokens::tokens;
use crate::tree::Form;

/// The blocks of a sheet in their order.
const BLOCKS: &[u8] = b"CAOVDR";

/// The number that is due, the block that has begun, or what stands there already.
pub fn out_of_row(lines: &Lines, place: usize) -> Option<String> {
    let fields = lines.fields(place);
    let letter = *fields[0].first()?;
    if let Some(later) = later_block(lines, place, letter) {
        let letter = char::from(letter);
        return Some(format!("{letter} lines come before {}", lines.named(later)));
    }
    match letter {
        b'V' => values_descend(lines, place),
        b'X' => beside_text(lines, place).or_else(|| bound_twice_in_text(fields.get(1)?)),
        b'N' => beside_text(lines, place)
            .or_else(|| number_due(lines, place, letter))
            .or_else(|| bound_twice_in_node(&fields)),
        _ => number_due(lines, place, letter).or_else(|| {
            let same =
                |other: &[&[u8]]| letter == b'A' && other[0] == b"A" && other[2..4] == fields[2..4];
            let twice = (1..place).find(|line| same(&lines.fields(*line)));
            twice.map(|line| format!("the class has that name already, {}", lines.named(line)))
        }),
    }
}

/// A line of a later block that stands before this one.
fn later_block(lines: &Lines, place: usize, letter: u8) -> Option<usize> {
    let block = BLOCKS.iter().position(|block| *block == letter)?;
    (1..place).find(|line| {
        let other = lines.fields(*line)[0];
        let other = BLOCKS.iter().position(|block| other == [*block]);
        other.is_some_and(|other| other > block)
    })
}

/// An X line that is not the first below its R line, an N line below an X line, or either
/// before all rules and definitions.
fn beside_text(lines: &Lines, place: usize) -> Option<String> {
    if lines.head(place).is_none() {
        return Some("no R or D line stands before it".to_string());
    }
    let before = lines.fields(place - 1)[0];
    let fits = match lines.fields(place)[0] {
        b"X" => before == b"R",
        _ => before != b"X",
    };
    (!fits)
        .then(|| "a rule has one X line or N lines, not both, and a definition N lines".to_string())
}

/// An `iter` of a text that has one variable twice.
fn bound_twice_in_text(text: &[u8]) -> Option<String> {
    let sentence = sentence(&tokens(text))?;
    let mut forms = sentence.shapes.iter().map(|shape| &shape.form);
    match forms.find(|form| form.binds_twice())? {
        Form::Iter { member, .. } => Some(bound_twice(&member.to_string())),
        _ => None,
    }
}

/// The same of an N line, where the variables stand behind the source.
fn bound_twice_in_node(fields: &[&[u8]]) -> Option<String> {
    let [_, _, b"iter", _, member, accumulator, ..] = fields else {
        return None;
    };
    (member == accumulator).then(|| bound_twice(&String::from_utf8_lossy(member)))
}

fn bound_twice(variable: &str) -> String {
    format!("`iter` has the variable v{variable} twice: its two variables differ")
}

fn number_due(lines: &Lines, place: usize, letter: u8) -> Option<String> {
    let first = match letter {
        b'N' => lines.head(place)?,
        _ => 0,
    };
    let others = (first + 1..place).filter(|line| lines.fields(*line)[0] == [letter]);
    let due = others.count().to_string();
    let (letter, number) = (char::from(letter), lines.fields(place)[1]);
    let given = String::from_utf8_lossy(number);
    (number != due.as_bytes())
        .then(|| format!("the next {letter} line has the number {due}, not {given}"))
}

fn values_descend(lines: &Lines, place: usize) -> Option<String> {
    let pair = |line: usize| {
        let fields = lines.fields(line);
        let number = |field: usize| fields.get(field).and_then(|field| decimal(field));
        (fields[0] == b"V")
            .then(|| Some((number(1)?, number(2)?)))
            .flatten()
    };
    let (here, before) = (pair(place)?, pair(place - 1));
    if before.is_some_and(|before| before >= here) {
        return Some(format!(
            "V lines ascend by object and then by row, and before it stands {}",
            lines.named(place - 1)
        ));
    }
    Some("the members of a Set or a Bag do not ascend".to_string())
}
