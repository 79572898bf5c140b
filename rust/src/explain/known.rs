//! What a line names that the sheet does not have, and values that do not suit their row.

use super::fields::{of_line, Field};
use super::lines::{decimal, shown_bytes, Lines};
use crate::model::{Model, Sheet};
use crate::read::read;
use crate::read::spelling::value;
use crate::read::tokens::tokens;
use crate::types::Kind;
use crate::values::Value;

/// What is named and not there, and how many of each there are before the line, or before
/// the rule that it stands in.
pub fn on_the_sheet(lines: &Lines, place: usize) -> Option<String> {
    let inside = matches!(lines.fields(place)[0], b"N" | b"X");
    let first = if inside { lines.head(place)? } else { place };
    let sheet = read(lines.before(first)).ok()?;
    let named = |count: usize, one: &str, many: &str| match count {
        0 => format!("no {one}"),
        1 => format!("1 {one}, number 0"),
        _ => format!("{count} {many}, 0 to {}", count - 1),
    };
    let model = &sheet.model;
    let counts = [
        named(model.classes.0.len(), "class", "classes"),
        named(model.rows.len(), "row", "rows"),
        named(model.objects.len(), "object", "objects"),
        named(sheet.definitions.len(), "definition", "definitions"),
    ];
    let missing = missing(&sheet, &lines.fields(place));
    let missing = missing.map_or(String::new(), |missing| format!("{missing}; "));
    Some(format!(
        "{missing}by then the sheet has {}",
        counts.join("; ")
    ))
}

/// The first thing that the line names and the sheet does not have.
fn missing(sheet: &Sheet, split: &[&[u8]]) -> Option<String> {
    if split[0] == b"X" {
        let tokens = tokens(split.get(1)?);
        return tokens.iter().find_map(|word| label(sheet, word));
    }
    let fields = of_line(split)?;
    let own = usize::from(split[0] != b"V");
    let mut named = fields.iter().zip(&split[1..]).skip(own);
    named.find_map(|(field, spelt)| match field {
        Field::Parent if decimal(spelt)? >= decimal(split[1])? => Some(format!(
            "{} is not smaller than {}, as a parent is",
            shown_bytes(spelt),
            shown_bytes(split[1])
        )),
        Field::Type | Field::Value => {
            let mut words = spelt.split(|byte| b"(),".contains(byte));
            words.find_map(|word| label(sheet, word))
        }
        _ => unknown(sheet, *field, spelt),
    })
}

/// A class, an object or a definition by its sign or letter.
fn label(sheet: &Sheet, word: &[u8]) -> Option<String> {
    let (first, digits) = word.split_first()?;
    let labels = [Field::Class, Field::Object, Field::Definition];
    let field = labels
        .into_iter()
        .find(|field| field.letter() == Some(*first))?;
    unknown(sheet, field, digits)
}

/// A number of something that is not there.
fn unknown(sheet: &Sheet, field: Field, digits: &[u8]) -> Option<String> {
    let count = match field {
        Field::Class => sheet.model.classes.0.len(),
        Field::Row => sheet.model.rows.len(),
        Field::Object => sheet.model.objects.len(),
        Field::Definition => sheet.definitions.len(),
        _ => return None,
    };
    let ([one, _], ..) = field.range()?;
    let number = decimal(digits)?;
    (number >= count as u64).then(|| format!("there is no {one} {number} yet"))
}

/// The row and the object of a V line, and which of them the line does not suit.
pub fn slot(lines: &Lines, place: usize) -> Option<String> {
    let fields = lines.fields(place);
    let number = |field: usize| u8::try_from(decimal(fields.get(field)?)?).ok();
    let (object, row) = (number(1)?, number(2)?);
    let said = format!(
        "the object is {}; the row is {}",
        lines.named(lines.declared(b'O', &[object])?),
        lines.named(lines.declared(b'A', &[row])?)
    );
    let model = read(lines.before(place)).ok()?.model;
    let (class, declared) = (
        model.objects[usize::from(object)],
        &model.rows[usize::from(row)],
    );
    if !model.is_of(object, declared.class) {
        let of = declared.class;
        return Some(format!(
            "{said}; #{class} has no such row, as it is not #{of} or below"
        ));
    }
    let spelt = shown_bytes(fields.get(3)?);
    let what = what(&model, &value(fields[3]).ok()?);
    Some(format!("{said}; `{spelt}` is {what}"))
}

/// What a value is.
fn what(model: &Model, value: &Value) -> String {
    match value {
        Value::Bool(_) => "a truth value".to_string(),
        Value::Number(number) if number.integer().is_some() => "an Integer".to_string(),
        Value::Number(_) => "a Real".to_string(),
        Value::Object(object) => {
            format!(
                "an object of class #{}",
                model.objects[usize::from(*object)]
            )
        }
        Value::Collection(collection) => match collection.kind {
            Kind::Set => "a Set".to_string(),
            Kind::Sequence => "a Sequence".to_string(),
            Kind::Bag => "a Bag".to_string(),
        },
    }
}
