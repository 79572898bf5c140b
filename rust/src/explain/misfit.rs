//! A field that is misspelled, and how it is written.

use super::fields::Field;
use super::lines::shown_bytes;
use crate::numbers::Number;
use crate::read::spelling::{integer, real, ty, value};
use crate::refusal::Refusal;

/// What is said of a field that is misspelled: what it is not, and what to write. None of one
/// that is well spelled.
pub fn misfit(field: Field, spelt: &[u8]) -> Option<String> {
    if field.refusal(spelt) != Some(Refusal::BadLine) {
        return None;
    }
    let (what, shape) = shape(field);
    let remedy = match field {
        _ if !spelt.is_ascii() => Some("it has bytes outside ASCII; type it anew".to_string()),
        Field::Type => type_meant(spelt).map(write),
        Field::Integer => whole_meant(&shown_bytes(spelt)),
        Field::Real => bits_meant(&shown_bytes(spelt)),
        Field::Value => value_meant(&shown_bytes(spelt)),
        _ => number_meant(field, spelt).map(write),
    };
    Some(format!("is no {what}: {}", remedy.unwrap_or(shape)))
}

fn write(meant: String) -> String {
    format!("write {meant}")
}

/// What a field holds, and how that is spelled.
fn shape(field: Field) -> (&'static str, String) {
    let fixed = match field {
        Field::Integer => (
            "Integer",
            "an Integer has digits alone, maybe after a minus",
        ),
        Field::Real => ("Real", "a Real has an r and 16 digits, 0 to 9 and a to f"),
        Field::Kind => ("kind of collection", "S, Q and B are"),
        Field::Type => (
            "type",
            "types are Void, Bool, Int, Real, Any, #c, S(T), Q(T), B(T) and C(T)",
        ),
        Field::Value => (
            "value",
            "values are t, f, an Integer such as -12, a Real by its bits, an object such as @4, \
            and S(..), Q(..) and B(..)",
        ),
        _ => {
            let ([one, many], least, most) = field.range().unwrap_or((["field", "fields"], 0, 0));
            let none = if field == Field::Parent {
                ", and `-` says that there is none above"
            } else {
                ""
            };
            return (
                one,
                format!("{many} are numbers from {least} to {most}{none}"),
            );
        }
    };
    (fixed.0, fixed.1.to_string())
}

/// A number that is written with the letter that a text or a value has in front of it.
fn number_meant(field: Field, spelt: &[u8]) -> Option<String> {
    let digits = spelt.strip_prefix(&[field.letter()?])?;
    field.refusal(digits).is_none().then(|| shown_bytes(digits))
}

/// OCL's words for types, and the sheet's.
const TYPES: [(&str, &str); 9] = [
    ("Integer", "Int"),
    ("Boolean", "Bool"),
    ("OclAny", "Any"),
    ("OclVoid", "Void"),
    ("Set", "S"),
    ("Sequence", "Q"),
    ("Bag", "B"),
    ("Collection", "C"),
    ("int", "Int"),
];

/// The type that is written with OCL's words.
pub fn type_meant(spelt: &[u8]) -> Option<String> {
    let spelt = std::str::from_utf8(spelt).ok()?;
    let words: Vec<&str> = spelt.split_inclusive(['(', ')']).collect();
    let meant: String = words
        .iter()
        .map(|word| {
            let name = word.trim_end_matches(['(', ')']);
            let ours = TYPES.iter().find(|(ocl, _)| *ocl == name);
            word.replacen(name, ours.map_or(name, |(_, ours)| ours), 1)
        })
        .collect();
    ty(meant.as_bytes()).is_ok().then_some(meant)
}

/// The value that is meant, where that is certain.
fn value_meant(text: &str) -> Option<String> {
    Some(match text {
        "true" | "True" | "TRUE" => write("t".to_string()),
        "false" | "False" | "FALSE" => write("f".to_string()),
        "u" | "undef" | "null" | "-" => "leave the line out".to_string(),
        _ if text.starts_with(['\'', '"']) => NO_STRINGS.to_string(),
        _ => return number_in(text).or_else(|| collection_meant(text)),
    })
}

pub const NO_STRINGS: &str = "there are no Strings: a number stands for each word";

/// A number that is spelled otherwise here.
pub fn number_in(text: &str) -> Option<String> {
    whole_meant(text).or_else(|| bits_meant(text))
}

/// A whole number with a plus, with a point, or by its bits.
fn whole_meant(text: &str) -> Option<String> {
    let is_integer = |digits: &str| integer(digits.as_bytes()).is_ok();
    if let Some(digits) = text.strip_prefix('r').filter(|digits| digits.len() == 16) {
        let bits = u64::from_str_radix(digits, 16).ok()?;
        let whole = Number::of(f64::from_bits(bits))?.integer()?;
        return Some(format!("its bits are those of {whole}: write {whole}"));
    }
    let whole = match text.strip_prefix('+') {
        Some(digits) => digits,
        None => {
            let (whole, fraction) = text.split_once('.')?;
            let are_zeros = !fraction.is_empty() && fraction.bytes().all(|digit| digit == b'0');
            are_zeros.then_some(whole)?
        }
    };
    is_integer(whole).then(|| write(whole.to_string()))
}

/// A Real with a point, or with capital digits.
fn bits_meant(text: &str) -> Option<String> {
    let lower = text.to_ascii_lowercase();
    if real(lower.as_bytes()).is_ok() {
        return Some(format!("its digits are in lower case, {lower}"));
    }
    let (whole, fraction) = text.split_once('.')?;
    let are_digits = |part: &str| !part.is_empty() && part.bytes().all(|b| b.is_ascii_digit());
    if !are_digits(whole.strip_prefix('-').unwrap_or(whole)) || !are_digits(fraction) {
        return None;
    }
    let number = Number::of(text.parse().ok()?)?;
    let mut bits = Vec::new();
    number.spell(&mut bits);
    number.integer().is_none().then(|| {
        let bits = shown_bytes(&bits);
        format!("a Real is spelled by its bits, and the nearest to {text} is {bits}")
    })
}

/// A collection in OCL's braces.
fn collection_meant(text: &str) -> Option<String> {
    let braces = [
        ("Sequence{", "Q("),
        ("Set{", "S("),
        ("Bag{", "B("),
        ("{", "S("),
    ];
    let meant = braces
        .iter()
        .fold(text.to_string(), |meant, (ocl, ours)| {
            meant.replace(ocl, ours)
        })
        .replace('}', ")");
    let said = match text.starts_with('{') {
        true => format!("a Set is written {meant}"),
        false => write(meant.clone()),
    };
    value(meant.as_bytes()).is_ok().then_some(said)
}
