//! How numbers, types and values are spelt on a sheet.

use crate::numbers::Number;
use crate::refusal::Refusal;
use crate::types::{Kind, Type, DEEPEST};
use crate::values::{Collection, Value};

pub const LAST_CLASS: u64 = 63;
pub const LAST_ROW: u64 = 63;
pub const LAST_OBJECT: u64 = 95;
pub const LAST_NAME: u64 = 255;
pub const LAST_DEFINITION: u64 = 31;
pub const LAST_RULE: u64 = 63;
pub const LAST_VARIABLE: u64 = 15;

/// What is spelt, or BadLine, or OutOfLimits for a good spelling outside its limits.
pub type Spelt<T> = Result<T, Refusal>;

/// Decimal digits without a leading zero. Numbers beyond 64 bits count as the
/// largest of them, which is outside every limit.
fn digits(field: &[u8]) -> Spelt<u64> {
    let leading_zero = field.len() > 1 && field[0] == b'0';
    if field.is_empty() || leading_zero || !field.iter().all(u8::is_ascii_digit) {
        return Err(Refusal::BadLine);
    }
    Ok(field.iter().fold(0, |number: u64, digit| {
        number
            .saturating_mul(10)
            .saturating_add(u64::from(digit - b'0'))
    }))
}

pub fn number(field: &[u8], least: u64, most: u64) -> Spelt<u64> {
    let number = digits(field)?;
    if number < least || number > most {
        return Err(Refusal::OutOfLimits);
    }
    Ok(number)
}

pub fn integer(field: &[u8]) -> Spelt<i32> {
    let (minus, magnitude) = match field.strip_prefix(b"-") {
        Some(magnitude) => (true, digits(magnitude)?),
        None => (false, digits(field)?),
    };
    if minus && magnitude == 0 {
        return Err(Refusal::BadLine);
    }
    let magnitude = i64::try_from(magnitude).unwrap_or(i64::MAX);
    let number = if minus { -magnitude } else { magnitude };
    i32::try_from(number).map_err(|_| Refusal::OutOfLimits)
}

/// The letter r and the 16 digits of a number's bits. An Integer, both zeros among
/// them, is never spelt so.
pub fn real(field: &[u8]) -> Spelt<Number> {
    let digits = field.strip_prefix(b"r").ok_or(Refusal::BadLine)?;
    let lower = |digit: &u8| matches!(digit, b'0'..=b'9' | b'a'..=b'f');
    if digits.len() != 16 || !digits.iter().all(lower) {
        return Err(Refusal::BadLine);
    }
    let bits = digits.iter().fold(0, |bits: u64, digit| {
        let value = match digit {
            b'a'..=b'f' => digit - b'a' + 10,
            _ => digit - b'0',
        };
        bits << 4 | u64::from(value)
    });
    let number = Number::of(f64::from_bits(bits)).ok_or(Refusal::OutOfLimits)?;
    match number.integer() {
        Some(_) => Err(Refusal::BadLine),
        None => Ok(number),
    }
}

pub fn ty(field: &[u8]) -> Spelt<Type> {
    let mut letters = Vec::new();
    let mut base = field;
    while let [letter @ (b'S' | b'Q' | b'B' | b'C'), b'(', inside @ ..] = base {
        letters.push(*letter);
        base = inside.strip_suffix(b")").ok_or(Refusal::BadLine)?;
    }
    let base = match base {
        b"Void" => Type::Void,
        b"Bool" => Type::Bool,
        b"Int" => Type::Int,
        b"Real" => Type::Real,
        b"Any" => Type::Any,
        [b'#', class @ ..] => Type::Class(number(class, 0, LAST_CLASS)? as u8),
        _ => return Err(Refusal::BadLine),
    };
    if letters.len() > DEEPEST {
        return Err(Refusal::OutOfLimits);
    }
    Ok(letters
        .iter()
        .rev()
        .fold(base, |member, letter| match Kind::from_letter(*letter) {
            Some(kind) => Type::of(kind, member),
            None => Type::Collection(Box::new(member)),
        }))
}

/// A value without members. On a sheet, `u` is not a value.
fn simple(field: &[u8]) -> Spelt<Value> {
    match field {
        b"t" => Ok(Value::Bool(true)),
        b"f" => Ok(Value::Bool(false)),
        [b'@', object @ ..] => Ok(Value::Object(number(object, 0, LAST_OBJECT)? as u8)),
        [b'r', ..] => real(field).map(Value::Number),
        _ => integer(field).map(|number| Value::Number(number.into())),
    }
}

/// A value as written, its members in the order given. A misspelling anywhere
/// goes before a limit crossed, so reading goes on after the latter.
pub fn value(field: &[u8]) -> Spelt<Value> {
    let mut reading = Reading {
        rest: field,
        open: Vec::new(),
        over: false,
    };
    loop {
        let member = if !reading.opens()? {
            Some(reading.simple()?)
        } else if reading.rest.first() == Some(&b')') {
            None
        } else {
            continue;
        };
        if let Some(whole) = reading.after(member)? {
            return Ok(whole);
        }
    }
}

/// Stands in for a value outside its limits, and is never looked at.
const LOST: Value = Value::Bool(false);

/// A value that is read in part.
struct Reading<'f> {
    rest: &'f [u8],
    /// A list, since a line can nest thousands of collections.
    open: Vec<(Kind, Vec<Value>)>,
    /// Whether a limit was crossed.
    over: bool,
}

impl Reading<'_> {
    /// Whether a collection begins here, which is then open.
    #[inline]
    fn opens(&mut self) -> Spelt<bool> {
        let [letter @ (b'S' | b'Q' | b'B'), b'(', inside @ ..] = self.rest else {
            return Ok(false);
        };
        self.rest = inside;
        let kind = Kind::from_letter(*letter).ok_or(Refusal::BadLine)?;
        self.open.push((kind, Vec::new()));
        self.over |= self.open.len() > DEEPEST;
        Ok(true)
    }

    #[inline]
    fn simple(&mut self) -> Spelt<Value> {
        let part = |byte: &u8| *byte == b',' || *byte == b')';
        let end = self.rest.iter().position(part).unwrap_or(self.rest.len());
        let (field, rest) = self.rest.split_at(end);
        self.rest = rest;
        match simple(field) {
            Err(Refusal::OutOfLimits) => {
                self.over = true;
                Ok(LOST)
            }
            spelt => spelt,
        }
    }

    /// After a member come its comma or the end of collections. Gives the value where it
    /// ends here, and none where another member is due. An empty collection has no member.
    #[inline]
    fn after(&mut self, mut member: Option<Value>) -> Spelt<Option<Value>> {
        loop {
            if let (Some(member), Some((_, members))) = (&member, self.open.last_mut()) {
                members.push(member.clone());
            }
            match self.rest {
                [b',', after @ ..] if !self.open.is_empty() => {
                    self.rest = after;
                    return Ok(None);
                }
                [b')', after @ ..] => {
                    self.rest = after;
                    member = Some(self.closed()?);
                }
                [] if self.open.is_empty() && self.over => return Err(Refusal::OutOfLimits),
                [] if self.open.is_empty() => return member.ok_or(Refusal::BadLine).map(Some),
                _ => return Err(Refusal::BadLine),
            }
        }
    }

    /// The innermost collection, which ends.
    #[inline]
    fn closed(&mut self) -> Spelt<Value> {
        let (kind, members) = self.open.pop().ok_or(Refusal::BadLine)?;
        let formed = Collection::as_given(kind, members).filter(|_| !self.over);
        self.over |= formed.is_none();
        Ok(formed.unwrap_or(LOST))
    }
}
