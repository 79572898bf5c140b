//! The fields of one line. Every field is read, whatever the ones before it
//! held, and the lowest refusal met is kept: a misspelt field (3) goes before
//! a well-spelt one outside its limits (4).

use super::spelling::{self, Spelt};
use crate::numbers::Number;
use crate::refusal::Refusal;
use crate::types::{Kind, Type};
use crate::values::Value;

pub struct Fields<'a> {
    /// What follows the fields taken: none once the last is taken.
    rest: Option<&'a [u8]>,
    lowest: Option<Refusal>,
}

impl<'a> Fields<'a> {
    /// Of a line without its line feed.
    pub fn of(line: &'a [u8]) -> Fields<'a> {
        Fields {
            rest: Some(line),
            lowest: None,
        }
    }

    pub fn note(&mut self, refusal: Refusal) {
        self.lowest = Some(self.lowest.map_or(refusal, |lowest| lowest.min(refusal)));
    }

    pub fn are_left(&self) -> bool {
        self.rest.is_some()
    }

    /// The next field; a missing one is a bad line.
    pub fn next(&mut self) -> &'a [u8] {
        let Some(rest) = self.rest else {
            self.note(Refusal::BadLine);
            return b"";
        };
        match rest.iter().position(|byte| *byte == b'\t') {
            Some(tab) => {
                self.rest = Some(&rest[tab + 1..]);
                &rest[..tab]
            }
            None => {
                self.rest = None;
                rest
            }
        }
    }

    /// No field may be left, and none may have been refused.
    pub fn end(&mut self) -> Result<(), Refusal> {
        if self.are_left() {
            self.note(Refusal::BadLine);
        }
        self.lowest.map_or(Ok(()), Err)
    }

    /// What a field spells; after a refusal, which `end` gives, anything will do.
    fn keep<T>(&mut self, spelt: Spelt<T>, anything: T) -> T {
        spelt.unwrap_or_else(|refusal| {
            self.note(refusal);
            anything
        })
    }

    pub fn number(&mut self, least: u64, most: u64) -> usize {
        let spelt = spelling::number(self.next(), least, most);
        self.keep(spelt, least) as usize
    }

    pub fn class(&mut self) -> u8 {
        self.number(0, spelling::LAST_CLASS) as u8
    }

    pub fn object(&mut self) -> u8 {
        self.number(0, spelling::LAST_OBJECT) as u8
    }

    pub fn row(&mut self) -> u8 {
        self.number(0, spelling::LAST_ROW) as u8
    }

    pub fn name(&mut self) -> u8 {
        self.number(0, spelling::LAST_NAME) as u8
    }

    pub fn definition(&mut self) -> u8 {
        self.number(0, spelling::LAST_DEFINITION) as u8
    }

    pub fn variable(&mut self) -> u8 {
        self.number(1, spelling::LAST_VARIABLE) as u8
    }

    /// A class, or none for a minus sign.
    pub fn parent(&mut self) -> Option<u8> {
        if self.rest == Some(b"-") {
            self.rest = None;
            return None;
        }
        Some(self.class())
    }

    pub fn integer(&mut self) -> i32 {
        let spelt = spelling::integer(self.next());
        self.keep(spelt, 0)
    }

    pub fn real(&mut self) -> Number {
        let spelt = spelling::real(self.next());
        self.keep(spelt, Number::from(0))
    }

    pub fn kind(&mut self) -> Kind {
        let kind = match self.next() {
            [letter] => Kind::from_letter(*letter),
            _ => None,
        };
        self.keep(kind.ok_or(Refusal::BadLine), Kind::Set)
    }

    pub fn ty(&mut self) -> Type {
        let spelt = spelling::ty(self.next());
        self.keep(spelt, Type::Void)
    }

    pub fn value(&mut self) -> Value {
        let field = self.next();
        self.value_in(field)
    }

    /// A value, or none for a minus sign.
    pub fn value_or_none(&mut self) -> Option<Value> {
        match self.next() {
            b"-" => None,
            field => Some(self.value_in(field)),
        }
    }

    fn value_in(&mut self, field: &[u8]) -> Value {
        self.keep(spelling::value(field), Value::Bool(false))
    }
}
