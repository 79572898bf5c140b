//! The primaries of a text, and the numbers and types in it.

use super::sentences::{Parser, Waiting};
use super::spelling::{self, Spelt, LAST_CLASS, LAST_VARIABLE};
use crate::refusal::Refusal;
use crate::tree::Form;
use crate::types::{Kind, Type};

impl Parser<'_> {
    /// What a word spells. Outside its limits it is spelt well, and anything will
    /// do in its place.
    fn keep<T>(&mut self, spelt: Spelt<T>, anything: T) -> Option<T> {
        match spelt {
            Ok(spelt) => Some(spelt),
            Err(Refusal::OutOfLimits) => {
                self.over = true;
                Some(anything)
            }
            Err(_) => None,
        }
    }

    /// The number behind the letter of a word.
    pub(super) fn label(&mut self, word: &[u8], letter: u8, least: u64, most: u64) -> Option<u8> {
        let digits = word.strip_prefix(&[letter])?;
        let number = spelling::number(digits, least, most);
        self.keep(number, least).map(|number| number as u8)
    }

    pub(super) fn variable(&mut self) -> Option<u8> {
        let word = self.tokens.next()?;
        self.label(word, b'v', 1, LAST_VARIABLE)
    }

    pub(super) fn class(&mut self, word: &[u8]) -> Option<u8> {
        self.label(word, b'#', 0, LAST_CLASS)
    }

    /// `()`.
    pub(super) fn nothing(&mut self) -> Option<()> {
        self.expect(b"(")?;
        self.expect(b")")
    }

    /// A type, spaces left out; its base is a single word.
    pub(super) fn ty(&mut self) -> Option<Type> {
        let all = self.tokens.as_slice();
        let mut letters = 0;
        while let [b"S" | b"Q" | b"B" | b"C", b"(", ..] = self.tokens.as_slice() {
            self.tokens.nth(1);
            letters += 1;
        }
        self.tokens.next()?;
        for _ in 0..letters {
            self.expect(b")")?;
        }
        let spelt = spelling::ty(&all[..3 * letters + 1].concat());
        self.keep(spelt, Type::Void)
    }

    /// The next primary, if it is one without an expression inside; else what is
    /// opened waits.
    pub(super) fn begin(&mut self) -> Option<Option<usize>> {
        let tight = matches!(
            self.waiting.last(),
            Some(Waiting::Not | Waiting::Sign { .. })
        );
        let opened = match *self.tokens.next()? {
            b"let" if !tight => {
                let variable = self.variable()?;
                self.expect(b"=")?;
                Waiting::Value { variable }
            }
            b"not" => Waiting::Not,
            b"(" => Waiting::Bracket,
            b"if" => Waiting::Condition(Vec::new()),
            b"Set" => return self.members(Kind::Set),
            b"Sequence" => return self.members(Kind::Sequence),
            b"Bag" => return self.members(Kind::Bag),
            word => return self.leaf(word).map(Some),
        };
        self.waiting.push(opened);
        Some(None)
    }

    fn members(&mut self, kind: Kind) -> Option<Option<usize>> {
        self.expect(b"{")?;
        if self.peek() == Some(b"}") {
            self.tokens.next();
            return Some(Some(self.put(Form::Coll(kind), Vec::new())));
        }
        self.waiting.push(Waiting::Members(kind, Vec::new()));
        Some(None)
    }

    fn leaf(&mut self, word: &[u8]) -> Option<usize> {
        let form = match word {
            b"true" => Form::True,
            b"false" => Form::False,
            b"undef" => Form::Undef,
            b"self" => Form::SelfObject,
            [b'v', ..] => Form::Var(self.label(word, b'v', 1, LAST_VARIABLE)?),
            [b'#', ..] => {
                let class = self.class(word)?;
                self.expect(b".")?;
                self.expect(b"allInstances")?;
                self.nothing()?;
                Form::All(class)
            }
            [b'r', ..] => Form::Real(self.keep(spelling::real(word), 0.into())?),
            _ => {
                let number = spelling::number(word, 0, i32::MAX as u64);
                Form::Int(self.keep(number, 0)? as i32)
            }
        };
        Some(self.put(form, Vec::new()))
    }
}
