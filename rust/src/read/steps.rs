//! The postfix steps of a text.

use super::sentences::{Next, Parser, Waiting};
use super::spelling::{LAST_DEFINITION, LAST_NAME};
use crate::tree::Form;
use crate::types::Kind;

impl Parser<'_> {
    fn attribute(&mut self, word: &[u8]) -> Option<u8> {
        self.label(word, b'a', 0, LAST_NAME)
    }

    /// What stands after a full stop.
    pub(super) fn step(&mut self, operand: usize) -> Option<Next> {
        let form = match *self.tokens.next()? {
            b"isUndef" => {
                self.nothing()?;
                Form::IsUndef
            }
            b"oclAsType" => {
                self.expect(b"(")?;
                let word = self.tokens.next()?;
                let class = self.class(word)?;
                self.expect(b")")?;
                Form::As(class)
            }
            word @ [b'd', ..] => {
                let number = self.label(word, b'd', 0, LAST_DEFINITION)?;
                self.nothing()?;
                Form::Call(number)
            }
            word => {
                let name = self.attribute(word)?;
                Form::Attr { name, row: None }
            }
        };
        Some(Next::Longer(self.put(form, vec![operand])))
    }

    /// What stands after an arrow.
    pub(super) fn collection_step(&mut self, source: usize) -> Option<Next> {
        let word = *self.tokens.next()?;
        self.expect(b"(")?;
        let form = match word {
            b"size" => Form::Size,
            b"asSet" => Form::Convert(Kind::Set),
            b"asSequence" => Form::Convert(Kind::Sequence),
            b"asBag" => Form::Convert(Kind::Bag),
            b"collect" => {
                let word = self.tokens.next()?;
                let name = self.attribute(word)?;
                Form::Collect { name, mark: None }
            }
            b"includes" => return self.argument(Form::Includes, source),
            b"including" => return self.argument(Form::Including, source),
            b"union" => return self.argument(Form::Union, source),
            b"forAll" => {
                let variable = self.quantified()?;
                return self.argument(Form::ForAll(variable), source);
            }
            b"exists" => {
                let variable = self.quantified()?;
                return self.argument(Form::Exists(variable), source);
            }
            b"iter" => return self.iteration(source),
            _ => return None,
        };
        self.expect(b")")?;
        Some(Next::Longer(self.put(form, vec![source])))
    }

    fn argument(&mut self, form: Form, source: usize) -> Option<Next> {
        self.wait(Waiting::Argument(form, vec![source]))
    }

    fn quantified(&mut self) -> Option<u8> {
        let variable = self.variable()?;
        self.expect(b"|")?;
        Some(variable)
    }

    fn iteration(&mut self, source: usize) -> Option<Next> {
        let member = self.variable()?;
        self.expect(b";")?;
        let accumulator = self.variable()?;
        self.expect(b":")?;
        let ty = self.ty()?;
        self.expect(b"=")?;
        let form = Form::Iter {
            member,
            accumulator,
            ty,
        };
        self.wait(Waiting::Start { form, source })
    }
}
