//! The N lines of a rule or a definition.

use super::fields::Fields;
use super::{require, Reader};
use crate::refusal::Refusal;
use crate::tree::{Form, Node};
use crate::types::Kind;

pub const MOST_NODES: usize = 768;
const MOST_MEMBERS: usize = 4;

/// An N line's fields after its number.
struct Parts<'f, 'a> {
    fields: &'f mut Fields<'a>,
    operands: Vec<usize>,
}

impl Parts<'_, '_> {
    fn operands(&mut self, count: usize) {
        for _ in 0..count {
            let operand = self.fields.number(0, MOST_NODES as u64 - 1);
            self.operands.push(operand);
        }
    }

    fn form(&mut self) -> Form {
        let word = self.fields.next();
        if let Some((form, count)) = plain(word) {
            self.operands(count);
            return form;
        }
        match word {
            b"int" => Form::Int(self.fields.integer()),
            b"real" => Form::Real(self.fields.real()),
            b"var" => Form::Var(self.fields.variable()),
            b"all" => Form::All(self.fields.class()),
            b"coll" => self.collection(),
            b"let" => {
                let variable = self.fields.variable();
                self.operands(2);
                Form::Let(variable)
            }
            b"iter" => self.iteration(),
            b"forAll" => Form::ForAll(self.quantified()),
            b"exists" => Form::Exists(self.quantified()),
            b"attr" | b"collect" | b"as" | b"call" => self.with_operand(word),
            _ => {
                self.fields.note(Refusal::BadLine);
                Form::Undef
            }
        }
    }

    /// A form whose operand stands before what it asks of it.
    fn with_operand(&mut self, word: &[u8]) -> Form {
        self.operands(1);
        match word {
            b"attr" => Form::Attr {
                name: self.fields.name(),
                row: None,
            },
            b"collect" => Form::Collect {
                name: self.fields.name(),
                mark: None,
            },
            b"as" => Form::As(self.fields.class()),
            _ => Form::Call(self.fields.definition()),
        }
    }

    /// A fifth member is left over, and so a bad line.
    fn collection(&mut self) -> Form {
        let kind = self.fields.kind();
        while self.fields.are_left() && self.operands.len() < MOST_MEMBERS {
            self.operands(1);
        }
        Form::Coll(kind)
    }

    fn iteration(&mut self) -> Form {
        self.operands(1);
        let member = self.fields.variable();
        let accumulator = self.fields.variable();
        let ty = self.fields.ty();
        self.operands(2);
        Form::Iter {
            member,
            accumulator,
            ty,
        }
    }

    /// The variable of a quantifier, which stands between its operands.
    fn quantified(&mut self) -> u8 {
        self.operands(1);
        let variable = self.fields.variable();
        self.operands(1);
        variable
    }
}

/// A form whose line holds nothing but operands, and how many it has.
fn plain(word: &[u8]) -> Option<(Form, usize)> {
    Some(match word {
        b"true" => (Form::True, 0),
        b"false" => (Form::False, 0),
        b"undef" => (Form::Undef, 0),
        b"self" => (Form::SelfObject, 0),
        b"if" => (Form::If, 3),
        b"and" => (Form::And, 2),
        b"or" => (Form::Or, 2),
        b"not" => (Form::Not, 1),
        b"isUndef" => (Form::IsUndef, 1),
        b"eq" => (Form::Eq, 2),
        b"less" => (Form::Less(None), 2),
        b"plus" => (Form::Plus(None), 2),
        b"minus" => (Form::Minus(None), 2),
        b"times" => (Form::Times(None), 2),
        b"div" => (Form::Div, 2),
        b"mod" => (Form::Mod, 2),
        b"over" => (Form::Over, 2),
        b"size" => (Form::Size, 1),
        b"includes" => (Form::Includes, 2),
        b"asSet" => (Form::Convert(Kind::Set), 1),
        b"asSequence" => (Form::Convert(Kind::Sequence), 1),
        b"asBag" => (Form::Convert(Kind::Bag), 1),
        b"including" => (Form::Including, 2),
        b"union" => (Form::Union, 2),
        _ => return None,
    })
}

impl Reader {
    pub(super) fn node(&mut self, mut fields: Fields, place: usize) -> Result<(), Refusal> {
        let number = fields.number(0, MOST_NODES as u64 - 1);
        let mut parts = Parts {
            fields: &mut fields,
            operands: Vec::new(),
        };
        let form = parts.form();
        let operands = parts.operands;
        if self.nodes == MOST_NODES {
            fields.note(Refusal::OutOfLimits);
        }
        fields.end()?;

        let tree = self.open.as_ref().filter(|tree| !tree.is_text);
        let tree = tree.ok_or(Refusal::OutOfOrder)?;
        let next = number == tree.nodes.len() && !form.binds_twice();
        require(next, Refusal::OutOfOrder)?;
        self.known_class(form.class())?;
        self.callable(&form, tree.declared.is_some())?;

        let tree = self.open.as_mut().ok_or(Refusal::OutOfOrder)?;
        // A node not there yet and a node moved away already are both refused.
        let mut take = |operand: usize| tree.nodes.get_mut(operand).and_then(Option::take);
        let operands = operands.into_iter().map(&mut take).collect();
        let operands = Option::ok_or::<Refusal>(operands, Refusal::MalformedTree)?;
        tree.nodes.push(Some(Node {
            form,
            operands,
            line: place,
            ty: None,
        }));
        tree.last_line = place;
        self.nodes += 1;
        Ok(())
    }

    /// A definition that a form calls. Those that are read are all that a rule finds
    /// on the sheet, and the ones smaller than a definition that is being read.
    pub(super) fn callable(&self, form: &Form, in_definition: bool) -> Result<(), Refusal> {
        let Form::Call(called) = form else {
            return Ok(());
        };
        let refusal = if in_definition {
            Refusal::CallUpward
        } else {
            Refusal::UnknownDefinition
        };
        let callable = usize::from(*called) < self.sheet.definitions.len();
        require(callable, refusal)
    }
}
