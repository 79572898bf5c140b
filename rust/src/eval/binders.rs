//! Variables: the forms that bind them, what reads them, and calls, which hide them.

use super::{Evaluation, Outcome, STUCK};
use crate::tree::{Form, Node};
use crate::values::Value;
use std::mem;

impl<'m> Evaluation<'m> {
    #[inline]
    pub(super) fn bound(&self, variable: u8) -> Outcome {
        let bound = &self.environment[usize::from(variable)];
        bound.clone().ok_or(STUCK)
    }

    #[inline]
    pub(super) fn binding(&mut self, form: &Form, operands: &'m [Node]) -> Outcome {
        match form {
            Form::Let(variable) => {
                let value = self.node(&operands[0])?;
                self.with(*variable, value, &operands[1])
            }
            Form::Iter {
                member,
                accumulator,
                ..
            } => self.iteration(operands, *member, *accumulator),
            Form::ForAll(variable) => self.quantifier(operands, *variable, false),
            Form::Exists(variable) => self.quantifier(operands, *variable, true),
            _ => unreachable!("a form that binds no variable"),
        }
    }

    /// What the body gives for one member is the accumulator for the next.
    #[inline]
    fn iteration(&mut self, operands: &'m [Node], member: u8, accumulator: u8) -> Outcome {
        let source = self.collection(&operands[0])?;
        let mut value = self.node(&operands[1])?;
        for element in &source.members {
            let slot = usize::from(accumulator);
            let outer = self.environment[slot].replace(value);
            let next = self.with(member, element.clone(), &operands[2]);
            self.environment[slot] = outer;
            value = next?;
        }
        Ok(value)
    }

    /// A body's outcome with the variable bound; the outer binding is put back.
    pub(super) fn with(&mut self, variable: u8, value: Value, body: &'m Node) -> Outcome {
        let slot = usize::from(variable);
        let outer = self.environment[slot].replace(value);
        let outcome = self.node(body);
        self.environment[slot] = outer;
        outcome
    }

    /// A definition's body, in which `self` is the operand and no variable is
    /// bound; the caller's are put back.
    pub(super) fn call(&mut self, number: u8, operand: &'m Node) -> Outcome {
        let called = &self.definitions[usize::from(number)];
        let object = match self.node(operand)? {
            Value::Object(object) if self.model.is_of(object, called.class) => object,
            _ => return Err(STUCK),
        };
        let caller = mem::replace(&mut self.object, object);
        let hidden = mem::take(&mut self.environment);
        let outcome = self.node(&called.root);
        self.object = caller;
        self.environment = hidden;
        outcome
    }
}
