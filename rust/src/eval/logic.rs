//! Truths: `if`, `not`, `isUndef` and `eq`, and `and`, `or`, `forAll` and `exists`, which
//! undefined does not end at once.

use super::{truth, End, Evaluation, Outcome};
use crate::tree::Node;
use crate::values::Value;

impl<'m> Evaluation<'m> {
    #[inline]
    pub(super) fn branch(&mut self, operands: &'m [Node]) -> Outcome {
        let condition = self.truth(&operands[0])?;
        self.node(&operands[if condition { 1 } else { 2 }])
    }

    #[inline]
    pub(super) fn negation(&mut self, operands: &'m [Node]) -> Outcome {
        Ok(Value::Bool(!self.truth(&operands[0])?))
    }

    #[inline]
    pub(super) fn undefinedness(&mut self, operands: &'m [Node]) -> Outcome {
        match self.node(&operands[0]) {
            Ok(_) => Ok(Value::Bool(false)),
            Err(End::Undefined(_)) => Ok(Value::Bool(true)),
            stop => stop,
        }
    }

    #[inline]
    pub(super) fn equality(&mut self, operands: &'m [Node]) -> Outcome {
        let left = self.node(&operands[0])?;
        let right = self.node(&operands[1])?;
        Ok(Value::Bool(left == right))
    }

    /// `and` and `or`: the deciding truth decides on either side. On the left, it
    /// keeps the right side from running; on neither side, undefined is passed on,
    /// the left one first.
    pub(super) fn connective(&mut self, operands: &'m [Node], deciding: bool) -> Outcome {
        let left = self.truth(&operands[0]);
        match left {
            Ok(left) if left == deciding => return Ok(Value::Bool(deciding)),
            Ok(_) | Err(End::Undefined(_)) => {}
            Err(stop) => return Err(stop),
        }
        let right = self.truth(&operands[1]);
        match (left, right) {
            (_, Err(End::Stop(stop))) => Err(End::Stop(stop)),
            (_, Ok(right)) if right == deciding => Ok(Value::Bool(deciding)),
            (Err(undefined), _) => Err(undefined),
            (Ok(_), right) => right.map(Value::Bool),
        }
    }

    /// `forAll` and `exists`: the first body that gives the deciding truth
    /// decides. With none, the first undefined body makes the whole undefined.
    pub(super) fn quantifier(
        &mut self,
        operands: &'m [Node],
        variable: u8,
        deciding: bool,
    ) -> Outcome {
        let source = self.collection(&operands[0])?;
        let mut first = None;
        for element in &source.members {
            let body = self.with(variable, element.clone(), &operands[1]);
            match body.and_then(truth) {
                Ok(truth) if truth == deciding => return Ok(Value::Bool(deciding)),
                Ok(_) => {}
                Err(End::Undefined(origin)) => first = first.or(Some(origin)),
                Err(stop) => return Err(stop),
            }
        }
        match first {
            Some(origin) => Err(End::Undefined(origin)),
            None => Ok(Value::Bool(!deciding)),
        }
    }
}
