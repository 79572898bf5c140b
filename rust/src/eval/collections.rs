//! Forms on collections that bind no variable.

use super::{formed, integer, End, Evaluation, Outcome, STUCK};
use crate::tree::{Form, Node};
use crate::types::Kind;
use crate::values::{Collection, Value};

impl<'m> Evaluation<'m> {
    #[inline]
    pub(super) fn on_collections(&mut self, form: &Form, operands: &'m [Node]) -> Outcome {
        if let Form::Coll(kind) = form {
            return self.literal(*kind, operands);
        }
        let source = self.collection(&operands[0])?;
        match form {
            Form::Size => Ok(integer(source.members.len() as i32)),
            Form::Includes => {
                let value = self.node(&operands[1])?;
                Ok(Value::Bool(source.includes(&value)))
            }
            Form::Convert(kind) => formed(Collection::formed(*kind, source.members.clone())),
            Form::Including => formed(source.including(self.node(&operands[1])?)),
            Form::Union => {
                let other = self.collection(&operands[1])?;
                if source.kind != other.kind {
                    return Err(STUCK);
                }
                formed(source.union(&other))
            }
            _ => unreachable!("a form on no collection"),
        }
    }

    #[inline]
    fn literal(&mut self, kind: Kind, operands: &'m [Node]) -> Outcome {
        let members: Result<Vec<Value>, End> =
            operands.iter().map(|operand| self.node(operand)).collect();
        formed(Collection::formed(kind, members?))
    }
}
