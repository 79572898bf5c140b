//! The types of forms on collections that bind no variable.

use super::{layered, member_type, Typing};
use crate::refusal::Refusal;
use crate::tree::Form;
use crate::types::Type;

impl Typing<'_> {
    pub(super) fn on_collections(&self, form: &Form, types: &[Type]) -> Result<Type, Refusal> {
        match form {
            Form::Coll(kind) => {
                let mut members = types.iter();
                let member = members.try_fold(Type::Void, |common, ty| self.common(&common, ty))?;
                layered(*kind, member)
            }
            Form::Size => member_type(&types[0]).map(|_| Type::Int),
            Form::Includes => {
                let member = member_type(&types[0])?;
                self.common(&member, &types[1])?;
                Ok(Type::Bool)
            }
            Form::Convert(kind) => Ok(Type::of(*kind, member_type(&types[0])?)),
            Form::Including => {
                let Type::Of(kind, member) = &types[0] else {
                    return Err(Refusal::WrongOperandType);
                };
                layered(*kind, self.common(member, &types[1])?)
            }
            Form::Union => match (&types[0], &types[1]) {
                (Type::Of(kind, left), Type::Of(other, right)) if kind == other => {
                    Ok(Type::of(*kind, self.common(left, right)?))
                }
                _ => Err(Refusal::WrongOperandType),
            },
            _ => unreachable!("a form on no collection"),
        }
    }
}
