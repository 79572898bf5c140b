//! The types of what is asked of objects: rows, casts and calls.

use super::{layered, member_type, Typing};
use crate::refusal::Refusal;
use crate::types::{Kind, Type};

impl Typing<'_> {
    pub(super) fn attribute(
        &self,
        name: u8,
        row: &mut Option<u8>,
        class: &Type,
    ) -> Result<Type, Refusal> {
        let (found, ty) = self.row(class, name)?;
        *row = Some(found);
        Ok(ty)
    }

    /// Only a Sequence keeps its order; what else is collected is a Bag.
    pub(super) fn collected(
        &self,
        name: u8,
        mark: &mut Option<(u8, Kind)>,
        source: &Type,
    ) -> Result<Type, Refusal> {
        let (found, ty) = self.row(&member_type(source)?, name)?;
        let kind = match source {
            Type::Of(Kind::Sequence, _) => Kind::Sequence,
            _ => Kind::Bag,
        };
        *mark = Some((found, kind));
        layered(kind, ty)
    }

    /// The row that the name has for a class, and its type.
    fn row(&self, class: &Type, name: u8) -> Result<(u8, Type), Refusal> {
        let Type::Class(class) = class else {
            return Err(Refusal::WrongOperandType);
        };
        let row = self.model.row(*class, name).ok_or(Refusal::NoAttribute)?;
        Ok((row, self.model.rows[usize::from(row)].ty.clone()))
    }

    pub(super) fn cast(&self, class: u8, from: &Type) -> Result<Type, Refusal> {
        let classes = &self.model.classes;
        let related = match *from {
            Type::Any => true,
            Type::Class(from) => classes.is_below(from, class) || classes.is_below(class, from),
            _ => return Err(Refusal::WrongOperandType),
        };
        let cast = Type::Class(class);
        related.then_some(cast).ok_or(Refusal::NoCommonType)
    }

    pub(super) fn called(&self, number: u8, operand: &Type) -> Result<Type, Refusal> {
        let called = &self.definitions[usize::from(number)];
        match *operand {
            Type::Class(class) if self.model.classes.is_below(class, called.class) => {
                Ok(called.ty.clone())
            }
            _ => Err(Refusal::WrongOperandType),
        }
    }
}
