//! The types of arithmetic and `less`, and the numbers that they are marked for.

use super::Typing;
use crate::refusal::Refusal;
use crate::tree::Scale;
use crate::types::Type;

impl Typing<'_> {
    /// The type of arithmetic on the numbers that it is marked for.
    pub(super) fn marked(&self, mark: &mut Option<Scale>, types: &[Type]) -> Result<Type, Refusal> {
        let scale = self.scale(types)?;
        *mark = Some(scale);
        Ok(match scale {
            Scale::Integers => Type::Int,
            Scale::Reals => Type::Real,
        })
    }

    /// Integers where both operands are typed below Int, else both kinds.
    fn scale(&self, types: &[Type]) -> Result<Scale, Refusal> {
        if self.all_below(types, &Type::Int).is_ok() {
            return Ok(Scale::Integers);
        }
        self.all_below(types, &Type::Real)?;
        Ok(Scale::Reals)
    }
}
