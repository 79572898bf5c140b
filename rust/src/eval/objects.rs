//! What is asked of objects: those of a class, a cast, and the values in their rows.

use super::{formed, End, Evaluation, Outcome, STUCK};
use crate::tree::Node;
use crate::types::Kind;
use crate::values::{Collection, Value};

impl<'m> Evaluation<'m> {
    #[inline]
    pub(super) fn all(&self, class: u8) -> Outcome {
        let objects = self.model.objects_of(class).map(Value::Object);
        formed(Collection::as_given(Kind::Set, objects.collect()))
    }

    #[inline]
    pub(super) fn cast(&mut self, class: u8, operands: &'m [Node], here: End) -> Outcome {
        match self.node(&operands[0])? {
            Value::Collection(_) => Err(STUCK),
            Value::Object(object) if self.model.is_of(object, class) => Ok(Value::Object(object)),
            _ => Err(here),
        }
    }

    #[inline]
    pub(super) fn attribute(
        &mut self,
        row: Option<u8>,
        operands: &'m [Node],
        here: End,
    ) -> Outcome {
        let row = row.expect("typing marks the row of every attr");
        self.rows |= 1 << row;
        let value = self.node(&operands[0])?;
        self.in_row(row, &value)?.ok_or(here)
    }

    #[inline]
    pub(super) fn collected(
        &mut self,
        mark: Option<(u8, Kind)>,
        operands: &'m [Node],
        here: End,
    ) -> Outcome {
        let (row, kind) = mark.expect("typing marks every collect");
        self.rows |= 1 << row;
        let source = self.collection(&operands[0])?;
        // All members are looked at first: a wrong kind goes before a missing value.
        let values: Result<Vec<Option<Value>>, End> = source
            .members
            .iter()
            .map(|member| self.in_row(row, member))
            .collect();
        let values: Option<Vec<Value>> = values?.into_iter().collect();
        formed(Collection::formed(kind, values.ok_or(here)?))
    }

    /// The value of a row for an object of the row's class or below.
    fn in_row(&self, row: u8, value: &Value) -> Result<Option<Value>, End> {
        let class = self.model.rows[usize::from(row)].class;
        match value {
            Value::Object(object) if self.model.is_of(*object, class) => {
                Ok(self.model.value(*object, row).cloned())
            }
            _ => Err(STUCK),
        }
    }
}
