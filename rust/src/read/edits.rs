//! An edit of a running board (F-10): a V line, or one with a minus sign for the value.

use super::fields::Fields;
use super::{require, suits};
use crate::model::{Edit, Model};
use crate::refusal::Refusal;
use crate::values::Value;

/// An edit of what a sheet declares: one line with its line feed, refused as a V line is,
/// but that it may come in any order. How many values there are then, and of what sizes,
/// is not asked here.
pub fn edit(model: &Model, bytes: &[u8]) -> Result<Edit, Refusal> {
    let line = bytes.strip_suffix(b"\n").ok_or(Refusal::BadLine)?;
    let mut fields = Fields::of(line);
    let is_value = fields.next() == b"V" && !line.contains(&b'\n');
    require(is_value, Refusal::BadLine)?;
    let object = fields.object();
    let row = fields.row();
    let value = fields.value_or_none();
    fields.end()?;
    let ordered = value.as_ref().is_none_or(Value::is_ordered);
    require(ordered, Refusal::OutOfOrder)?;
    suits(model, object, row, value.as_ref())?;
    Ok(Edit { object, row, value })
}
