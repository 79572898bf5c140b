//! Comparisons that are never true. They are accepted, and a rule that denies one is kept, or
//! undefined, whatever the values are.

use super::lines::part;
use super::typed::spelt;
use crate::model::{Classes, Sheet};
use crate::tree::{Form, Node};
use crate::types::Type;
use crate::wording::shown;

/// A sentence for each `=` and each `includes` that is never true.
pub fn never_true(sheet: &Sheet) -> Vec<String> {
    let definitions = sheet.definitions.iter().map(|definition| &definition.root);
    let rules = sheet.rules.iter().map(|rule| &rule.root);
    let nodes = definitions.chain(rules).flat_map(Node::nodes);
    nodes
        .filter_map(|node| unlike(node, &sheet.model.classes))
        .collect()
}

fn unlike(node: &Node, classes: &Classes) -> Option<String> {
    let [left, right] = node.operands.as_slice() else {
        return None;
    };
    let named = format!("Never true: `{}`, line {}", part(&shown(node)), node.line);
    let is_undef = |operand: &&Node| operand.form == Form::Undef;
    if node.form == Form::Eq && [left, right].iter().any(is_undef) {
        return Some(format!(
            "{named}: whether something is undefined is asked by `isUndef()`.\n"
        ));
    }
    let (left_type, right_type) = (left.ty.as_ref()?, right.ty.as_ref()?);
    let compared = match node.form {
        Form::Eq => left_type,
        Form::Includes => left_type.member()?,
        _ => return None,
    };
    are_apart(compared, right_type, classes).then(|| {
        format!(
            "{named}, as `{}` is of type {} and `{}` of type {}.\n",
            part(&shown(left)),
            spelt(left_type),
            part(&shown(right)),
            spelt(right_type)
        )
    })
}

/// Whether no value belongs to both types. Two collections of one kind may both be empty.
fn are_apart(left: &Type, right: &Type, classes: &Classes) -> bool {
    use Type::*;
    match (left, right) {
        (Class(left), Class(right)) => {
            !classes.is_below(*left, *right) && !classes.is_below(*right, *left)
        }
        (Of(left, _), Of(right, _)) => left != right,
        (Bool, Int | Real | Class(_)) | (Int | Real, Bool | Class(_)) => true,
        (Class(_), Bool | Int | Real) => true,
        _ => false,
    }
}
