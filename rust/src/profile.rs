//! The free-numbering profile (F-12): which nodes of rules stand outside it.

use crate::model::{Rule, Sheet};
use crate::rows::reached;
use crate::tree::{Form, Node};
use crate::types::{Kind, Type};

/// Whether a typed node stands outside: `iter`, `asSequence`, or `union`, `including`
/// or `collect` on a type `Q(..)`.
pub fn is_outside(node: &Node) -> bool {
    match node.form {
        Form::Iter { .. } | Form::Convert(Kind::Sequence) => true,
        Form::Union | Form::Including | Form::Collect { .. } => {
            matches!(node.operands[0].ty, Some(Type::Of(Kind::Sequence, _)))
        }
        _ => false,
    }
}

/// The nodes of a rule and of every definition that it reaches, run or not.
pub fn all_nodes<'s>(sheet: &'s Sheet, rule: &'s Rule) -> Vec<&'s Node> {
    let definitions = reached(sheet, &rule.root).into_iter();
    let bodies = definitions.map(|number| &sheet.definitions[usize::from(number)].root);
    bodies.chain([&rule.root]).flat_map(Node::nodes).collect()
}

pub fn is_in_profile(sheet: &Sheet, rule: &Rule) -> bool {
    !all_nodes(sheet, rule).into_iter().any(is_outside)
}

/// The lowest line of a node outside, on a sheet whose definitions and rules are typed.
pub fn lowest_line(sheet: &Sheet) -> Option<usize> {
    let nodes = (sheet.rules.iter()).flat_map(|rule| all_nodes(sheet, rule));
    let outside = nodes.filter(|node| is_outside(node));
    outside.map(|node| node.line).min()
}
