//! Why undefined arose at a node all of whose operands have values.

use super::lines::part;
use super::runs::{spelt, Tree};
use crate::tree::{Form, Node};
use crate::values::Value;
use crate::wording::shown;

/// All that ran, and the run of the node.
pub struct Why<'w> {
    pub tree: &'w Tree<'w>,
    pub at: usize,
}

impl Why<'_> {
    /// The value of an operand.
    fn value(&self, place: usize) -> Option<&Value> {
        let operand = self.tree.below(self.at).get(place)?;
        self.tree.value(*operand)
    }

    /// Why it is undefined, and what to look at. None where undefined can't arise there.
    pub fn of(&self, node: &Node) -> Option<(String, String)> {
        Some(match &node.form {
            Form::Undef => (
                "that is what is written there".to_string(),
                "the rule itself: it says `undef`, and whether something is undefined is asked by `isUndef()`"
                    .to_string(),
            ),
            Form::Attr { row: Some(row), .. } => match self.value(0)? {
                Value::Object(object) => self.missing(&[*object], *row),
                _ => return None,
            },
            Form::Collect {
                mark: Some((row, _)),
                ..
            } => self.missing(&self.without(*row)?, *row),
            Form::As(class) => {
                let value = self.value(0)?;
                (self.not_of(value, *class), self.cast(node, value))
            }
            Form::Div | Form::Mod | Form::Over => (
                format!("{} is divided by 0", spelt(self.value(0)?)),
                self.divisor(&node.operands[1]),
            ),
            _ => return None,
        })
    }

    /// The divisor, what it was asked of, and its line.
    fn divisor(&self, node: &Node) -> String {
        let mut said = format!("the divisor, `{}`", part(&shown(node)));
        let operand = self.tree.below(self.at).get(1);
        let Some(at) = operand else {
            return said;
        };
        let bound = self.tree.bound_around(*at, node);
        if !bound.is_empty() {
            said += &format!(", {}", bound.join(", "));
        }
        if let Some(line) = self.tree.value_line(*at) {
            said += &format!(", by {}", self.tree.lines.named(line));
        }
        said
    }

    /// The members of the operand that have no value in a row.
    fn without(&self, row: u8) -> Option<Vec<u8>> {
        let Value::Collection(source) = self.value(0)? else {
            return None;
        };
        let objects = source.members.iter().filter_map(|member| match member {
            Value::Object(object) => Some(*object),
            _ => None,
        });
        let mut without: Vec<u8> = objects
            .filter(|object| self.tree.sheet.model.value(*object, row).is_none())
            .collect();
        without.dedup();
        Some(without)
    }

    fn not_of(&self, value: &Value, class: u8) -> String {
        match value {
            Value::Object(object) => {
                let own = self.tree.sheet.model.objects[usize::from(*object)];
                format!("@{object} is of class #{own}, which is not #{class} or below")
            }
            other => format!("{} is no object", spelt(other)),
        }
    }

    fn cast(&self, node: &Node, value: &Value) -> String {
        let operand = part(&shown(&node.operands[0]));
        let declared = match value {
            Value::Object(object) => self.tree.lines.declared(b'O', &[*object]),
            _ => None,
        };
        match declared {
            Some(line) => format!("{}; and `{operand}`", self.tree.lines.named(line)),
            None => format!("the values of `{operand}`"),
        }
    }

    /// Objects that have no value in a row.
    fn missing(&self, objects: &[u8], row: u8) -> (String, String) {
        let name = self.tree.sheet.model.rows[usize::from(row)].name;
        let named: Vec<String> = objects.iter().map(|object| format!("@{object}")).collect();
        let have = if objects.len() == 1 { "has" } else { "have" };
        let arose = format!(
            "{} {have} no value in row {row}, name {name}",
            named.join(", ")
        );
        let declared = self.tree.lines.declared(b'A', &[row]);
        let declared = declared.map_or(String::new(), |line| {
            format!("{}; and ", self.tree.lines.named(line))
        });
        let whom = named.join(" or ");
        let look =
            format!("{declared}the V lines, none of which gives {whom} a value in row {row}");
        (arose, look)
    }
}
