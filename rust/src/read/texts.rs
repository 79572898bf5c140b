//! The X line of a rule.

use super::fields::Fields;
use super::nodes::MOST_NODES;
use super::sentences::{sentence, Sentence};
use super::tokens::{most_open, tokens, MOST_OPEN};
use super::{require, Reader};
use crate::refusal::Refusal;
use crate::tree::Node;

impl Reader {
    /// Brackets are counted before the text is read, and all else is asked of the
    /// whole text, one refusal after the other.
    pub(super) fn text(&mut self, mut fields: Fields, place: usize) -> Result<(), Refusal> {
        let text = fields.next();
        fields.end()?;
        let tokens = tokens(text);
        require(most_open(&tokens) <= MOST_OPEN, Refusal::OutOfLimits)?;
        let Sentence { shapes, over } = sentence(&tokens).ok_or(Refusal::NoSentence)?;
        let count = self.nodes + shapes.len();
        require(!over && count <= MOST_NODES, Refusal::OutOfLimits)?;

        // Only a rule that has nothing yet takes a text.
        let tree = self.open.as_ref().filter(|tree| tree.declared.is_none());
        let empty = tree.is_some_and(|tree| tree.nodes.is_empty());
        let twice = shapes.iter().any(|shape| shape.form.binds_twice());
        require(empty && !twice, Refusal::OutOfOrder)?;
        for shape in &shapes {
            self.known_class(shape.form.class())?;
        }
        for shape in &shapes {
            self.callable(&shape.form, false)?;
        }

        let tree = self.open.as_mut().ok_or(Refusal::OutOfOrder)?;
        for shape in shapes {
            let mut take = |operand: usize| tree.nodes[operand].take();
            let operands = shape.operands.into_iter().filter_map(&mut take).collect();
            tree.nodes.push(Some(Node {
                form: shape.form,
                operands,
                line: place,
                ty: None,
            }));
        }
        tree.is_text = true;
        tree.last_line = place;
        self.nodes = count;
        Ok(())
    }
}
