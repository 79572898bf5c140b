//! All that ran in an evaluation: each node, as often as it began, what it was an operand
//! of, and how it ended. Slow, and so not for calls: their answers are held against it,
//! and explained by it.

use super::{End, Evaluation, Outcome};
use crate::model::{Rule, Sheet};
use crate::tree::Node;
use crate::values::Value;

/// One run of a node. It began at the step that is its position among the runs, from 1.
pub struct Run<'n> {
    pub node: &'n Node,
    /// The run, by position, that it was an operand of. A called body is the call's.
    pub above: Option<usize>,
    pub ended: Ended,
}

/// How a run ended.
#[derive(PartialEq, Eq)]
pub enum Ended {
    Defined(Value),
    Undefined,
    /// The evaluation was stopped in it.
    Stopped,
}

impl Run<'_> {
    pub fn is_undefined(&self) -> bool {
        self.ended == Ended::Undefined
    }

    pub fn value(&self) -> Option<&Value> {
        match &self.ended {
            Ended::Defined(value) => Some(value),
            _ => None,
        }
    }
}

/// The runs so far, and the one that is under way.
#[derive(Default)]
pub(super) struct Kept<'n> {
    runs: Vec<Run<'n>>,
    under_way: Option<usize>,
}

impl<'n> Kept<'n> {
    /// A run begins; gives the one that it is an operand of.
    pub(super) fn begin(&mut self, node: &'n Node) -> Option<usize> {
        let above = self.under_way.replace(self.runs.len());
        self.runs.push(Run {
            node,
            above,
            ended: Ended::Stopped,
        });
        above
    }

    pub(super) fn end(&mut self, above: Option<usize>, outcome: &Outcome) {
        let ended = std::mem::replace(&mut self.under_way, above);
        let run = ended.and_then(|position| self.runs.get_mut(position));
        run.expect("a run is under way").ended = match outcome {
            Ok(value) => Ended::Defined(value.clone()),
            Err(End::Undefined(_)) => Ended::Undefined,
            Err(End::Stop(_)) => Ended::Stopped,
        };
    }
}

/// What a rule runs for an object, in the order in which it began.
pub fn runs<'s>(sheet: &'s Sheet, rule: &'s Rule, object: u8) -> Vec<Run<'s>> {
    let mut evaluation = Evaluation::new(sheet, object);
    evaluation.kept = Some(Kept::default());
    // However it ends, they began.
    let _ = evaluation.node(&rule.root);
    evaluation.kept.map_or(Vec::new(), |kept| kept.runs)
}
