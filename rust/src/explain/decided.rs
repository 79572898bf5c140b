//! Which parts of a rule made its verdict what it is.

use super::lines::part;
use super::runs::{Line, Tree};
use super::why::Why;
use crate::tree::{Form, Node};
use crate::values::Value;
use crate::wording::shown;

/// The most turns of a loop of which more is shown than a line.
const FEW: usize = 2;

impl Tree<'_> {
    /// The parts that made the root what it is, each below what it decided.
    pub fn decisive(&self) -> Vec<Line> {
        let mut found = Vec::new();
        self.gather(0, 0, &mut found);
        found
    }

    fn gather(&self, at: usize, depth: usize, found: &mut Vec<Line>) {
        if self.runs[at].is_undefined() {
            found.push(self.undefined_line(at, depth));
            return;
        }
        found.push(self.short_line(at, depth));
        if self.node(at).is_loop() {
            return self.gather_turns(at, depth + 1, found);
        }
        self.gather_each(&self.deciding(at), depth + 1, found);
    }

    /// An undefined run in one line, with where its undefined arose.
    fn undefined_line(&self, at: usize, depth: usize) -> Line {
        let mut line = self.short_line(at, depth);
        let origin = self.origin(at);
        let why = Why {
            tree: self,
            at: origin,
        };
        if let Some((arose, look)) = why.of(self.node(origin)) {
            if origin != at {
                let text = part(&shown(self.node(origin)));
                line.words += &format!(", by `{text}` at step {}", origin + 1);
            }
            line.words += &format!(": {arose}");
            line.look = Some(look);
        }
        line
    }

    /// Of a loop that one body decided, that body; of one without a turn, what it would have
    /// gone through; of another, each turn, and if there are many, each in a line alone.
    fn gather_turns(&self, at: usize, depth: usize, found: &mut Vec<Line>) {
        let (_, bodies) = self.turns(at);
        // A source that stands on the sheet may be at fault; all objects of a class are not.
        if let ([source, ..], Some(_)) = (self.below(at), bodies.last()) {
            let reads = |node: &&Node| {
                matches!(
                    node.form,
                    Form::Attr { .. } | Form::Collect { .. } | Form::Call(_)
                )
            };
            if self.node(*source).nodes().iter().any(reads) {
                self.gather(*source, depth, found);
            }
        }
        match (self.decided_by(at), bodies.last()) {
            (Some(_), Some(last)) => self.gather(*last, depth, found),
            (_, None) => self.gather_each(self.below(at), depth, found),
            _ if bodies.len() <= FEW => {
                for body in bodies {
                    self.gather(*body, depth, found);
                }
            }
            _ => found.extend(bodies.iter().map(|body| self.lone_line(*body, depth))),
        }
    }

    fn gather_each(&self, runs: &[usize], depth: usize, found: &mut Vec<Line>) {
        for below in runs {
            if !is_plain(self.node(*below)) {
                self.gather(*below, depth, found);
            }
        }
    }

    /// A run in one line, with nothing of what stands below it.
    fn lone_line(&self, at: usize, depth: usize) -> Line {
        let mut below = self.below(at).iter();
        let hides = below.any(|below| !is_plain(self.node(*below)));
        Line {
            hides,
            ..self.short_line(at, depth)
        }
    }

    /// The operands that made a run what it is.
    fn deciding(&self, at: usize) -> Vec<usize> {
        let below = self.below(at);
        let deciding = match self.node(at).form {
            Form::And => false,
            Form::Or => true,
            _ => return below.to_vec(),
        };
        let decides = |below: &&usize| self.value(**below) == Some(&Value::Bool(deciding));
        match below.iter().find(decides) {
            Some(one) => vec![*one],
            None => below.to_vec(),
        }
    }

    /// Where the undefined of a run arose.
    fn origin(&self, at: usize) -> usize {
        let undefined = |below: &&usize| self.runs[**below].is_undefined();
        match self.below(at).iter().find(undefined) {
            Some(below) => self.origin(*below),
            None => at,
        }
    }
}

/// What needs no line of its own: what is written says what it is, or what it is bound to
/// has been said.
fn is_plain(node: &Node) -> bool {
    node.is_literal() || matches!(node.form, Form::Undef | Form::SelfObject | Form::Var(_))
}
