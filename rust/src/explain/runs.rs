//! All that ran for one rule and object, as a tree: which runs stand below which, what was
//! bound in them, and each in words.

use super::lines::{cut, part, Lines};
use crate::eval::{runs, Ended, Run};
use crate::model::{Rule, Sheet};
use crate::report::spell;
use crate::tree::{Form, Node};
use crate::values::Value;
use crate::wording::shown;
use std::collections::HashMap;

/// The longest value that is shown beside a part.
const LONGEST_VALUE: usize = 80;

/// The most V lines that are named beside a part.
const MOST_LINES: usize = 6;

/// The runs of one rule and object, by position: the run at a position began one step later.
pub struct Tree<'s> {
    pub(super) sheet: &'s Sheet,
    pub(super) lines: &'s Lines<'s>,
    pub runs: Vec<Run<'s>>,
    /// The operands that each run ran, in order.
    below: Vec<Vec<usize>>,
}

/// A run, how far it stands below what was asked for, and what is said of it.
pub struct Line {
    pub at: usize,
    pub depth: usize,
    pub words: String,
    /// What to look at, if it is a value of the sheet.
    pub look: Option<String>,
    /// Whether parts below it decided that have no line.
    pub hides: bool,
}

impl<'s> Tree<'s> {
    pub fn new(sheet: &'s Sheet, lines: &'s Lines<'s>, rule: &'s Rule, object: u8) -> Tree<'s> {
        let runs = runs(sheet, rule, object);
        let mut below = vec![Vec::new(); runs.len()];
        for (position, run) in runs.iter().enumerate() {
            if let Some(above) = run.above {
                below[above].push(position);
            }
        }
        Tree {
            sheet,
            lines,
            runs,
            below,
        }
    }

    pub fn node(&self, at: usize) -> &'s Node {
        self.runs[at].node
    }

    pub fn below(&self, at: usize) -> &[usize] {
        &self.below[at]
    }

    pub(super) fn value(&self, at: usize) -> Option<&Value> {
        self.runs[at].value()
    }

    /// What a run came to, as a report spells it.
    pub fn spelt(&self, at: usize) -> String {
        match &self.runs[at].ended {
            Ended::Defined(value) => spelt(value),
            Ended::Undefined => "u".to_string(),
            Ended::Stopped => "not known: it was stopped".to_string(),
        }
    }

    /// The members that a loop goes through, and the runs of its body.
    pub(super) fn turns(&self, at: usize) -> (&[Value], &[usize]) {
        let is_iter = matches!(self.node(at).form, Form::Iter { .. });
        let before = 1 + usize::from(is_iter);
        let below = self.below(at);
        let source = below.first().and_then(|source| self.value(*source));
        let members = match source {
            Some(Value::Collection(source)) => source.members.as_slice(),
            _ => &[],
        };
        (members, below.get(before..).unwrap_or_default())
    }

    /// Where the value of an attribute stands on the sheet.
    pub fn value_line(&self, at: usize) -> Option<usize> {
        match self.value_lines(at)[..] {
            [line] => Some(line),
            _ => None,
        }
    }

    /// Where the values stand that an attribute or `collect` reads.
    fn value_lines(&self, at: usize) -> Vec<usize> {
        let Some(row) = self.node(at).form.row() else {
            return Vec::new();
        };
        let read = self.below(at).first().and_then(|first| self.value(*first));
        let members = match read {
            Some(Value::Collection(collection)) => collection.members.as_slice(),
            Some(one) => std::slice::from_ref(one),
            None => &[],
        };
        let lines = members.iter().filter_map(|member| match member {
            Value::Object(object) => self.lines.declared(b'V', &[*object, row]),
            _ => None,
        });
        lines.collect()
    }

    /// A run in words: its part of the rule, what it came to, and what goes with it.
    pub fn line(&self, at: usize, depth: usize, texts: &mut Texts) -> Line {
        let whole = self.spelt(at);
        let text = format!("`{}`", texts.of(self.node(at)));
        self.words(at, depth, &text, &whole)
    }

    pub(super) fn short_line(&self, at: usize, depth: usize) -> Line {
        let text = match at {
            0 => "the rule".to_string(),
            _ => format!("`{}`", part(&shown(self.node(at)))),
        };
        self.words(at, depth, &text, &cut(&self.spelt(at), LONGEST_VALUE))
    }

    fn words(&self, at: usize, depth: usize, text: &str, value: &str) -> Line {
        let mut words = format!("{text} is {value}");
        if let Form::Call(number) = self.node(at).form {
            let declared = self.lines.declared(b'D', &[number]);
            let line = declared.map_or(String::new(), |line| self.lines.named(line));
            words += &format!(", by definition {number}, {line}");
        }
        if let Some(turns) = self.turns_in_words(at) {
            words += &format!(", {turns}");
        }
        if let Some(bound) = self.bound(at) {
            words += &format!(", {bound}");
        }
        let look = self.looked_at(at);
        if let Some(line) = &look {
            words += &format!(", by {line}");
        }
        Line {
            at,
            depth,
            words,
            look,
            hides: false,
        }
    }

    /// The V lines that a run reads: one as it stands, and several by their numbers.
    fn looked_at(&self, at: usize) -> Option<String> {
        let lines = self.value_lines(at);
        match lines[..] {
            [] => None,
            [line] => Some(self.lines.named(line)),
            _ => {
                let shown = lines.iter().take(MOST_LINES);
                let mut named: Vec<String> = shown.map(|line| format!("line {line}")).collect();
                let others = lines.len().saturating_sub(MOST_LINES);
                named.extend((others > 0).then(|| format!("{others} more")));
                let last = named.pop()?;
                Some(format!("{} and {last}", named.join(", ")))
            }
        }
    }

    /// The turn whose body decided a `forAll` or an `exists`.
    pub(super) fn decided_by(&self, at: usize) -> Option<usize> {
        let deciding = match self.node(at).form {
            Form::ForAll(_) => false,
            Form::Exists(_) => true,
            _ => return None,
        };
        let decided = self.value(at) == Some(&Value::Bool(deciding));
        decided.then(|| self.turns(at).1.len())
    }

    /// How far a loop went.
    fn turns_in_words(&self, at: usize) -> Option<String> {
        let (members, bodies) = self.turns(at);
        let (all, ran) = (members.len(), bodies.len());
        self.value(at)?;
        Some(match (&self.node(at).form, self.decided_by(at)) {
            (_, Some(turn)) => format!("by member {turn} of {all}"),
            (Form::ForAll(_), None) if all == 0 => "as there is no member".to_string(),
            (Form::ForAll(_), None) => format!("by all of its members ({all})"),
            (Form::Exists(_), None) => format!("by none of its members ({all})"),
            (Form::Iter { .. }, None) if ran == 1 => "in 1 turn".to_string(),
            (Form::Iter { .. }, None) => format!("in {ran} turns"),
            _ => return None,
        })
    }
}

/// A value as a report spells it; a Real with its digits behind it.
pub fn spelt(value: &Value) -> String {
    let mut out = Vec::new();
    spell(Some(value), &mut out);
    let spelt = String::from_utf8_lossy(&out).into_owned();
    match value {
        Value::Number(number) if number.integer().is_none() => {
            format!("{spelt} ({})", digits(number.widened()))
        }
        _ => spelt,
    }
}

/// The fewest decimal digits that come back as the same Real.
fn digits(real: f64) -> String {
    if (1e-4..1e15).contains(&real.abs()) {
        real.to_string()
    } else {
        format!("{real:e}")
    }
}

pub(super) fn spelt_short(value: &Value) -> String {
    cut(&spelt(value), LONGEST_VALUE)
}

/// The texts of nodes: a node that runs often is written once.
#[derive(Default)]
pub struct Texts(HashMap<*const Node, String>);

impl Texts {
    fn of(&mut self, node: &Node) -> &str {
        let kept = self.0.entry(std::ptr::from_ref(node));
        kept.or_insert_with(|| part(&shown(node)))
    }
}
