//! Verdicts in words.

use super::advice::advice;
use super::lines::{numbered, Lines};
use super::runs::{Line, Texts, Tree};
use super::why::Why;
use crate::eval::Ended;
use crate::model::{Rule, Sheet};
use crate::wording::shown;
use std::io::{self, Write};

/// The most parts that are shown of one verdict, and the most V lines to look at.
const MOST_PARTS: usize = 30;
const MOST_VALUES: usize = 4;

/// A sheet that is accepted, and its text.
#[derive(Clone, Copy)]
pub struct Told<'t> {
    pub sheet: &'t Sheet,
    pub lines: &'t Lines<'t>,
    /// Whether all steps of a verdict follow its words.
    pub is_traced: bool,
}

/// What a verdict says.
#[derive(Clone, Copy, PartialEq, Eq, Debug)]
pub enum Kind {
    True,
    False,
    Undefined,
    Stopped,
    /// Any other value.
    Value,
}

/// A verdict of the report.
#[derive(Clone, PartialEq, Eq, Debug)]
pub struct Verdict {
    pub rule: usize,
    pub object: u8,
    /// As the report spells it.
    pub value: String,
    pub steps: usize,
    /// Of an undefined one, the line and the step at which undefined arose.
    pub origin: Option<(usize, usize)>,
}

impl Verdict {
    pub fn kind(&self) -> Kind {
        match self.value.as_str() {
            "t" => Kind::True,
            "f" => Kind::False,
            "u" => Kind::Undefined,
            stop if stop.starts_with('!') => Kind::Stopped,
            _ => Kind::Value,
        }
    }
}

impl<'t> Told<'t> {
    fn rule(&self, verdict: &Verdict) -> &'t Rule {
        &self.sheet.rules[verdict.rule]
    }

    fn tree(&self, verdict: &Verdict) -> Tree<'t> {
        Tree::new(self.sheet, self.lines, self.rule(verdict), verdict.object)
    }

    /// A verdict, what made it so, and what to look at.
    pub fn words(&self, verdict: &Verdict) -> String {
        let tree = self.tree(verdict);
        match (verdict.kind(), verdict.origin) {
            (Kind::Undefined, Some(origin)) => self.undefined(verdict, &tree, origin),
            (Kind::Stopped, _) => self.stopped(verdict, &tree),
            _ => self.decided(verdict, &tree),
        }
    }

    /// The first lines of a verdict: what it is of, and the rule.
    fn head(&self, verdict: &Verdict, what: &str) -> String {
        let Verdict { rule, object, .. } = verdict;
        let class = self.sheet.model.objects[usize::from(*object)];
        let text = shown(&self.rule(verdict).root);
        format!("Rule {rule} {what} for @{object}, of class #{class}.\n  rule     {text}\n")
    }

    /// A line of the sheet, and the definition that it stands in.
    fn at(&self, line: usize) -> String {
        let quoted = self.lines.quoted(line);
        let head = self.lines.head(line);
        let head = head.filter(|head| self.lines.bytes(*head).starts_with(b"D"));
        let place = head.map_or(String::new(), |head| {
            format!(", below {}", self.lines.named(head))
        });
        numbered(line, &(quoted + &place))
    }

    /// The X line of a rule, or the R line of one in nodes.
    fn line_of_rule(&self, verdict: &Verdict) -> usize {
        let root = self.rule(verdict).root.line;
        match self.lines.bytes(root).first() {
            Some(b'X') => root,
            _ => self.lines.head(root).unwrap_or(root),
        }
    }

    /// Where undefined arose, and why.
    fn undefined(&self, verdict: &Verdict, tree: &Tree, (line, step): (usize, usize)) -> String {
        let mut out = self.head(verdict, "is undefined");
        out += &self.at(line);
        let at = step - 1;
        let why = Why { tree, at };
        let node = tree.node(at);
        let (arose, look) = why.of(node).expect("undefined arises there");
        out += &format!("  arose    at `{}`, ", shown(node));
        out += &format!("step {step} of {}: {arose}.\n", verdict.steps);
        out + &format!("  look at  {look}.\n")
    }

    /// Where an evaluation was stopped.
    fn stopped(&self, verdict: &Verdict, tree: &Tree) -> String {
        let number = verdict.value[1..].parse().expect("a stop has its number");
        let advice = advice(number).expect("a stop has its words");
        let steps = verdict.steps;
        let what = format!(
            "was stopped, {} ({number}), after {steps} steps,",
            advice.word
        );
        // The innermost run that did not end is the last of them to have begun.
        let stopped = |at: &usize| tree.runs[*at].ended == Ended::Stopped;
        let last = (0..tree.runs.len()).rev().find(stopped).unwrap_or(0);
        let mut out = self.head(verdict, &what);
        out += &self.at(tree.node(last).line);
        out += &format!("  means    {}.\n", advice.meaning);
        out += &format!("  stopped  in `{}`.\n", shown(tree.node(last)));
        // A loop's turns say nothing of where it was stopped; operands do.
        let below = tree.below(last).iter();
        let operands = below.filter(|below| !stopped(below) && !tree.node(last).is_loop());
        // What is written as a value says its value.
        let operands = operands.filter(|below| !tree.node(**below).is_literal());
        for below in operands {
            let line = tree.line(*below, 0, &mut Texts::default());
            out += &format!("  there    {}.\n", line.words);
        }
        out + &format!("  look at  {}.\n", advice.look)
    }

    /// The parts that decided, and the V lines that they read.
    fn decided(&self, verdict: &Verdict, tree: &Tree) -> String {
        let what = match verdict.kind() {
            Kind::True => "is true".to_string(),
            Kind::False => "is false".to_string(),
            _ => format!("comes to {}", tree.spelt(0)),
        };
        let mut out = self.head(verdict, &what);
        let line = self.line_of_rule(verdict);
        out += &numbered(line, &self.lines.quoted(line));
        let parts = tree.decisive();
        let steps = verdict.steps;
        let word = if steps == 1 { "step" } else { "steps" };
        out += &format!("  parts    that decided, of {steps} {word}:\n");
        let width = steps.to_string().len();
        for part in parts.iter().take(MOST_PARTS) {
            out += &indented(part, width, "");
        }
        if parts.len() > MOST_PARTS {
            out += &format!("    .. and {} more\n", parts.len() - MOST_PARTS);
        }
        let trace = match self.is_traced {
            true => "all of them are below".to_string(),
            false => format!("./explain SHEET {} {}", verdict.rule, verdict.object),
        };
        out + &format!("  look at  {}.\n", values(&parts, &trace))
    }

    /// All that ran, a line each.
    pub fn trace(&self, verdict: &Verdict, out: &mut dyn Write) -> io::Result<()> {
        let tree = self.tree(verdict);
        let count = tree.runs.len();
        let word = if count == 1 { "step" } else { "steps" };
        writeln!(out, "  trace    all {count} {word}:")?;
        let width = count.to_string().len();
        let mut depths = Vec::with_capacity(count);
        let mut texts = Texts::default();
        for (at, run) in tree.runs.iter().enumerate() {
            let depth = run.above.map_or(0, |above| depths[above] + 1);
            depths.push(depth);
            let line = format!("line {:<4}", run.node.line);
            let part = tree.line(at, depth, &mut texts);
            out.write_all(indented(&part, width, &line).as_bytes())?;
        }
        Ok(())
    }
}

/// The V lines that parts read, and where they look for one in vain, each once; and the trace
/// where parts have no line.
fn values(parts: &[Line], trace: &str) -> String {
    let mut looks: Vec<&str> = Vec::new();
    for look in parts.iter().filter_map(|part| part.look.as_deref()) {
        if !looks.contains(&look) {
            looks.push(look);
        }
    }
    let others = looks.len() > MOST_VALUES;
    looks.truncate(MOST_VALUES);
    looks.extend(others.then_some("and the other lines above"));
    let turns = format!("what the turns read, step by step: {trace}");
    looks.extend(
        parts
            .iter()
            .any(|part| part.hides)
            .then_some(turns.as_str()),
    );
    if looks.is_empty() {
        return "the rule itself: no value of the sheet stands in the parts above".to_string();
    }
    looks.join("; ")
}

/// A part in a line, with its step.
fn indented(part: &Line, width: usize, line: &str) -> String {
    let Line {
        at, depth, words, ..
    } = part;
    let (step, indent) = (at + 1, 2 * depth);
    format!("    step {step:<width$} {line} {:indent$}{words}\n", "")
}
