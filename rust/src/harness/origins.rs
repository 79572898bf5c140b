//! The cases about where undefined came from that a comparison must have met: each node
//! at which it arises, each way that it takes to the root, and each in which it is lost.

use crate::calls::{accepted, Answer};
use crate::eval::{evaluate, runs, Run, MOST_STEPS};
use crate::generate::{Ask, Call};
use crate::model::{Rule, Sheet};
use crate::origins::followed;
use crate::tree::{Form, Node};
use crate::values::Value;
use std::collections::BTreeSet;
use std::ptr;

/// The most steps of verdicts that are looked at, on one sheet and for one verdict.
const MOST_OF_SHEET: u64 = 300_000;
const MOST_OF_VERDICT: u64 = 20_000;
/// The fewest bytes of a report's line.
const LEAST_LINE: usize = 8;

/// What is met where the lines of a sheet are compared.
pub struct Origins {
    names: BTreeSet<String>,
    verdicts: usize,
}

impl Origins {
    /// None where the sheet is refused.
    pub fn of(text: &[u8]) -> Option<Origins> {
        let (sheet, _) = accepted(text).ok()?;
        let mut origins = Origins {
            names: BTreeSet::new(),
            verdicts: 0,
        };
        let mut steps = 0;
        for rule in &sheet.rules {
            for object in sheet.model.objects_of(rule.context) {
                origins.verdicts += 1;
                if steps < MOST_OF_SHEET {
                    steps += origins.verdict(text, &sheet, rule, object);
                }
            }
        }
        Some(origins)
    }

    fn meet(&mut self, name: impl Into<String>) {
        self.names.insert(name.into());
    }

    /// What one verdict is a case of; gives its steps.
    fn verdict(&mut self, text: &[u8], sheet: &Sheet, rule: &Rule, object: u8) -> u64 {
        let (outcome, steps) = evaluate(sheet, rule, object);
        let stop = outcome.as_ref().err().map(|stop| stop.refusal() as u8);
        match stop {
            Some(16) => self.meet("no line for the step stop"),
            Some(17) => self.meet("no line for the size stop"),
            Some(_) => self.meet("no line for the range's end"),
            None => {}
        }
        if steps > MOST_OF_VERDICT {
            return steps;
        }
        let runs = runs(sheet, rule, object);
        self.lost(&runs);
        let path = followed(&runs);
        for pair in path.windows(2) {
            self.meet(operand(&runs, pair[0], pair[1]));
        }
        if let Some(last) = path.last() {
            self.arose(text, &runs, *last);
            let earlier = runs[..*last].iter().zip(0..);
            let mut blank = earlier.filter(|(run, _)| run.is_undefined());
            if blank.any(|(_, position)| !path.contains(&position)) {
                self.meet("undefined lost before another one is followed");
            }
        }
        let is_blank = |run: &Run| run.is_undefined();
        if stop.is_some() && runs.iter().any(is_blank) {
            self.meet("no line for a stop behind undefined");
        }
        steps
    }

    /// The node at which it arose.
    fn arose(&mut self, text: &[u8], runs: &[Run], position: usize) {
        let node = runs[position].node;
        self.meet(format!("undefined arose at {}", node.form.word()));
        let operand = runs.iter().find(|run| run.above == Some(position));
        let value = operand.and_then(|run| run.value());
        let is_object = matches!(value, Some(Value::Object(_)));
        if matches!(node.form, Form::As(_)) && !is_object {
            self.meet("undefined arose at as of what is no object");
        }
        if position == 0 {
            self.meet("undefined arose at the root");
        }
        let mut lines = text.split(|byte| *byte == b'\n');
        if lines
            .nth(node.line - 1)
            .is_some_and(|line| line.starts_with(b"X"))
        {
            self.meet("undefined arose at a text");
        }
        match calls_above(runs, position) {
            0 => {}
            1 => self.meet("undefined arose in a definition"),
            _ => self.meet("undefined arose in a definition that another one calls"),
        }
    }

    /// Where undefined is an operand of a node that has a value.
    fn lost(&mut self, runs: &[Run]) {
        for run in runs.iter().filter(|run| run.is_undefined()) {
            let above = run.above.map(|above| &runs[above]);
            if let Some(above) = above.filter(|above| above.value().is_some()) {
                self.meet(format!("undefined lost in {}", above.node.form.word()));
            }
        }
    }

    /// The names of the cases that a call with this answer is; `written` are its lines.
    pub fn met(&self, ask: Ask, answer: Answer, written: &[u8]) -> Vec<&str> {
        if ask.call != Call::Undefined {
            return Vec::new();
        }
        if answer.number == 18 {
            return vec!["lines too long"];
        }
        let mut met: Vec<&str> = self.names.iter().map(String::as_str).collect();
        for line in String::from_utf8_lossy(written).lines() {
            let numbers: Vec<u64> = line.split(' ').filter_map(|n| n.parse().ok()).collect();
            if let [_, _, line, step] = numbers[..] {
                for name in far(line, step) {
                    met.push(name);
                }
            }
        }
        met.extend((answer.length == 0).then_some("no line at all"));
        met.extend((answer.length == ask.out as u64).then_some("lines that just fit"));
        let is_less = LEAST_LINE * self.verdicts > ask.out;
        met.extend(is_less.then_some("lines that fit where a report does not"));
        met
    }
}

/// The cases of a line or a step that is far.
fn far(line: u64, step: u64) -> impl Iterator<Item = &'static str> {
    let cases = [
        (
            step == MOST_STEPS,
            "undefined arose at the last step that there can be",
        ),
        (step > 65_535, "undefined arose past step 65,535"),
        (line > 255, "undefined arose past line 255"),
        (line > 1_023, "undefined arose past line 1,023"),
    ];
    let met = cases.into_iter().filter(|(is, _)| *is);
    met.map(|(_, name)| name)
}

/// How many called bodies a run stands in.
fn calls_above(runs: &[Run], position: usize) -> usize {
    let above = |position: &usize| runs[*position].above;
    let upward = std::iter::successors(Some(position), above);
    let is_body = |position: &usize| {
        let above = runs[*position].above.map(|above| runs[above].node);
        above.is_some_and(|above| place(above, runs[*position].node).is_none())
    };
    upward.filter(is_body).count()
}

/// Which operand a node is of another; none for a called body.
fn place(above: &Node, node: &Node) -> Option<usize> {
    (above.operands.iter()).position(|operand| ptr::eq(operand, node))
}

/// The name of the case that a run's undefined is followed from an operand's.
fn operand(runs: &[Run], above: usize, followed: usize) -> String {
    let node = runs[above].node;
    let word = node.form.word();
    let Some(place) = place(node, runs[followed].node) else {
        return format!("undefined from the body of {word}");
    };
    let own = |run: &&Run| run.above == Some(above);
    let after = runs[followed + 1..].iter().filter(own);
    let too = if after.filter(|run| run.is_undefined()).count() > 0 {
        match node.form {
            Form::And | Form::Or => ", the other undefined too",
            _ => ", another undefined too",
        }
    } else {
        ""
    };
    let is_body = match node.form {
        Form::Iter { .. } => place == 2,
        Form::ForAll(_) | Form::Exists(_) => place == 1,
        _ => false,
    };
    if !is_body {
        return format!("undefined from operand {} of {word}{too}", place + 1);
    }
    let before = runs[above + 1..followed].iter().filter(own);
    match before.count() {
        sources if sources == place => format!("undefined from body 1 of {word}{too}"),
        _ => format!("undefined from a later body of {word}{too}"),
    }
}
