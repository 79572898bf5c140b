//! Stands in for a product that tells wrong rows, or whose rules see more than theirs,
//! to show that the comparison finds it.

use super::{second, Calls};
use crate::calls::{accepted, Answer, Words};
use crate::eval::rows_run;
use crate::generate::Call;
use crate::model::{Rule, Sheet};
use crate::rows::{own_rows, reached, rows_seen};
use crate::tree::{Form, Node};

/// The second evaluator itself, but for the rows that it tells.
#[derive(Clone, Copy, PartialEq, Eq, Debug)]
pub enum Oversight {
    /// Rows of `collect` are left out.
    Collect,
    /// Rows of definitions are left out.
    Called,
    /// Rows of a definition are left out that another one calls.
    CalledFurther,
    /// Rows of a definition are told that the rule does not reach.
    Unreached,
    /// Rows are left out that no object makes the rule read.
    Unrun,
    /// Names are told in place of rows.
    Names,
    /// Rows are told as often as there are nodes for them.
    Repeated,
    /// Row 10 is told before row 9.
    ByDigits,
    /// A rule without rows has no line.
    NoLine,
    /// Behind a rule's number there is always a space.
    Space,
    /// Lines that just fit are too long.
    Room,
}

/// The bodies of definitions, by number.
fn bodies(sheet: &Sheet, numbers: impl Iterator<Item = u8>) -> impl Iterator<Item = &Node> {
    numbers.map(|number| &sheet.definitions[usize::from(number)].root)
}

/// The rows of a rule's nodes and of those that it reaches, one for each node of a form.
fn of_forms(sheet: &Sheet, rule: &Rule, is_meant: fn(&Form) -> bool) -> Vec<u8> {
    let reached = reached(sheet, &rule.root).into_iter();
    let nodes = bodies(sheet, reached)
        .chain([&rule.root])
        .flat_map(Node::nodes);
    let meant = nodes.filter(|node| is_meant(&node.form));
    let mut rows: Vec<u8> = meant.filter_map(|node| node.form.row()).collect();
    rows.sort();
    rows
}

impl Oversight {
    pub const ALL: [Oversight; 11] = [
        Oversight::Collect,
        Oversight::Called,
        Oversight::CalledFurther,
        Oversight::Unreached,
        Oversight::Unrun,
        Oversight::Names,
        Oversight::Repeated,
        Oversight::ByDigits,
        Oversight::NoLine,
        Oversight::Space,
        Oversight::Room,
    ];

    /// The rows as they are told.
    fn rows(self, sheet: &Sheet, rule: &Rule) -> Vec<u8> {
        if self == Oversight::Repeated {
            return of_forms(sheet, rule, |_| true);
        }
        let mut rows = self.rows_in_any_order(sheet, rule);
        rows.sort();
        rows.dedup();
        if self == Oversight::ByDigits {
            rows.sort_by_key(u8::to_string);
        }
        rows
    }

    /// Some of them may be there twice.
    fn rows_in_any_order(self, sheet: &Sheet, rule: &Rule) -> Vec<u8> {
        let seen = rows_seen(sheet, rule).into_iter();
        match self {
            Oversight::Collect => of_forms(sheet, rule, |form| matches!(form, Form::Attr { .. })),
            Oversight::Called => own_rows(&rule.root).into_iter().collect(),
            Oversight::CalledFurther => {
                let nodes = rule.root.nodes().into_iter();
                let called = nodes.filter_map(|node| match node.form {
                    Form::Call(number) => Some(number),
                    _ => None,
                });
                let roots = bodies(sheet, called).chain([&rule.root]);
                roots.flat_map(own_rows).collect()
            }
            Oversight::Unreached => {
                let all = bodies(sheet, 0..sheet.definitions.len() as u8);
                all.flat_map(own_rows).chain(seen).collect()
            }
            Oversight::Unrun => {
                let objects = sheet.model.objects_of(rule.context);
                let run = objects.fold(0, |run, object| run | rows_run(sheet, rule, object));
                seen.filter(|row| run & (1 << row) != 0).collect()
            }
            Oversight::Names => seen
                .map(|row| sheet.model.rows[usize::from(row)].name)
                .collect(),
            _ => seen.collect(),
        }
    }

    /// The lines as they are told.
    fn lines(self, sheet: &Sheet) -> Vec<u8> {
        let mut lines = String::new();
        for (number, rule) in sheet.rules.iter().enumerate() {
            let rows = self.rows(sheet, rule);
            if self == Oversight::NoLine && rows.is_empty() {
                continue;
            }
            lines += &number.to_string();
            for row in &rows {
                lines += &format!(" {row}");
            }
            if self == Oversight::Space && rows.is_empty() {
                lines.push(' ');
            }
            lines.push('\n');
        }
        lines.into_bytes()
    }
}

impl Calls for Oversight {
    fn call(&self, call: Call, text: &[u8], words: Words, out: &mut [u8]) -> Answer {
        if call != Call::Rows {
            return second(call, text, words, out);
        }
        let room = out.len() - usize::from(*self == Oversight::Room && !out.is_empty());
        let mut answer = second(call, text, words, &mut out[..room]);
        let lines = accepted(text).map_or(Vec::new(), |(sheet, _)| self.lines(&sheet));
        if answer.number == 0 && lines.len() <= room {
            out[..lines.len()].copy_from_slice(&lines);
            answer.length = lines.len() as u64;
        }
        answer
    }
}

/// The second evaluator itself, but that V lines count among a rule's steps.
#[derive(Clone, Copy, PartialEq, Eq, Debug)]
pub enum Peek {
    /// All of them.
    Everything,
    /// Those of rows with the name of one that the rule sees.
    SameName,
    /// Those of rows that another rule sees.
    OtherRule,
    /// Those of rows that a definition sees, whether the rule reaches it or not.
    Definition,
}

impl Peek {
    pub const ALL: [Peek; 4] = [
        Peek::Everything,
        Peek::SameName,
        Peek::OtherRule,
        Peek::Definition,
    ];

    fn sees(self, sheet: &Sheet, rule: &Rule, row: u8) -> bool {
        let name = |row: u8| sheet.model.rows[usize::from(row)].name;
        let mut seen = rows_seen(sheet, rule).into_iter();
        match self {
            Peek::Everything => true,
            Peek::SameName => seen.any(|other| name(other) == name(row)),
            Peek::OtherRule => {
                let mut rules = sheet.rules.iter();
                rules.any(|rule| rows_seen(sheet, rule).contains(&row))
            }
            Peek::Definition => {
                let mut definitions = sheet.definitions.iter();
                definitions.any(|definition| own_rows(&definition.root).contains(&row))
            }
        }
    }
}

impl Calls for Peek {
    fn call(&self, call: Call, text: &[u8], words: Words, out: &mut [u8]) -> Answer {
        let mut answer = second(call, text, words, out);
        let (Call::Evaluate { rule, .. }, Ok((sheet, _))) = (call, accepted(text)) else {
            return answer;
        };
        if let Some(rule) = sheet.rules.get(rule as usize) {
            let rows = sheet.model.values.iter().map(|((_, row), _)| *row);
            answer.steps += rows.filter(|row| self.sees(&sheet, rule, *row)).count() as u64;
        }
        answer
    }
}
