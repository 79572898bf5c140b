//! The rows that a rule sees (F-9): those that typing resolved a node of it to, run
//! or not, and so for every definition that it reaches.

use crate::model::{Rule, Sheet};
use crate::refusal::{Refusal, Refused};
use crate::tree::{Form, Node};
use std::collections::BTreeSet;

/// The rows that nodes of a typed tree were resolved to, called bodies left aside.
pub fn own_rows(root: &Node) -> BTreeSet<u8> {
    let nodes = root.nodes().into_iter();
    nodes.filter_map(|node| node.form.row()).collect()
}

/// The definitions that a tree calls, run or not, and those that they call.
pub fn reached(sheet: &Sheet, root: &Node) -> BTreeSet<u8> {
    let mut reached = BTreeSet::new();
    let mut waiting = vec![root];
    while let Some(root) = waiting.pop() {
        for node in root.nodes() {
            let Form::Call(number) = node.form else {
                continue;
            };
            if reached.insert(number) {
                waiting.push(&sheet.definitions[usize::from(number)].root);
            }
        }
    }
    reached
}

/// The rows that a rule sees, on a sheet whose definitions and rules are typed.
pub fn rows_seen(sheet: &Sheet, rule: &Rule) -> BTreeSet<u8> {
    let mut rows = own_rows(&rule.root);
    for number in reached(sheet, &rule.root) {
        rows.extend(own_rows(&sheet.definitions[usize::from(number)].root));
    }
    rows
}

/// A line for each rule: its number, then its rows, ascending; at most `room` bytes
/// in all.
pub fn lines(sheet: &Sheet, room: usize) -> Result<Vec<u8>, Refused> {
    let mut out = Vec::new();
    for (number, rule) in sheet.rules.iter().enumerate() {
        out.extend(number.to_string().as_bytes());
        for row in rows_seen(sheet, rule) {
            out.extend(format!(" {row}").as_bytes());
        }
        out.push(b'\n');
    }
    if out.len() > room {
        return Err(Refusal::ReportTooLong.at(0));
    }
    Ok(out)
}
