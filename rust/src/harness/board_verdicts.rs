//! The cases of an edit that are about the rules which see it, and about what becomes of
//! their verdicts.

use super::board_cases::{BoardCase, Happened, Met};
use crate::eval::rows_run;
use crate::model::{Edit, Rule, Sheet};
use crate::rows::{own_rows, reached, rows_seen};
use crate::tree::{Form, Node};

/// The most steps of an edit whose rules are looked at node by node.
const MOST_STEPS: u64 = 20_000;

pub fn seen(happened: &Happened, sheet: &Sheet, edit: &Edit) -> Met {
    let sees = |rule: &&Rule| rows_seen(sheet, rule).contains(&edit.row);
    let seeing: Vec<&Rule> = sheet.rules.iter().filter(sees).collect();
    let (count, rules) = (seeing.len(), sheet.rules.len());
    let name = |row: u8| sheet.model.rows[usize::from(row)].name;
    let is_named = |rule: &Rule| {
        let seen = rows_seen(sheet, rule);
        !seen.contains(&edit.row) && seen.iter().any(|row| name(*row) == name(edit.row))
    };
    let is_empty = |rule: &&Rule| sheet.model.objects_of(rule.context).next().is_none();
    let mut met = vec![
        (count == 0 && rules > 0, BoardCase::Unseen),
        (count == rules && rules > 1, BoardCase::SeenByAll),
        (count > 0 && count < rules, BoardCase::SeenBySome),
        (sheet.rules.iter().any(is_named), BoardCase::SameName),
        (seeing.iter().any(is_empty), BoardCase::NoObjects),
        (
            count > 0 && happened.before == happened.after,
            BoardCase::NoOther,
        ),
    ];
    if happened.answer.steps < MOST_STEPS {
        for rule in seeing {
            met.extend(through(sheet, rule, edit.row));
        }
    }
    met.extend(lines(happened, sheet, edit));
    met
}

/// How a rule sees the row.
fn through(sheet: &Sheet, rule: &Rule, row: u8) -> Met {
    let body = |number: u8| &sheet.definitions[usize::from(number)].root;
    let roots = reached(sheet, &rule.root).into_iter().map(body);
    let nodes = roots.chain([&rule.root]).flat_map(Node::nodes);
    let reads: Vec<&Node> = nodes.filter(|node| node.form.row() == Some(row)).collect();
    let called = rule
        .root
        .nodes()
        .into_iter()
        .filter_map(|node| match node.form {
            Form::Call(number) => Some(body(number)),
            _ => None,
        });
    let is_own = own_rows(&rule.root).contains(&row);
    let at_once = called.map(own_rows).any(|rows| rows.contains(&row));
    let mut objects = sheet.model.objects_of(rule.context).peekable();
    let is_run = objects.peek().is_none()
        || objects.any(|object| rows_run(sheet, rule, object) & (1 << row) != 0);
    let is_attribute = |node: &&Node| matches!(node.form, Form::Attr { .. });
    vec![
        (!is_own, BoardCase::Called),
        (!is_own && !at_once, BoardCase::CalledFurther),
        (!reads.iter().any(is_attribute), BoardCase::Collected),
        (!is_run, BoardCase::Unrun),
    ]
}

/// A line of the verdicts: rule, object, what it came to, and where it stands.
struct Line<'l> {
    rule: usize,
    object: u8,
    value: &'l [u8],
    start: usize,
}

fn lines_of(verdicts: &[u8]) -> Vec<Line<'_>> {
    let mut start = 0;
    let lines = verdicts.split_inclusive(|byte| *byte == b'\n').map(|line| {
        let mut fields = line.split(|byte| *byte == b' ');
        let mut number = || {
            let field = fields
                .next()
                .and_then(|field| std::str::from_utf8(field).ok());
            field.and_then(|field| field.parse::<usize>().ok())
        };
        let (rule, object) = (number().unwrap_or(0), number().unwrap_or(0));
        let found = Line {
            rule,
            object: object as u8,
            value: fields.next().unwrap_or_default(),
            start,
        };
        start += line.len();
        found
    });
    lines.collect()
}

/// What becomes of the verdicts, line by line: there are as many as before.
fn lines(happened: &Happened, sheet: &Sheet, edit: &Edit) -> Met {
    let (before, after) = (lines_of(happened.before), lines_of(happened.after));
    let sees = |rule: usize| rows_seen(sheet, &sheet.rules[rule]).contains(&edit.row);
    let is_stop = |line: &Line| line.value.starts_with(b"!");
    let (longer, shorter) = (
        happened.after.len() > happened.before.len(),
        happened.after.len() < happened.before.len(),
    );
    let mut met = vec![(longer, BoardCase::Longer), (shorter, BoardCase::Shorter)];
    let mut others = vec![0; sheet.rules.len()];
    let mut all = others.clone();
    for (old, new) in before.iter().zip(&after) {
        let is_other = old.value != new.value;
        others[old.rule] += usize::from(is_other);
        all[old.rule] += 1;
        let is_kept = !sees(old.rule);
        met.extend([
            (
                is_other && old.object != edit.object,
                BoardCase::OtherObject,
            ),
            (!is_stop(old) && is_stop(new), BoardCase::Stopped),
            (is_stop(old) && !is_stop(new), BoardCase::NoLongerStopped),
            (!is_kept && new.value == b"!16", BoardCase::StepsOfStop),
            (is_kept && new.start > old.start, BoardCase::MovedBack),
            (is_kept && new.start < old.start, BoardCase::MovedAhead),
        ]);
    }
    let mut some = others
        .iter()
        .zip(all)
        .map(|(others, all)| *others > 0 && *others < all);
    met.push((some.any(|some| some), BoardCase::OneOfSeveral));
    met
}
