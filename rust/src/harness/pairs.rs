//! A rule on two sheets that differ only in what it does not see: what must be the
//! same, and the cases that a comparison must have met.

use super::compare::answered;
use super::named::cases;
use super::Calls;
use crate::calls::{accepted, Answer};
use crate::eval::{evaluate, rows_run};
use crate::generate::pairs::Pair;
use crate::generate::random::Random;
use crate::generate::Call;
use crate::model::{Rule, Sheet};
use crate::rows::{own_rows, reached, rows_seen};
use crate::tree::Form;
use std::collections::BTreeSet;

cases! {
    PairCase:
    Pairs: "a rule on two sheets that differ in what it does not see",
    Added: "two sheets, one with a value more",
    Removed: "two sheets, one with a value less",
    Changed: "two sheets with other values",
    NoRow: "two sheets, and a rule that sees no row",
    Called: "two sheets, and a rule that sees a row only through a definition",
    CalledFurther: "two sheets, and a rule that sees a row only through a definition's call",
    Unrun: "two sheets, and a rule that sees a row only in a part that is not run",
    Collected: "two sheets, and a rule that sees a row only by collect",
    SameName: "two sheets that differ in a row with the name of one that the rule sees",
    Unreached: "two sheets that differ in a row of a definition that the rule does not reach",
    OtherRule: "two sheets that another rule tells apart",
    StepStop: "two sheets, and a rule up to the step stop",
    SizeStop: "two sheets, and a rule up to the size stop",
    RangeStop: "two sheets, and a rule up to the range's end",
}

/// The most evaluations in search of another rule that tells two sheets apart.
const MOST_TRIES: usize = 40;

/// What a rule answers for an object on the first sheet and, where it answers
/// something else on the second, how. Each call is lent other garbage.
pub fn compared(
    calls: &dyn Calls,
    pair: &Pair,
    object: u64,
    seed: u64,
) -> (Answer, Option<String>) {
    let rule = pair.rule as u64;
    let call = Call::Evaluate { rule, object };
    let mut garbage = Random::new(seed);
    let first = answered(calls, call, &pair.text, garbage.word());
    let second = answered(calls, call, &pair.other(), garbage.word());
    let difference = (first != second).then(|| {
        format!("rule {rule} for object {object}\n on one sheet {first:?}\non the other {second:?}")
    });
    (first.0, difference)
}

/// The cases that a pair is, given the numbers that the rule's answers have.
pub fn met(pair: &Pair, numbers: &[u64]) -> Vec<PairCase> {
    let Ok((sheet, _)) = accepted(&pair.text) else {
        return Vec::new();
    };
    let rule = &sheet.rules[pair.rule];
    let mut cases = vec![(true, PairCase::Pairs)];
    cases.extend(differing(pair, &sheet));
    cases.extend(seeing(&sheet, rule));
    cases.extend(elsewhere(pair, &sheet));
    cases.extend([
        (numbers.contains(&16), PairCase::StepStop),
        (numbers.contains(&17), PairCase::SizeStop),
        (numbers.contains(&19), PairCase::RangeStop),
    ]);
    let met = cases.into_iter().filter(|(is, _)| *is);
    met.map(|(_, case)| case).collect()
}

/// In what the sheets differ.
fn differing(pair: &Pair, sheet: &Sheet) -> [(bool, PairCase); 3] {
    let any = |old: bool, new: bool| {
        let mut edits = pair.edits.iter();
        edits.any(|edit| {
            let before = sheet.model.value(edit.object, edit.row);
            (before.is_some(), edit.value.is_some()) == (old, new)
        })
    };
    [
        (any(false, true), PairCase::Added),
        (any(true, false), PairCase::Removed),
        (any(true, true), PairCase::Changed),
    ]
}

/// How the rule sees its rows.
fn seeing(sheet: &Sheet, rule: &Rule) -> [(bool, PairCase); 5] {
    let seen = rows_seen(sheet, rule);
    let own = own_rows(&rule.root);
    let nodes = rule.root.nodes();
    let roots = || {
        let reached = reached(sheet, &rule.root).into_iter();
        reached.map(|number| (number, &sheet.definitions[usize::from(number)].root))
    };
    let called = nodes.iter().filter_map(|node| match node.form {
        Form::Call(number) => Some(number),
        _ => None,
    });
    let called: BTreeSet<u8> = called.collect();
    let at_once = roots().filter(|(number, _)| called.contains(number));
    let at_once: BTreeSet<u8> = at_once.flat_map(|(_, root)| own_rows(root)).collect();
    let attributes = roots().flat_map(|(_, root)| root.nodes()).chain(nodes);
    let attributes = attributes.filter(|node| matches!(node.form, Form::Attr { .. }));
    let attributes: BTreeSet<u8> = attributes.filter_map(|node| node.form.row()).collect();
    let mut objects = sheet.model.objects_of(rule.context).peekable();
    let is_run = objects.peek().is_some();
    let run = objects.fold(0, |run, object| run | rows_run(sheet, rule, object));
    let any = |is: &dyn Fn(u8) -> bool| seen.iter().any(|row| is(*row));
    [
        (seen.is_empty(), PairCase::NoRow),
        (any(&|row| !own.contains(&row)), PairCase::Called),
        (
            any(&|row| !own.contains(&row) && !at_once.contains(&row)),
            PairCase::CalledFurther,
        ),
        (is_run && any(&|row| run & (1 << row) == 0), PairCase::Unrun),
        (any(&|row| !attributes.contains(&row)), PairCase::Collected),
    ]
}

/// What else there is to see in what differs: by a name, a definition, another rule.
fn elsewhere(pair: &Pair, sheet: &Sheet) -> [(bool, PairCase); 3] {
    let rule = &sheet.rules[pair.rule];
    let seen = rows_seen(sheet, rule);
    let edited: BTreeSet<u8> = pair.edits.iter().map(|edit| edit.row).collect();
    let name = |row: &u8| sheet.model.rows[usize::from(*row)].name;
    let is_named = |row: &u8| seen.iter().any(|other| name(other) == name(row));
    let reached = reached(sheet, &rule.root);
    let definitions = sheet.definitions.iter().zip(0..);
    let unreached = definitions.filter(|(_, number)| !reached.contains(number));
    let mut unreached = unreached.flat_map(|(definition, _)| own_rows(&definition.root));
    [
        (edited.iter().any(is_named), PairCase::SameName),
        (
            unreached.any(|row| edited.contains(&row)),
            PairCase::Unreached,
        ),
        (is_told_apart(pair, sheet, &edited), PairCase::OtherRule),
    ]
}

/// Whether some rule that sees an edited row answers otherwise on the second sheet.
fn is_told_apart(pair: &Pair, sheet: &Sheet, edited: &BTreeSet<u8>) -> bool {
    let Ok((other, _)) = accepted(&pair.other()) else {
        return false;
    };
    let rules = sheet.rules.iter().zip(&other.rules);
    let rules = rules.filter(|(rule, _)| !rows_seen(sheet, rule).is_disjoint(edited));
    let verdicts = rules.flat_map(|(rule, same)| {
        let objects = sheet.model.objects_of(rule.context);
        objects.map(move |object| (rule, same, object))
    });
    let mut verdicts = verdicts.take(MOST_TRIES);
    verdicts
        .any(|(rule, same, object)| evaluate(sheet, rule, object) != evaluate(&other, same, object))
}
