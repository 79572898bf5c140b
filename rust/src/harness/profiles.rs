//! Which cases of the free-numbering profile a call's answer is, of those that a
//! comparison must have met.

use super::named::cases;
use crate::calls::{accepted, Answer};
use crate::generate::Call;
use crate::model::{Rule, Sheet};
use crate::profile::{all_nodes, is_outside};
use crate::read::read;
use crate::tree::{Form, Node};
use crate::types::{Kind, Type};
use crate::typing::{type_definition, type_rule};
use std::collections::BTreeSet;

cases! {
    ProfileCase:
    Iter: "22 for an iter",
    AsSequence: "22 for an asSequence",
    SequenceAgain: "22 for an asSequence of a Sequence",
    Including: "22 for an including on a Sequence",
    Union: "22 for a union of Sequences",
    Collect: "22 for a collect on a Sequence",
    EmptySequence: "22 for a form on a Sequence of nothing",
    Variable: "22 for a form on a variable that is a Sequence",
    Called: "22 in a definition that a rule calls",
    CalledFurther: "22 in a definition that only another one calls",
    Text: "22 at a text's line",
    TwoNodes: "22, and another node outside further down",
    OtherRule: "22 not for the first rule that has a node outside",
    OtherOperand: "22 not for the first operand that has a node outside",
    LayersFirst: "13, and a rule that has a node outside",
    UntypedFirst: "9 to 12, and a rule that has a node outside",
    Unreached: "in the profile, but for a definition that no rule reaches",
    IncludingSet: "in the profile, an including on a Set",
    IncludingBag: "in the profile, an including on a Bag",
    UnionSets: "in the profile, a union of Sets",
    UnionBags: "in the profile, a union of Bags",
    CollectSet: "in the profile, a collect on a Set",
    CollectBag: "in the profile, a collect on a Bag",
    CollectAny: "in the profile, a collect on a collection of any kind",
    MadeSequence: "in the profile, a Sequence from coll",
    ReadSequence: "in the profile, a Sequence from attr",
    SequenceAsSet: "in the profile, an asSet or asBag of a Sequence",
    SequenceSize: "in the profile, a size or includes of a Sequence",
    Quantified: "in the profile, a quantifier over a Sequence",
}

/// The cases that a call with this answer is.
pub fn met(text: &[u8], call: Call, answer: Answer) -> Vec<ProfileCase> {
    if call != Call::FreeNumbering {
        return Vec::new();
    }
    match (answer.number, accepted(text)) {
        (0, Ok((sheet, _))) => inside(&sheet),
        (22, Ok((sheet, _))) => outside(text, &sheet, answer.place as usize),
        (13, _) if is_half_outside(text) => vec![ProfileCase::LayersFirst],
        (9..=12, _) if is_half_outside(text) => vec![ProfileCase::UntypedFirst],
        _ => Vec::new(),
    }
}

/// Whether a rule that has a type has a node outside, though another one has no type.
fn is_half_outside(text: &[u8]) -> bool {
    let Ok(mut sheet) = read(text) else {
        return false;
    };
    let Sheet {
        model,
        definitions,
        rules,
    } = &mut sheet;
    if (0..definitions.len()).any(|number| type_definition(model, definitions, number).is_err()) {
        return false;
    }
    rules.retain_mut(|rule| type_rule(model, definitions, rule).is_ok());
    let nodes = (sheet.rules.iter()).flat_map(|rule| all_nodes(&sheet, rule));
    nodes.into_iter().any(is_outside)
}

/// Where some nodes are outside, and the lowest is at this line.
fn outside(text: &[u8], sheet: &Sheet, place: usize) -> Vec<ProfileCase> {
    let rules = sheet.rules.iter();
    let nodes = |rule: &Rule| -> Vec<(usize, ProfileCase)> {
        let nodes = all_nodes(sheet, rule).into_iter();
        nodes
            .filter(|node| is_outside(node))
            .map(|node| (node.line, form(node)))
            .collect()
    };
    let all: Vec<Vec<(usize, ProfileCase)>> = rules.map(nodes).collect();
    let lowest = all.iter().flatten().filter(|(line, _)| *line == place);
    let mut met: Vec<ProfileCase> = lowest.map(|(_, case)| *case).collect();
    let first = all.iter().find(|nodes| !nodes.is_empty());
    let in_first = first.is_some_and(|nodes| nodes.iter().any(|(line, _)| *line == place));
    let line = text.split(|byte| *byte == b'\n').nth(place - 1);
    let (called, further) = called(sheet, place);
    let more = [
        (
            all.iter().flatten().any(|(line, _)| *line > place),
            ProfileCase::TwoNodes,
        ),
        (!in_first, ProfileCase::OtherRule),
        (line.is_some_and(|line| line[0] == b'X'), ProfileCase::Text),
        (called, ProfileCase::Called),
        (further, ProfileCase::CalledFurther),
        (is_right(sheet, place), ProfileCase::OtherOperand),
        (any_at(sheet, place, on_nothing), ProfileCase::EmptySequence),
        (any_at(sheet, place, on_variable), ProfileCase::Variable),
    ];
    met.extend(more.into_iter().filter(|(is, _)| *is).map(|(_, case)| case));
    met
}

/// What a node outside is.
fn form(node: &Node) -> ProfileCase {
    match node.form {
        Form::Iter { .. } => ProfileCase::Iter,
        Form::Including => ProfileCase::Including,
        Form::Union => ProfileCase::Union,
        Form::Collect { .. } => ProfileCase::Collect,
        _ if is_sequence(&node.operands[0]) => ProfileCase::SequenceAgain,
        _ => ProfileCase::AsSequence,
    }
}

pub(super) fn is_sequence(node: &Node) -> bool {
    matches!(node.ty, Some(Type::Of(Kind::Sequence, _)))
}

fn on_nothing(node: &Node) -> bool {
    let nothing = Type::of(Kind::Sequence, Type::Void);
    node.operands[0].ty == Some(nothing)
}

fn on_variable(node: &Node) -> bool {
    is_sequence(&node.operands[0]) && matches!(node.operands[0].form, Form::Var(_))
}

/// Whether some node outside at this line is so.
fn any_at(sheet: &Sheet, place: usize, is: fn(&Node) -> bool) -> bool {
    let nodes = (sheet.rules.iter()).flat_map(|rule| all_nodes(sheet, rule));
    let mut outside = nodes.filter(|node| node.line == place && is_outside(node));
    outside.any(is)
}

/// Whether the line is a definition's that a rule calls, or one that only definitions
/// call.
fn called(sheet: &Sheet, place: usize) -> (bool, bool) {
    let here = |number: &u8| {
        let body = &sheet.definitions[usize::from(*number)].root;
        body.nodes().iter().any(|node| node.line == place)
    };
    let rules = sheet.rules.iter().flat_map(|rule| rule.root.nodes());
    let at_once: BTreeSet<u8> = rules.filter_map(|node| node.form.called()).collect();
    let all = 0..sheet.definitions.len() as u8;
    let called = at_once.iter().any(here);
    (
        called,
        all.filter(here).any(|number| !at_once.contains(&number)),
    )
}

/// Whether in some node the line is in a later operand, and an earlier one has a node
/// outside too.
fn is_right(sheet: &Sheet, place: usize) -> bool {
    let has = |node: &&Node, is: &dyn Fn(&Node) -> bool| {
        node.nodes()
            .into_iter()
            .any(|node| is_outside(node) && is(node))
    };
    let nodes = sheet.rules.iter().flat_map(|rule| rule.root.nodes());
    nodes.into_iter().any(|node| {
        let operands: Vec<&Node> = node.operands.iter().collect();
        let at = |operand: &&Node| has(operand, &|node| node.line == place);
        let higher = |operand: &&Node| has(operand, &|node| node.line > place);
        (1..operands.len())
            .any(|later| at(&operands[later]) && operands[..later].iter().any(higher))
    })
}

/// Where all rules are in the profile.
fn inside(sheet: &Sheet) -> Vec<ProfileCase> {
    let nodes: Vec<&Node> = (sheet.rules.iter())
        .flat_map(|rule| all_nodes(sheet, rule))
        .collect();
    let mut met: Vec<ProfileCase> = nodes.into_iter().filter_map(neighbour).collect();
    let definitions = sheet.definitions.iter();
    let mut bodies = definitions.flat_map(|definition| definition.root.nodes());
    if bodies.any(is_outside) {
        met.push(ProfileCase::Unreached);
    }
    met
}

/// What a node inside is that is like one outside, or has to do with Sequences.
fn neighbour(node: &Node) -> Option<ProfileCase> {
    let source = node
        .operands
        .first()
        .and_then(|operand| operand.ty.as_ref());
    let kind = match source {
        Some(Type::Of(kind, _)) => Some(*kind),
        _ => None,
    };
    match (&node.form, kind) {
        (Form::Including, Some(Kind::Set)) => Some(ProfileCase::IncludingSet),
        (Form::Including, Some(Kind::Bag)) => Some(ProfileCase::IncludingBag),
        (Form::Union, Some(Kind::Set)) => Some(ProfileCase::UnionSets),
        (Form::Union, Some(Kind::Bag)) => Some(ProfileCase::UnionBags),
        (Form::Collect { .. }, Some(Kind::Set)) => Some(ProfileCase::CollectSet),
        (Form::Collect { .. }, Some(Kind::Bag)) => Some(ProfileCase::CollectBag),
        (Form::Collect { .. }, None) => Some(ProfileCase::CollectAny),
        (Form::Coll(Kind::Sequence), _) => Some(ProfileCase::MadeSequence),
        (Form::Attr { .. }, _) if is_sequence(node) => Some(ProfileCase::ReadSequence),
        (Form::Convert(_), Some(Kind::Sequence)) => Some(ProfileCase::SequenceAsSet),
        (Form::Size | Form::Includes, Some(Kind::Sequence)) => Some(ProfileCase::SequenceSize),
        (Form::ForAll(_) | Form::Exists(_), Some(Kind::Sequence)) => Some(ProfileCase::Quantified),
        _ => None,
    }
}
