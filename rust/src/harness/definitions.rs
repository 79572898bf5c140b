//! Which cases of definitions and calls a call's answer is.

use super::cases::Case;
use crate::calls::Answer;
use crate::generate::Call;
use crate::model::{Rule, Sheet};
use crate::read::read;
use crate::read::tokens::tokens;
use crate::rows::reached;
use crate::tree::{Form, Node, DEEPEST_RULE};
use crate::typing::type_rule;

/// The definitions of a sheet, 0 to 31.
const MOST_DEFINITIONS: usize = 32;

/// A text, and its lines, each as its fields.
pub struct Definitions<'t> {
    text: &'t [u8],
    lines: Vec<Vec<&'t [u8]>>,
}

impl<'t> Definitions<'t> {
    pub fn of(text: &'t [u8]) -> Definitions<'t> {
        let lines = text.split(|byte| *byte == b'\n');
        let fields = |line: &'t [u8]| line.split(|byte| *byte == b'\t').collect();
        Definitions {
            text,
            lines: lines.map(fields).collect(),
        }
    }

    /// The definition that a line belongs to, none in a rule.
    fn definition(&self, place: usize) -> Option<usize> {
        let before = &self.lines[..place];
        let letters = || before.iter().map(|line| line[0]);
        let in_rule = letters().any(|letter| letter == b"R");
        let begun = letters().filter(|letter| *letter == b"D").count();
        if in_rule {
            return None;
        }
        begun.checked_sub(1)
    }

    /// What a refusal's line tells.
    pub fn refused(&self, answer: Answer) -> Vec<Case> {
        let place = answer.place as usize;
        let case = match answer.number {
            8 if self.is_deep_by_calls(place) => match self.definition(place) {
                Some(_) => Some(Case::DeepDefinition),
                None => Some(Case::DeepRule),
            },
            23 => self.upward(place),
            _ => None,
        };
        case.into_iter().collect()
    }

    fn upward(&self, place: usize) -> Option<Case> {
        let own = self.definition(place)?;
        let number = std::str::from_utf8(self.lines[place - 1].get(4)?).ok()?;
        let called: usize = number.parse().ok()?;
        let later = self.lines[place..].iter().filter(|line| line[0] == b"D");
        Some(match called.checked_sub(own)? {
            0 => Case::CallsItself,
            beyond if beyond <= later.count() => Case::CallsLater,
            _ => Case::CallsAbsent,
        })
    }

    /// The text with another form, of the operand alone, in the place of each call.
    fn without_calls(&self) -> Vec<u8> {
        let mut text = Vec::new();
        for line in &self.lines {
            let bare;
            let fields = match line.as_slice() {
                [b"X", text] => {
                    bare = without_calls(text);
                    vec![b"X".as_slice(), &bare]
                }
                [letter, node, b"call", operand, _] => {
                    vec![*letter, *node, b"isUndef", *operand]
                }
                other => other.to_vec(),
            };
            text.extend(fields.join(&b'\t'));
            text.push(b'\n');
        }
        // The last line feed parted the lines from nothing.
        text.pop();
        text
    }

    fn is_deep_by_calls(&self, place: usize) -> bool {
        match read(&self.without_calls()) {
            Ok(_) => true,
            Err(refused) => refused.place > place,
        }
    }

    /// What is seen on a sheet that is read, given which rules type.
    pub fn read(&self, sheet: &Sheet, typed: &[bool], call: Call, answer: Answer) -> Vec<Case> {
        match (call, answer.number) {
            (Call::Read, 0) => self.accepted(sheet),
            (_, 9..=13) => self.untyped(sheet, typed, call, answer),
            (Call::Evaluate { rule, .. }, 0 | 16 | 17 | 19) => {
                evaluated(sheet, &sheet.rules[rule as usize], answer.number)
            }
            _ => Vec::new(),
        }
    }

    fn accepted(&self, sheet: &Sheet) -> Vec<Case> {
        let mut met = Vec::new();
        if sheet.definitions.len() == MOST_DEFINITIONS {
            met.push(Case::MostDefinitions);
        }
        let depth = |rule: &Rule| rule.root.depth(&sheet.definitions);
        if sheet.rules.iter().any(|rule| depth(rule) == DEEPEST_RULE) {
            let bare = read(&self.without_calls()).map_or(Vec::new(), |sheet| sheet.rules);
            let mut rules = sheet.rules.iter().zip(bare);
            if rules.any(|(rule, bare)| depth(rule) == DEEPEST_RULE && bare.root.depth(&[]) < 19) {
                met.push(Case::DeepestCall);
            }
        }
        met
    }

    /// Where something does not type: what it is, and what else.
    fn untyped(&self, sheet: &Sheet, typed: &[bool], call: Call, answer: Answer) -> Vec<Case> {
        let place = answer.place as usize;
        let mut met = Vec::new();
        let definition = self.definition(place);
        if answer.number == 11 {
            let called = self.lines[place - 1].get(2) == Some(&b"call".as_slice());
            match definition {
                Some(number) if self.body_types(number) => met.push(Case::BodyType),
                _ if called => met.push(Case::CallOperand),
                _ => {}
            }
        }
        let Some(number) = definition else {
            return met;
        };
        if !is_reached(sheet, number) {
            met.push(Case::UnusedDefinition);
        }
        if typed.contains(&false) {
            met.push(Case::DefinitionAndRule);
        }
        match call {
            Call::Evaluate { rule, .. } if typed.get(rule as usize) == Some(&true) => {
                met.push(Case::UntypedDefinition);
            }
            _ => {}
        }
        met
    }
}

impl Definitions<'_> {
    /// Whether a definition's body types, its type left aside.
    fn body_types(&self, number: usize) -> bool {
        let Ok(mut sheet) = read(self.text) else {
            return false;
        };
        let mut rest = sheet.definitions.split_off(number).into_iter();
        rest.next().is_some_and(|definition| {
            let mut rule = Rule {
                context: definition.class,
                root: definition.root,
            };
            type_rule(&sheet.model, &sheet.definitions, &mut rule).is_ok()
        })
    }
}

/// The text of a rule with `isUndef` in the place of each definition.
fn without_calls(text: &[u8]) -> Vec<u8> {
    let is_call = |word: &[u8]| matches!(word, [b'd', digit, ..] if digit.is_ascii_digit());
    let bare = |token| if is_call(token) { b"isUndef" } else { token };
    let tokens: Vec<&[u8]> = tokens(text).into_iter().map(bare).collect();
    tokens.join(&b' ')
}

fn calls(root: &Node) -> impl Iterator<Item = (usize, &Node)> {
    root.nodes().into_iter().filter_map(|node| match node.form {
        Form::Call(number) => Some((usize::from(number), &node.operands[0])),
        _ => None,
    })
}

/// Whether a rule calls the definition, or one that does.
fn is_reached(sheet: &Sheet, number: usize) -> bool {
    let mut rules = sheet.rules.iter();
    rules.any(|rule| reached(sheet, &rule.root).contains(&(number as u8)))
}

/// The cases of a rule that was evaluated up to the number.
fn evaluated(sheet: &Sheet, rule: &Rule, number: u64) -> Vec<Case> {
    let mut met = Vec::new();
    if calls(&rule.root).next().is_none() {
        return met;
    }
    match number {
        16 => met.push(Case::StepStopCalled),
        17 => met.push(Case::SizeStopCalled),
        19 => met.push(Case::RangeStopCalled),
        _ => {
            let all = rule.root.nodes();
            if all.iter().any(|node| calls_in_body(node)) {
                met.push(Case::CallInLoop);
            }
            if all.iter().any(|node| reads_after_call(sheet, node)) {
                met.push(Case::VariableAfter);
            }
            met.extend(of_subclass(sheet, rule));
        }
    }
    met
}

fn calls_in_body(node: &Node) -> bool {
    let body = match node.form {
        Form::ForAll(_) | Form::Exists(_) | Form::Iter { .. } => node.operands.last(),
        _ => None,
    };
    body.is_some_and(|body| calls(body).next().is_some())
}

/// Whether a variable is read after an operand called a body that binds it.
fn reads_after_call(sheet: &Sheet, node: &Node) -> bool {
    let binds = |body: &Node, read: u8| match &body.form {
        Form::Let(variable) | Form::ForAll(variable) | Form::Exists(variable) => *variable == read,
        Form::Iter {
            member,
            accumulator,
            ..
        } => *member == read || *accumulator == read,
        _ => false,
    };
    let called_binds = |operand: &Node, read: u8| {
        calls(operand).any(|(number, _)| {
            let body = sheet.definitions[number].root.nodes();
            body.into_iter().any(|node| binds(node, read))
        })
    };
    let operands = &node.operands;
    (1..operands.len()).any(|later| {
        operands[later].nodes().iter().any(|node| match node.form {
            Form::Var(read) => operands[..later]
                .iter()
                .any(|earlier| called_binds(earlier, read)),
            _ => false,
        })
    })
}

/// What a call of a rule for its own object of a subclass tells.
fn of_subclass(sheet: &Sheet, rule: &Rule) -> Vec<Case> {
    let mut met = Vec::new();
    for (number, operand) in calls(&rule.root) {
        let definition = &sheet.definitions[number];
        if operand.form != Form::SelfObject || definition.class == rule.context {
            continue;
        }
        met.push(Case::SubclassObject);
        let other_row = |node: &Node| match node.form {
            Form::Attr { name, .. } if node.operands[0].form == Form::SelfObject => {
                sheet.model.row(rule.context, name) != sheet.model.row(definition.class, name)
            }
            _ => false,
        };
        if definition.root.nodes().into_iter().any(other_row) {
            met.push(Case::OwnRow);
        }
    }
    met
}
