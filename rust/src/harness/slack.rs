//! Stands in for a product that holds sheets to another profile, or for one whose
//! answers follow the objects' numbers, to show that the comparison finds it.

use super::profiles::is_sequence;
use super::{second, Calls};
use crate::calls::{accepted, Answer, Words};
use crate::generate::Call;
use crate::model::{Rule, Sheet};
use crate::profile::{all_nodes, is_outside};
use crate::read::read;
use crate::tree::{Form, Node};
use crate::types::{Kind, Type};
use crate::typing::{type_definition, type_rule};

/// The second evaluator itself, but for the profile.
#[derive(Clone, Copy, PartialEq, Eq, Debug)]
pub enum Slack {
    /// Each of the forms is taken.
    Iter,
    AsSequence,
    Including,
    Union,
    Collect,
    /// `asSequence` of a Sequence is taken.
    SequenceAgain,
    /// Forms on `Q(Void)` are taken.
    EmptySequence,
    /// `collect` on `C(..)` is not taken.
    AnyKind,
    /// `including`, `union` and `collect` on a Bag are not taken.
    Bags,
    /// Nor are they on a Set.
    Sets,
    /// A Sequence is not taken from `coll`, from `attr`, or for a quantifier.
    MadeSequence,
    ReadSequence,
    Quantified,
    /// Definitions are not looked at, or not those that only others call.
    Called,
    CalledFurther,
    /// Definitions are looked at that no rule reaches.
    Unreached,
    /// The place is that of the first rule, of the first node that is met, or of the
    /// last line.
    FirstRule,
    FirstNode,
    HighestLine,
    /// 22 goes before what other rules have no type for.
    BeforeTyping,
    /// 22 has no place, or 21 is told.
    NoPlace,
    OtherNumber,
}

impl Slack {
    pub const ALL: [Slack; 22] = [
        Slack::Iter,
        Slack::AsSequence,
        Slack::Including,
        Slack::Union,
        Slack::Collect,
        Slack::SequenceAgain,
        Slack::EmptySequence,
        Slack::AnyKind,
        Slack::Bags,
        Slack::Sets,
        Slack::MadeSequence,
        Slack::ReadSequence,
        Slack::Quantified,
        Slack::Called,
        Slack::CalledFurther,
        Slack::Unreached,
        Slack::FirstRule,
        Slack::FirstNode,
        Slack::HighestLine,
        Slack::BeforeTyping,
        Slack::NoPlace,
        Slack::OtherNumber,
    ];

    /// Whether a node is taken for one outside.
    fn is_outside(self, node: &Node) -> bool {
        let source = node.operands.first();
        let source_type = source.and_then(|operand| operand.ty.as_ref());
        let joins = matches!(
            node.form,
            Form::Union | Form::Including | Form::Collect { .. }
        );
        let on = |kind| joins && matches!(source_type, Some(Type::Of(k, _)) if *k == kind);
        let of_sequence = source.is_some_and(is_sequence);
        let (taken, refused) = match (self, &node.form) {
            (Slack::Iter, Form::Iter { .. })
            | (Slack::AsSequence, Form::Convert(Kind::Sequence))
            | (Slack::Including, Form::Including)
            | (Slack::Union, Form::Union)
            | (Slack::Collect, Form::Collect { .. }) => (true, false),
            (Slack::SequenceAgain, Form::Convert(_)) => (of_sequence, false),
            (Slack::EmptySequence, _) => {
                let nothing = Type::of(Kind::Sequence, Type::Void);
                (source_type == Some(&nothing), false)
            }
            (Slack::AnyKind, Form::Collect { .. }) => {
                (false, matches!(source_type, Some(Type::Collection(_))))
            }
            (Slack::Bags, _) => (false, on(Kind::Bag)),
            (Slack::Sets, _) => (false, on(Kind::Set)),
            (Slack::MadeSequence, Form::Coll(kind)) => (false, *kind == Kind::Sequence),
            (Slack::ReadSequence, Form::Attr { .. }) => (false, is_sequence(node)),
            (Slack::Quantified, Form::ForAll(_) | Form::Exists(_)) => (false, of_sequence),
            _ => (false, false),
        };
        refused || is_outside(node) && !taken
    }

    /// The nodes of a rule that are looked at.
    fn nodes(self, sheet: &Sheet, rule: &Rule) -> Vec<usize> {
        let own = rule.root.nodes();
        let bodies = |numbers: Vec<u8>| {
            let bodies = numbers
                .into_iter()
                .map(|n| &sheet.definitions[usize::from(n)].root);
            bodies.flat_map(Node::nodes).collect::<Vec<&Node>>()
        };
        let nodes = match self {
            Slack::Called => own,
            Slack::CalledFurther => {
                let called = own.iter().filter_map(|node| node.form.called()).collect();
                [own, bodies(called)].concat()
            }
            Slack::Unreached => {
                let all = (0..sheet.definitions.len() as u8).collect();
                [own, bodies(all)].concat()
            }
            _ => all_nodes(sheet, rule),
        };
        let outside = nodes.into_iter().filter(|node| self.is_outside(node));
        outside.map(|node| node.line).collect()
    }

    /// The line that is told, if there is one.
    fn line(self, sheet: &Sheet) -> Option<usize> {
        let rules = sheet.rules.iter().map(|rule| self.nodes(sheet, rule));
        let mut rules = rules.filter(|lines| !lines.is_empty());
        match self {
            Slack::FirstRule => rules.next()?.into_iter().min(),
            Slack::FirstNode => rules.next()?.into_iter().next(),
            Slack::HighestLine => rules.flatten().max(),
            _ => rules.flatten().min(),
        }
    }
}

/// A sheet with the rules alone that have a type.
fn typed_rules(text: &[u8]) -> Option<Sheet> {
    let mut sheet = read(text).ok()?;
    let Sheet {
        model,
        definitions,
        rules,
    } = &mut sheet;
    (0..definitions.len())
        .try_for_each(|n| type_definition(model, definitions, n))
        .ok()?;
    rules.retain_mut(|rule| type_rule(model, definitions, rule).is_ok());
    Some(sheet)
}

impl Calls for Slack {
    fn call(&self, call: Call, text: &[u8], words: Words, out: &mut [u8]) -> Answer {
        if call != Call::FreeNumbering {
            return second(call, text, words, out);
        }
        let mut read = second(Call::Read, text, words, &mut out.to_vec());
        let sheet = match (self, read.number) {
            (_, 0) => accepted(text).ok().map(|(sheet, _)| sheet),
            (Slack::BeforeTyping, 9..=13) => typed_rules(text),
            _ => None,
        };
        let line = sheet.and_then(|sheet| self.line(&sheet));
        if let Some(line) = line {
            return Answer {
                number: if *self == Slack::OtherNumber { 21 } else { 22 },
                place: if *self == Slack::NoPlace {
                    0
                } else {
                    line as u64
                },
                ..Answer::default()
            };
        }
        if let Ok((_, types)) = accepted(text).map_err(|_| ()) {
            let mut lines = Vec::new();
            for ty in types {
                ty.spell(&mut lines);
                lines.push(b'\n');
            }
            if read.number == 0 {
                out[..lines.len()].copy_from_slice(&lines);
                read.length = lines.len() as u64;
            }
        }
        read
    }
}

/// The second evaluator itself, but that something follows the objects' numbers.
#[derive(Clone, Copy, PartialEq, Eq, Debug)]
pub enum Favour {
    /// What is true for object 0 is false.
    Truth,
    /// Undefined is true for object 0.
    Undefined,
    /// In a value object 0 is another one.
    Member,
    /// Object 0 is never of another class.
    Class,
    /// A sheet is refused where object 0 is of another class than 0.
    Types,
    /// So is one that is held to the profile.
    Profile,
}

impl Favour {
    pub const ALL: [Favour; 6] = [
        Favour::Truth,
        Favour::Undefined,
        Favour::Member,
        Favour::Class,
        Favour::Types,
        Favour::Profile,
    ];
}

impl Calls for Favour {
    fn call(&self, call: Call, text: &[u8], words: Words, out: &mut [u8]) -> Answer {
        let mut answer = second(call, text, words, out);
        let of_first = matches!(call, Call::Evaluate { object: 0, .. });
        let written = &mut out[..answer.length as usize];
        let refuses = match self {
            Favour::Types => call == Call::Read,
            Favour::Profile => call == Call::FreeNumbering,
            _ => false,
        };
        match (self, &mut *written) {
            (Favour::Truth, [truth @ b't']) if of_first => *truth = b'f',
            (Favour::Undefined, [undefined @ b'u']) if of_first => *undefined = b't',
            (Favour::Member, [_, b'(', b'@', digit @ b'0', b')' | b',', ..]) => *digit = b'1',
            (Favour::Class, _) if of_first && answer.number == 15 => answer.number = 14,
            _ if refuses
                && read(text).is_ok_and(|sheet| sheet.model.objects.first() > Some(&0)) =>
            {
                answer.number = 5;
            }
            _ => {}
        }
        answer
    }
}
