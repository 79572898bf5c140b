//! The nodes of a rule or of a definition's body, as a tree that owns its operands.

use crate::binary64::Operation;
use crate::model::Definition;
use crate::numbers::Number;
use crate::types::{Kind, Type};

/// The greatest depth of a rule and of a body, the root being depth 1.
pub const DEEPEST_RULE: usize = 19;

/// The numbers a node computes with: Integers alone, or both kinds widened.
#[derive(Clone, Copy, PartialEq, Eq, Debug)]
pub enum Scale {
    Integers,
    Reals,
}

/// What a node does, without its operands.
#[derive(Clone, PartialEq, Eq, Debug)]
pub enum Form {
    True,
    False,
    Undef,
    Int(i32),
    Real(Number),
    SelfObject,
    Var(u8),
    Coll(Kind),
    Let(u8),
    If,
    And,
    Or,
    Not,
    IsUndef,
    Eq,
    /// Typing marks these four with the numbers they take.
    Less(Option<Scale>),
    Plus(Option<Scale>),
    Minus(Option<Scale>),
    Times(Option<Scale>),
    Div,
    Mod,
    Over,
    /// Typing marks the row that is read.
    Attr {
        name: u8,
        row: Option<u8>,
    },
    /// Typing marks the row that is read and the kind of the result.
    Collect {
        name: u8,
        mark: Option<(u8, Kind)>,
    },
    All(u8),
    As(u8),
    Size,
    Includes,
    /// asSet, asBag and asSequence.
    Convert(Kind),
    Including,
    Union,
    Iter {
        member: u8,
        accumulator: u8,
        ty: Type,
    },
    ForAll(u8),
    Exists(u8),
    /// The definition with this number.
    Call(u8),
}

impl Form {
    /// The word a sheet has for the form.
    pub fn word(&self) -> &'static str {
        match self {
            Form::True => "true",
            Form::False => "false",
            Form::Undef => "undef",
            Form::Int(_) => "int",
            Form::Real(_) => "real",
            Form::SelfObject => "self",
            Form::Var(_) => "var",
            Form::Coll(_) => "coll",
            Form::Let(_) => "let",
            Form::If => "if",
            Form::And => "and",
            Form::Or => "or",
            Form::Not => "not",
            Form::IsUndef => "isUndef",
            Form::Eq => "eq",
            Form::Less(_) => "less",
            Form::Plus(_) => "plus",
            Form::Minus(_) => "minus",
            Form::Times(_) => "times",
            Form::Div => "div",
            Form::Mod => "mod",
            Form::Over => "over",
            Form::Attr { .. } => "attr",
            Form::Collect { .. } => "collect",
            Form::All(_) => "all",
            Form::As(_) => "as",
            Form::Size => "size",
            Form::Includes => "includes",
            Form::Convert(Kind::Set) => "asSet",
            Form::Convert(Kind::Sequence) => "asSequence",
            Form::Convert(Kind::Bag) => "asBag",
            Form::Including => "including",
            Form::Union => "union",
            Form::Iter { .. } => "iter",
            Form::ForAll(_) => "forAll",
            Form::Exists(_) => "exists",
            Form::Call(_) => "call",
        }
    }

    /// The class that the form names, if it names one.
    pub fn class(&self) -> Option<u8> {
        match self {
            Form::All(class) | Form::As(class) => Some(*class),
            Form::Iter { ty, .. } => ty.class(),
            _ => None,
        }
    }

    /// Whether the form binds one variable twice.
    pub fn binds_twice(&self) -> bool {
        matches!(self, Form::Iter { member, accumulator, .. } if member == accumulator)
    }

    /// The row that typing resolved it to.
    pub fn row(&self) -> Option<u8> {
        match self {
            Form::Attr { row, .. } => *row,
            Form::Collect { mark, .. } => mark.map(|(row, _)| row),
            _ => None,
        }
    }

    /// The definition that it calls.
    pub fn called(&self) -> Option<u8> {
        match self {
            Form::Call(number) => Some(*number),
            _ => None,
        }
    }

    /// What it does with Reals, if it computes with them.
    pub fn operation(&self) -> Option<Operation> {
        match self {
            Form::Plus(_) => Some(Operation::Plus),
            Form::Minus(_) => Some(Operation::Minus),
            Form::Times(_) => Some(Operation::Times),
            Form::Over => Some(Operation::Over),
            _ => None,
        }
    }
}

#[derive(Clone)]
pub struct Node {
    pub form: Form,
    pub operands: Vec<Node>,
    /// The line the node stands on.
    pub line: usize,
    /// Typing notes it.
    pub ty: Option<Type>,
}

impl Node {
    /// Whether it is written as its value: a truth value or a number.
    pub fn is_literal(&self) -> bool {
        matches!(
            self.form,
            Form::True | Form::False | Form::Int(_) | Form::Real(_)
        )
    }

    /// Whether its body may run several times.
    pub fn is_loop(&self) -> bool {
        matches!(
            self.form,
            Form::ForAll(_) | Form::Exists(_) | Form::Iter { .. }
        )
    }

    /// All nodes below it, itself first.
    pub fn nodes(&self) -> Vec<&Node> {
        let mut found = vec![self];
        found.extend(self.operands.iter().flat_map(Node::nodes));
        found
    }

    /// A called body stands below the call, as its operand does.
    pub fn depth(&self, definitions: &[Definition]) -> usize {
        let operands = self.operands.iter();
        let below = operands.map(|operand| operand.depth(definitions)).max();
        let body = match self.form {
            Form::Call(number) => definitions[usize::from(number)].depth,
            _ => 0,
        };
        1 + body.max(below.unwrap_or(0))
    }
}
