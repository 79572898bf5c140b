//! The evaluation of a rule. It reads no types, only what typing marked.

mod arithmetic;
mod binders;
mod collections;
mod logic;
mod objects;
mod runs;

use crate::model::{Definition, Model, Rule, Sheet};
use crate::numbers::Number;
use crate::tree::{Form, Node};
use crate::values::{Collection, Value};
pub use runs::{runs, Ended, Run};
use std::rc::Rc;

pub const MOST_STEPS: u64 = 1_000_000;

/// Where undefined arose (F-11): the line of the node, and the step at which it began.
#[derive(Clone, Copy, PartialEq, Eq, Debug)]
pub struct Origin {
    pub line: usize,
    pub step: u64,
}

/// How a node can end without a value. `?` hands Undefined on, which is what
/// makes a form strict; where it arose goes along.
#[derive(Clone, Copy, PartialEq, Eq, Debug)]
enum End {
    Undefined(Origin),
    Stop(Stop),
}

/// What ends the whole evaluation.
#[derive(Clone, Copy, PartialEq, Eq, Debug)]
pub enum Stop {
    Steps,
    Size,
    Range,
    /// An operand of a wrong kind or an unbound variable: no typed rule ends here.
    Stuck,
}

const STUCK: End = End::Stop(Stop::Stuck);

type Outcome = Result<Value, End>;

struct Evaluation<'m> {
    model: &'m Model,
    definitions: &'m [Definition],
    /// What `self` is.
    object: u8,
    steps: u64,
    /// The rows of `attr`s and `collect`s that began, as bits.
    rows: u64,
    /// All that ran, if it is to be kept.
    kept: Option<runs::Kept<'m>>,
    /// The values of the variables, by number.
    environment: [Option<Value>; 16],
}

/// What a rule ends with for an object (`None` is undefined), and the steps begun.
pub fn evaluate(sheet: &Sheet, rule: &Rule, object: u8) -> (Result<Option<Value>, Stop>, u64) {
    evaluate_node(sheet, &rule.root, object)
}

/// The same of a node below which no variable is read that is bound above it.
pub fn evaluate_node(sheet: &Sheet, root: &Node, object: u8) -> (Result<Option<Value>, Stop>, u64) {
    let mut evaluation = Evaluation::new(sheet, object);
    let outcome = match evaluation.node(root) {
        Ok(value) => Ok(Some(value)),
        Err(End::Undefined(_)) => Ok(None),
        Err(End::Stop(stop)) => Err(stop),
    };
    (outcome, evaluation.steps)
}

/// Where undefined arose, if that is what a rule ends with for an object.
pub fn origin(sheet: &Sheet, rule: &Rule, object: u8) -> Option<Origin> {
    match Evaluation::new(sheet, object).node(&rule.root) {
        Err(End::Undefined(origin)) => Some(origin),
        _ => None,
    }
}

/// The rows, as bits, of the nodes that a rule runs for an object.
pub fn rows_run(sheet: &Sheet, rule: &Rule, object: u8) -> u64 {
    let mut evaluation = Evaluation::new(sheet, object);
    // However it ends, they began.
    let _ = evaluation.node(&rule.root);
    evaluation.rows
}

impl<'m> Evaluation<'m> {
    fn new(sheet: &'m Sheet, object: u8) -> Evaluation<'m> {
        Evaluation {
            model: &sheet.model,
            definitions: &sheet.definitions,
            object,
            steps: 0,
            rows: 0,
            kept: None,
            environment: Default::default(),
        }
    }

    fn node(&mut self, node: &'m Node) -> Outcome {
        if self.steps == MOST_STEPS {
            return Err(End::Stop(Stop::Steps));
        }
        self.steps += 1;
        let here = End::Undefined(Origin {
            line: node.line,
            step: self.steps,
        });
        let above = self.kept.as_mut().map(|kept| kept.begin(node));
        let outcome = self.form(node, here);
        if let (Some(kept), Some(above)) = (&mut self.kept, above) {
            kept.end(above, &outcome);
        }
        outcome
    }

    /// What a node's form comes to; `here` is the undefined that arises at the node.
    fn form(&mut self, node: &'m Node, here: End) -> Outcome {
        let operands = &node.operands;
        match &node.form {
            Form::True => Ok(Value::Bool(true)),
            Form::False => Ok(Value::Bool(false)),
            Form::Undef => Err(here),
            Form::Int(number) => Ok(integer(*number)),
            Form::Real(number) => Ok(Value::Number(*number)),
            Form::SelfObject => Ok(Value::Object(self.object)),
            Form::Var(variable) => self.bound(*variable),
            Form::All(class) => self.all(*class),
            Form::If => self.branch(operands),
            Form::And => self.connective(operands, false),
            Form::Or => self.connective(operands, true),
            Form::Not => self.negation(operands),
            Form::IsUndef => self.undefinedness(operands),
            Form::Eq => self.equality(operands),
            Form::Less(_)
            | Form::Plus(_)
            | Form::Minus(_)
            | Form::Times(_)
            | Form::Div
            | Form::Mod
            | Form::Over => self.arithmetic(&node.form, operands, here),
            Form::Attr { row, .. } => self.attribute(*row, operands, here),
            Form::Collect { mark, .. } => self.collected(*mark, operands, here),
            Form::As(class) => self.cast(*class, operands, here),
            Form::Coll(_)
            | Form::Size
            | Form::Includes
            | Form::Convert(_)
            | Form::Including
            | Form::Union => self.on_collections(&node.form, operands),
            Form::Let(_) | Form::Iter { .. } | Form::ForAll(_) | Form::Exists(_) => {
                self.binding(&node.form, operands)
            }
            Form::Call(number) => self.call(*number, &operands[0]),
        }
    }

    fn truth(&mut self, node: &'m Node) -> Result<bool, End> {
        truth(self.node(node)?)
    }

    fn collection(&mut self, node: &'m Node) -> Result<Rc<Collection>, End> {
        match self.node(node)? {
            Value::Collection(collection) => Ok(collection),
            _ => Err(STUCK),
        }
    }
}

fn integer(integer: i32) -> Value {
    Value::Number(Number::from(integer))
}

fn truth(value: Value) -> Result<bool, End> {
    match value {
        Value::Bool(truth) => Ok(truth),
        _ => Err(STUCK),
    }
}

fn formed(value: Option<Value>) -> Outcome {
    value.ok_or(End::Stop(Stop::Size))
}
