//! The types of definitions and rules, the row each `attr` and `collect` reads,
//! and the numbers that arithmetic and `less` take.

mod collections;
mod numbers;
mod objects;

use crate::model::{Definition, Model, Rule, Sheet};
use crate::refusal::{Refusal, Refused};
use crate::tree::{Form, Node};
use crate::types::{Kind, Type, DEEPEST};

/// The types of the variables, by number.
type Environment = [Option<Type>; 16];

struct Typing<'m> {
    model: &'m Model,
    /// The definitions that may be called.
    definitions: &'m [Definition],
    /// The class of `self`.
    context: u8,
    environment: Environment,
}

/// The types of all rules, in order, or the first refusal: definitions go before
/// the rules.
pub fn type_rules(sheet: &mut Sheet) -> Result<Vec<Type>, Refused> {
    let Sheet {
        model,
        definitions,
        rules,
    } = sheet;
    for number in 0..definitions.len() {
        type_definition(model, definitions, number)?;
    }
    let rules = rules.iter_mut();
    rules
        .map(|rule| type_rule(model, definitions, rule))
        .collect()
}

/// A definition is refused for what is wrong in its body first, and then where the body's
/// type is not below its own.
pub fn type_definition(
    model: &Model,
    definitions: &mut [Definition],
    number: usize,
) -> Result<(), Refused> {
    let (smaller, rest) = definitions.split_at_mut(number);
    let definition = &mut rest[0];
    let mut typing = Typing::new(model, smaller, definition.class);
    let body = typing.node(&mut definition.root)?;
    let line = definition.root.line;
    let below = typing.below(&body, &definition.ty);
    below.map_err(|refusal| refusal.at(line))
}

pub fn type_rule(
    model: &Model,
    definitions: &[Definition],
    rule: &mut Rule,
) -> Result<Type, Refused> {
    Typing::new(model, definitions, rule.context).node(&mut rule.root)
}

impl<'m> Typing<'m> {
    fn new(model: &'m Model, definitions: &'m [Definition], context: u8) -> Typing<'m> {
        Typing {
            model,
            definitions,
            context,
            environment: Environment::default(),
        }
    }

    /// The node's type, noted in it.
    fn node(&mut self, node: &mut Node) -> Result<Type, Refused> {
        let ty = self.judged(node)?;
        node.ty = Some(ty.clone());
        Ok(ty)
    }

    /// What an operand refuses goes before what the node does.
    fn judged(&mut self, node: &mut Node) -> Result<Type, Refused> {
        let here = |refusal: Refusal| refusal.at(node.line);
        let operands = &mut node.operands;
        match &mut node.form {
            Form::Let(variable) => {
                let bound = self.node(&mut operands[0])?;
                self.with(*variable, bound, &mut operands[1])
            }
            Form::Iter {
                member,
                accumulator,
                ty,
            } => {
                let source = self.node(&mut operands[0])?;
                let start = self.node(&mut operands[1])?;
                let element = member_type(&source).map_err(here)?;
                self.below(&start, ty).map_err(here)?;
                let outer = self.environment[usize::from(*accumulator)].replace(ty.clone());
                let body = self.with(*member, element, &mut operands[2]);
                self.environment[usize::from(*accumulator)] = outer;
                self.below(&body?, ty).map_err(here)?;
                Ok(ty.clone())
            }
            Form::ForAll(variable) | Form::Exists(variable) => {
                let source = self.node(&mut operands[0])?;
                let element = member_type(&source).map_err(here)?;
                let body = self.with(*variable, element, &mut operands[1])?;
                self.below(&body, &Type::Bool).map_err(here)?;
                Ok(Type::Bool)
            }
            form => {
                let types: Result<Vec<Type>, Refused> = operands
                    .iter_mut()
                    .map(|operand| self.node(operand))
                    .collect();
                self.unbinding(form, &types?).map_err(here)
            }
        }
    }

    /// The type of a body in which the variable has the type given.
    fn with(&mut self, variable: u8, ty: Type, body: &mut Node) -> Result<Type, Refused> {
        let variable = usize::from(variable);
        let outer = self.environment[variable].replace(ty);
        let result = self.node(body);
        self.environment[variable] = outer;
        result
    }

    /// A form that binds no variable, from its operands' types. Checks stand in
    /// the order 11, 10, 12, 13.
    fn unbinding(&self, form: &mut Form, types: &[Type]) -> Result<Type, Refusal> {
        match form {
            Form::True | Form::False | Form::IsUndef => Ok(Type::Bool),
            Form::Undef => Ok(Type::Void),
            Form::Int(_) => Ok(Type::Int),
            Form::Real(_) => Ok(Type::Real),
            Form::SelfObject => Ok(Type::Class(self.context)),
            Form::Var(variable) => self.bound(*variable),
            Form::All(class) => Ok(Type::of(Kind::Set, Type::Class(*class))),
            Form::If => self.branch(types),
            Form::And | Form::Or | Form::Not => self.all_of(types, Type::Bool),
            Form::Eq => self.common(&types[0], &types[1]).map(|_| Type::Bool),
            Form::Less(mark) => self.marked(mark, types).map(|_| Type::Bool),
            Form::Plus(mark) | Form::Minus(mark) | Form::Times(mark) => self.marked(mark, types),
            Form::Div | Form::Mod => self.all_of(types, Type::Int),
            Form::Over => self.all_of(types, Type::Real),
            Form::Attr { name, row } => self.attribute(*name, row, &types[0]),
            Form::Collect { name, mark } => self.collected(*name, mark, &types[0]),
            Form::As(class) => self.cast(*class, &types[0]),
            Form::Coll(_)
            | Form::Size
            | Form::Includes
            | Form::Convert(_)
            | Form::Including
            | Form::Union => self.on_collections(form, types),
            Form::Call(number) => self.called(*number, &types[0]),
            Form::Let(_) | Form::Iter { .. } | Form::ForAll(_) | Form::Exists(_) => {
                unreachable!("a form that binds a variable")
            }
        }
    }

    fn bound(&self, variable: u8) -> Result<Type, Refusal> {
        let bound = &self.environment[usize::from(variable)];
        bound.clone().ok_or(Refusal::UnboundVariable)
    }

    fn branch(&self, types: &[Type]) -> Result<Type, Refusal> {
        self.below(&types[0], &Type::Bool)?;
        self.common(&types[1], &types[2])
    }

    /// The one type that a form takes in every operand and gives.
    fn all_of(&self, types: &[Type], ty: Type) -> Result<Type, Refusal> {
        self.all_below(types, &ty)?;
        Ok(ty)
    }

    fn below(&self, low: &Type, high: &Type) -> Result<(), Refusal> {
        let below = low.is_below(high, &self.model.classes);
        below.then_some(()).ok_or(Refusal::WrongOperandType)
    }

    fn all_below(&self, types: &[Type], high: &Type) -> Result<(), Refusal> {
        types.iter().try_for_each(|ty| self.below(ty, high))
    }

    fn common(&self, left: &Type, right: &Type) -> Result<Type, Refusal> {
        let common = left.common(right, &self.model.classes);
        common.ok_or(Refusal::NoCommonType)
    }
}

fn member_type(source: &Type) -> Result<Type, Refusal> {
    source.member().cloned().ok_or(Refusal::WrongOperandType)
}

/// The kind around a member type that may be deep already.
fn layered(kind: Kind, member: Type) -> Result<Type, Refusal> {
    let within = member.depth() < DEEPEST;
    within
        .then(|| Type::of(kind, member))
        .ok_or(Refusal::TypeTooDeep)
}
