//! Random rules and bodies, grown from the type wanted downward, so that most type.
//! Each node is grown with its own type, which may be below the one wanted.

use super::definitions::Callable;
use super::draft::Draft;
use super::random::Random;
use super::world::{any_integer, any_real, any_type, spelt_real, spelt_type};
use crate::model::Model;
use crate::types::{Kind, Type, DEEPEST};

/// A node of the draft and its type.
pub type Grown = (usize, Type);

pub struct Growth<'g> {
    pub random: &'g mut Random,
    pub model: &'g Model,
    /// The definitions that may be called.
    pub callable: &'g [Callable],
    pub context: u8,
    /// Nodes after which only leaves are grown.
    pub budget: usize,
    /// Whether wrong types, unbound variables and unknown names are mixed in.
    pub faulty: bool,
    /// Nodes to come that are likely to be wrong.
    pub burst: usize,
    pub environment: [Option<Type>; 16],
    pub draft: Draft,
}

impl Growth<'_> {
    /// A node of the type or below it (mostly), at most `depth` deep.
    pub fn grow(&mut self, ty: &Type, depth: usize) -> Grown {
        let mut ty = ty.clone();
        if self.faulty {
            // Faults come in bursts, so that one node can have two.
            let rare = if self.burst > 0 { 3 } else { 40 };
            self.burst = self.burst.saturating_sub(1);
            if self.random.one_in(rare) {
                self.burst = 3;
                ty = self.wrong_type();
            }
        }
        if depth <= 1 || self.draft.lines.len() >= self.budget {
            return self.leaf(&ty);
        }
        match self.random.below(20) {
            0 => self.leaf(&ty),
            1 | 2 => self.binding(&ty, depth),
            3 => self.choice(&ty, &ty, depth),
            4 => self.iteration(&ty, depth),
            5..=8 => {
                let grown = self.attribute(&ty, depth);
                grown.unwrap_or_else(|| self.particular(&ty, depth))
            }
            9 => match self.bound(&ty).first().cloned() {
                Some((variable, known)) => self.probe(variable, known, depth),
                None => self.particular(&ty, depth),
            },
            10 | 11 => {
                let grown = self.call(&ty, depth);
                grown.unwrap_or_else(|| self.particular(&ty, depth))
            }
            _ => self.particular(&ty, depth),
        }
    }

    /// A variable read after a form that hides it ended, often undefined.
    fn probe(&mut self, variable: u8, known: Type, depth: usize) -> Grown {
        let words = format!("var {variable}");
        if depth < 4 {
            return (self.draft.line(&words, &[]), known);
        }
        let body_type = if self.random.one_in(2) {
            Type::Void
        } else {
            Type::Bool
        };
        let hiding = if self.random.one_in(2) {
            let wanted = self.any_type();
            let (value, bound) = self.grow(&wanted, depth - 3);
            let (body, _) = self.body(variable, bound, &body_type, depth - 2);
            let words = format!("let {variable} % %");
            self.draft.line(&words, &[value, body])
        } else {
            let (source, member) = self.source(depth - 2);
            let (start, _) = self.grow(&Type::Bool, depth - 3);
            let (i, j) = (variable, variable % 15 + 1);
            let (i, j) = if self.random.one_in(2) {
                (i, j)
            } else {
                (j, i)
            };
            let outer = self.environment[usize::from(j)].replace(Type::Bool);
            let (body, _) = self.body(i, member, &body_type, depth - 2);
            self.environment[usize::from(j)] = outer;
            let words = format!("iter % {i} {j} Bool % %");
            self.draft.line(&words, &[source, start, body])
        };
        let condition = self.draft.line("isUndef %", &[hiding]);
        let branches = [self.draft.line(&words, &[]), self.draft.line(&words, &[])];
        let operands = [condition, branches[0], branches[1]];
        (self.draft.line("if % % %", &operands), known)
    }

    /// The variables of the type or below, but for Void.
    fn bound(&self, ty: &Type) -> Vec<(u8, Type)> {
        (1..16)
            .filter_map(|variable| {
                Some((variable, self.environment[usize::from(variable)].clone()?))
            })
            .filter(|(_, known)| *known != Type::Void && self.below(known, ty))
            .collect()
    }

    /// A node that is not Void, where there is one.
    pub fn solid(&mut self, ty: &Type, depth: usize) -> Option<Grown> {
        let mark = self.draft.lines.len();
        for _ in 0..3 {
            let grown = self.grow(ty, depth);
            if self.faulty || (grown.1 != Type::Void && self.below(&grown.1, ty)) {
                return Some(grown);
            }
            self.draft.lines.truncate(mark);
        }
        self.solid_leaf(ty)
    }

    /// A type that will seldom suit, some of them too deep.
    fn wrong_type(&mut self) -> Type {
        let mut ty = self.any_type();
        if self.random.one_in(3) {
            while ty.depth() <= DEEPEST {
                ty = Type::of(*self.random.pick(&Kind::ALL), ty);
            }
        }
        ty
    }

    pub fn any_type(&mut self) -> Type {
        any_type(self.random, &self.model.classes, DEEPEST)
    }

    pub fn below(&self, low: &Type, high: &Type) -> bool {
        low.is_below(high, &self.model.classes)
    }

    /// The common type; where a fault left none, any type will do.
    pub fn common(&self, left: &Type, right: &Type) -> Type {
        let common = left.common(right, &self.model.classes);
        common.unwrap_or_else(|| left.clone())
    }

    /// A few variables, so that they are shared and hidden.
    pub fn any_variable(&mut self) -> u8 {
        let most = if self.random.one_in(6) { 15 } else { 3 };
        self.random.between(1, most) as u8
    }

    pub fn leaf(&mut self, ty: &Type) -> Grown {
        if self.faulty && self.random.one_in(60) {
            let variable = self.any_variable();
            return (self.draft.line(&format!("var {variable}"), &[]), ty.clone());
        }
        let solid = (!self.random.one_in(25)).then(|| self.solid_leaf(ty));
        solid
            .flatten()
            .unwrap_or_else(|| (self.draft.line("undef", &[]), Type::Void))
    }

    fn solid_leaf(&mut self, ty: &Type) -> Option<Grown> {
        let bound = self.bound(ty);
        if !bound.is_empty() && !self.random.one_in(3) {
            let (variable, known) = self.random.pick(&bound).clone();
            return Some((self.draft.line(&format!("var {variable}"), &[]), known));
        }
        let own = Type::Class(self.context);
        let (words, ty) = match ty {
            Type::Void => return None,
            Type::Bool => (self.random.pick(&["true", "false"]).to_string(), Type::Bool),
            Type::Int => (format!("int {}", any_integer(self.random)), Type::Int),
            Type::Real if self.random.one_in(3) => return self.solid_leaf(&Type::Int),
            Type::Real => {
                let number = spelt_real(any_real(self.random));
                (format!("real {number}"), Type::Real)
            }
            Type::Any => match self.random.below(4) {
                0 => ("true".to_string(), Type::Bool),
                1 => return self.solid_leaf(&Type::Int),
                2 => return self.solid_leaf(&Type::Real),
                _ => ("self".to_string(), own),
            },
            Type::Class(_) if self.below(&own, ty) => ("self".to_string(), own),
            Type::Class(_) => {
                // Any variable of the class, since nothing else will do.
                let (variable, known) = bound.first()?.clone();
                (format!("var {variable}"), known)
            }
            Type::Of(kind, member) => match (kind, &**member) {
                (Kind::Set, Type::Class(class)) if !self.random.one_in(6) => {
                    (format!("all {class}"), ty.clone())
                }
                _ => empty(*kind),
            },
            Type::Collection(_) => empty(*self.random.pick(&Kind::ALL)),
        };
        Some((self.draft.line(&words, &[]), ty))
    }

    /// A body in which the variable has the type.
    pub fn body(&mut self, variable: u8, bound: Type, ty: &Type, depth: usize) -> Grown {
        let outer = self.environment[usize::from(variable)].replace(bound);
        let body = self.grow(ty, depth - 1);
        self.environment[usize::from(variable)] = outer;
        body
    }

    fn binding(&mut self, ty: &Type, depth: usize) -> Grown {
        let variable = self.any_variable();
        let probed = self.random.one_in(3);
        let wanted = if probed { ty.clone() } else { self.any_type() };
        let (value, bound) = self.grow(&wanted, depth - 1);
        let (body, ty) = if probed {
            let slot = usize::from(variable);
            let outer = self.environment[slot].replace(bound.clone());
            let grown = self.probe(variable, bound, depth - 1);
            self.environment[slot] = outer;
            grown
        } else {
            self.body(variable, bound, ty, depth)
        };
        let words = format!("let {variable} % %");
        (self.draft.line(&words, &[value, body]), ty)
    }

    /// An `if` with branches of these types.
    pub fn choice(&mut self, then: &Type, other: &Type, depth: usize) -> Grown {
        let (condition, _) = self.grow(&Type::Bool, depth - 1);
        let then = self.grow(then, depth - 1);
        let other = self.grow(other, depth - 1);
        let node = self.draft.line("if % % %", &[condition, then.0, other.0]);
        (node, self.common(&then.1, &other.1))
    }

    /// A collection to go through, and its member type.
    pub fn source(&mut self, depth: usize) -> Grown {
        let member = any_type(self.random, &self.model.classes, DEEPEST - 1);
        let ty = match (&member, self.random.below(6)) {
            (_, 0) => Type::Collection(Box::new(member)),
            (Type::Class(_), _) => Type::of(Kind::Set, member),
            (_, other) => Type::of(Kind::ALL[other % 3], member),
        };
        let (source, ty) = self
            .solid(&ty, depth - 1)
            .expect("a collection can always be grown");
        let member = ty.member().cloned();
        (source, member.unwrap_or(Type::Void))
    }

    fn iteration(&mut self, ty: &Type, depth: usize) -> Grown {
        let (source, member) = self.source(depth);
        let (start, _) = self.grow(ty, depth - 1);
        let (i, j) = (self.any_variable(), self.any_variable());
        let j = if i == j { i % 15 + 1 } else { j };
        let outer = self.environment[usize::from(j)].replace(ty.clone());
        let (body, _) = self.body(i, member, ty, depth);
        self.environment[usize::from(j)] = outer;
        let words = format!("iter % {i} {j} {} % %", spelt_type(ty));
        (self.draft.line(&words, &[source, start, body]), ty.clone())
    }
}

/// An empty collection and its type.
fn empty(kind: Kind) -> (String, Type) {
    let words = format!("coll {}", char::from(kind.letter()));
    (words, Type::of(kind, Type::Void))
}
