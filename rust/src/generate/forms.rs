//! The forms that give one type and few others, and attributes.

use super::rules::{Grown, Growth};
use crate::types::{Kind, Type};

impl Growth<'_> {
    pub fn particular(&mut self, ty: &Type, depth: usize) -> Grown {
        match ty {
            Type::Bool => (self.truth(depth), Type::Bool),
            Type::Int => (self.integer(depth), Type::Int),
            Type::Real => self.number(depth),
            Type::Class(class) => {
                let cast = self.cast(*class, depth);
                cast.unwrap_or_else(|| self.leaf(ty))
            }
            Type::Any => {
                let class = self.random.below(self.model.classes.0.len()) as u8;
                let simple = [Type::Bool, Type::Int, Type::Real, Type::Class(class)];
                let ty = self.random.pick(&simple).clone();
                self.grow(&ty, depth)
            }
            Type::Of(kind, member) => self.collection(*kind, member, depth),
            Type::Collection(member) => {
                let kind = *self.random.pick(&Kind::ALL);
                self.collection(kind, member, depth)
            }
            Type::Void => self.leaf(ty),
        }
    }

    /// A cast from Any or from a related class, where one is in reach.
    fn cast(&mut self, class: u8, depth: usize) -> Option<Grown> {
        let mark = self.draft.lines.len();
        let own = Type::Class(self.context);
        let (operand, found) = if depth > 2 && self.random.one_in(2) {
            let simple = self
                .random
                .pick(&[Type::Bool, Type::Int, Type::Real])
                .clone();
            self.choice(&simple, &own, depth - 1)
        } else {
            let top = self.model.classes.upward(class).last()?;
            self.solid(&Type::Class(top), depth - 1)?
        };
        let classes = &self.model.classes;
        let related = match found {
            Type::Any => true,
            Type::Class(from) => classes.is_below(from, class) || classes.is_below(class, from),
            _ => false,
        };
        let mistaken = self.faulty && self.random.one_in(4);
        if !related && !mistaken {
            self.draft.lines.truncate(mark);
            return None;
        }
        let node = self.draft.line(&format!("as % {class}"), &[operand]);
        Some((node, Type::Class(class)))
    }

    fn one(&mut self, words: &str, ty: &Type, depth: usize) -> usize {
        let (operand, _) = self.grow(ty, depth - 1);
        self.draft.line(words, &[operand])
    }

    fn two(&mut self, words: &str, ty: &Type, depth: usize) -> usize {
        let (left, _) = self.grow(ty, depth - 1);
        let (right, _) = self.grow(ty, depth - 1);
        self.draft.line(words, &[left, right])
    }

    fn truth(&mut self, depth: usize) -> usize {
        match self.random.below(11) {
            0 | 1 => self.two("and % %", &Type::Bool, depth),
            2 | 3 => self.two("or % %", &Type::Bool, depth),
            4 => self.one("not %", &Type::Bool, depth),
            5 => {
                let ty = self.any_type();
                self.one("isUndef %", &ty, depth)
            }
            6 => {
                let ty = self.any_type();
                self.two("eq % %", &ty, depth)
            }
            7 => {
                let ty = self.random.pick(&[Type::Int, Type::Real]).clone();
                self.two("less % %", &ty, depth)
            }
            8 => {
                let (source, member) = self.source(depth);
                let (value, _) = self.grow(&member, depth - 1);
                self.draft.line("includes % %", &[source, value])
            }
            other => {
                let (source, member) = self.source(depth);
                let variable = self.any_variable();
                let (body, _) = self.body(variable, member, &Type::Bool, depth);
                let form = if other == 9 { "forAll" } else { "exists" };
                let words = format!("{form} % {variable} %");
                self.draft.line(&words, &[source, body])
            }
        }
    }

    fn integer(&mut self, depth: usize) -> usize {
        if self.random.one_in(5) {
            let (source, _) = self.source(depth);
            return self.draft.line("size %", &[source]);
        }
        let forms = ["plus % %", "minus % %", "times % %", "div % %", "mod % %"];
        let form = *self.random.pick(&forms);
        self.two(form, &Type::Int, depth)
    }

    /// Arithmetic on both kinds of number, which is an Integer's where both happen
    /// to be below Int, or an Integer alone.
    fn number(&mut self, depth: usize) -> Grown {
        if self.random.one_in(6) {
            return (self.integer(depth), Type::Int);
        }
        let forms = ["plus % %", "minus % %", "times % %", "over % %", "over % %"];
        let form = *self.random.pick(&forms);
        let (left, low) = self.grow(&Type::Real, depth - 1);
        let (right, high) = self.grow(&Type::Real, depth - 1);
        let node = self.draft.line(form, &[left, right]);
        let integers = self.below(&low, &Type::Int) && self.below(&high, &Type::Int);
        match form {
            "over % %" => (node, Type::Real),
            _ if integers => (node, Type::Int),
            _ => (node, Type::Real),
        }
    }

    /// A collection, and its type, whose member type may be below the one given.
    fn collection(&mut self, kind: Kind, member: &Type, depth: usize) -> Grown {
        let ty = Type::of(kind, member.clone());
        if self.random.one_in(3) {
            if let Some(grown) = self.collected(kind, member, depth) {
                return grown;
            }
        }
        let (node, member) = match self.random.below(8) {
            0 | 1 => {
                let (left, low) = self.members(&ty, depth);
                let (right, high) = self.members(&ty, depth);
                let node = self.draft.line("union % %", &[left, right]);
                (node, self.common(&low, &high))
            }
            2 | 3 => {
                let (source, low) = self.members(&ty, depth);
                let (value, high) = self.grow(member, depth - 1);
                let node = self.draft.line("including % %", &[source, value]);
                (node, self.common(&low, &high))
            }
            4 => self.converted(kind, member, depth),
            5 if self.faulty && self.random.one_in(3) => {
                // Around a collection as deep as can be.
                let deep = self.any_type();
                let deep = Type::of(kind, Type::of(kind, Type::of(kind, deep)));
                self.listed(kind, &deep, depth)
            }
            6 if self.faulty && self.random.one_in(3) => self.unlike(kind, member, depth),
            _ => self.listed(kind, member, depth),
        };
        (node, Type::of(kind, member))
    }

    /// A conversion from any kind, and its member type.
    fn converted(&mut self, kind: Kind, member: &Type, depth: usize) -> Grown {
        let from = match self.random.below(4) {
            3 => Type::Collection(Box::new(member.clone())),
            other => Type::of(Kind::ALL[other], member.clone()),
        };
        let (source, member) = self.members(&from, depth);
        let form = match kind {
            Kind::Set => "asSet %",
            Kind::Sequence => "asSequence %",
            Kind::Bag => "asBag %",
        };
        (self.draft.line(form, &[source]), member)
    }

    /// Two members that may have no common type, and the type of the first.
    fn unlike(&mut self, kind: Kind, member: &Type, depth: usize) -> Grown {
        let (left, member) = self.grow(member, depth - 1);
        let ty = self.any_type();
        let (right, _) = self.grow(&ty, depth - 1);
        let words = format!("coll {} % %", char::from(kind.letter()));
        (self.draft.line(&words, &[left, right]), member)
    }

    /// A `collect` of the kind, from a class that has a row below the member type.
    fn collected(&mut self, kind: Kind, member: &Type, depth: usize) -> Option<Grown> {
        let rows = &self.model.rows;
        let suited = rows.iter().filter(|row| self.below(&row.ty, member));
        let classes: Vec<u8> = suited.map(|row| row.class).collect();
        if classes.is_empty() {
            return None;
        }
        let class = Type::Class(*self.random.pick(&classes));
        let from = match (kind, self.random.below(3)) {
            (Kind::Set, _) => return None,
            (Kind::Sequence, _) => Type::of(Kind::Sequence, class),
            (Kind::Bag, 0) => Type::Collection(Box::new(class)),
            (Kind::Bag, 1) => Type::of(Kind::Bag, class),
            (Kind::Bag, _) => Type::of(Kind::Set, class),
        };
        let mark = self.draft.lines.len();
        let (source, found) = self.solid(&from, depth - 1)?;
        let class = found.member().cloned().unwrap_or(Type::Void);
        let Some((name, row)) = self.named(&class, member) else {
            self.draft.lines.truncate(mark);
            return None;
        };
        let kind = match found {
            Type::Of(Kind::Sequence, _) => Kind::Sequence,
            _ => Kind::Bag,
        };
        let node = self.draft.line(&format!("collect % {name}"), &[source]);
        Some((node, Type::of(kind, row)))
    }

    /// A `coll` and its member type.
    fn listed(&mut self, kind: Kind, member: &Type, depth: usize) -> Grown {
        let mut operands = Vec::new();
        let mut common = Type::Void;
        for _ in 0..self.random.between(0, 4) {
            let (operand, ty) = self.grow(member, depth - 1);
            operands.push(operand);
            common = self.common(&common, &ty);
        }
        let words = format!("coll {}", char::from(kind.letter()));
        let words = words + &" %".repeat(operands.len());
        (self.draft.line(&words, &operands), common)
    }

    /// A collection operand and its member type.
    fn members(&mut self, ty: &Type, depth: usize) -> Grown {
        let grown = self.solid(ty, depth - 1);
        let (source, ty) = grown.expect("a collection can always be grown");
        let member = ty.member().cloned();
        (source, member.unwrap_or(Type::Void))
    }

    /// An attribute whose row suits the type, where one is in reach.
    pub fn attribute(&mut self, ty: &Type, depth: usize) -> Option<Grown> {
        let mut reach = vec![self.context];
        for bound in self.environment.iter().flatten() {
            if let Type::Class(class) = bound {
                reach.push(*class);
            }
        }
        let from = *self.random.pick(&reach);
        let upward: Vec<u8> = self.model.classes.upward(from).collect();
        let class = *self.random.pick(&upward);
        let mark = self.draft.lines.len();
        let (operand, found) = self.solid(&Type::Class(class), depth - 1)?;
        let Some((name, ty)) = self.named(&found, ty) else {
            self.draft.lines.truncate(mark);
            return None;
        };
        Some((self.draft.line(&format!("attr % {name}"), &[operand]), ty))
    }

    /// A name that a class has with a type below the one given, and that type.
    pub fn named(&mut self, class: &Type, ty: &Type) -> Option<(u8, Type)> {
        if self.faulty && self.random.one_in(10) {
            return Some((self.random.below(256) as u8, ty.clone()));
        }
        let Type::Class(class) = *class else {
            return None;
        };
        let names: Vec<(u8, Type)> = (0..=255u8)
            .filter_map(|name| Some((name, self.model.row(class, name)?)))
            .map(|(name, row)| (name, self.model.rows[usize::from(row)].ty.clone()))
            .filter(|(_, row)| self.below(row, ty))
            .collect();
        (!names.is_empty()).then(|| self.random.pick(&names).clone())
    }
}
