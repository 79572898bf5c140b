//! A rule or a definition that does not type: the part that is to blame, and what its
//! operands are.

use crate::model::Sheet;
use crate::read::read;
use crate::tree::{Form, Node};
use crate::types::Type;
use crate::typing::type_rules;

/// A sheet that is read and typed up to a refusal.
pub struct Typed {
    sheet: Sheet,
    number: u64,
    place: usize,
}

impl Typed {
    /// None where the sheet has no rule or definition with a node at this line.
    pub fn new(text: &[u8], number: u64, place: usize) -> Option<Typed> {
        let mut sheet = read(text).ok()?;
        type_rules(&mut sheet).err()?;
        let typed = Typed {
            sheet,
            number,
            place,
        };
        typed.found().is_some().then_some(typed)
    }

    fn found(&self) -> Option<&Node> {
        let definitions = self.sheet.definitions.iter();
        let rules = self.sheet.rules.iter().map(|rule| &rule.root);
        let mut roots = definitions.map(|definition| &definition.root).chain(rules);
        let is_here = |node: &&Node| node.line == self.place;
        roots.find(|root| root.nodes().iter().any(is_here))
    }

    /// The whole rule, or the whole body.
    pub fn root(&self) -> &Node {
        self.found().expect("there is one")
    }

    /// The part that is to blame: a variable that nothing binds, or else the part without a
    /// type that has no such part below it in which typing began. A definition's root may
    /// have its type and be wrong all the same.
    pub fn blamed(&self) -> &Node {
        let mut part = self.root();
        if let Some(variable) = loose(part, 0).filter(|_| self.number == 9) {
            return variable;
        }
        while let Some(below) = part.operands.iter().find(|below| is_begun(below)) {
            part = below;
        }
        part
    }

    /// What the operands of the part are, as far as they have types.
    pub fn operands(&self) -> Vec<(&Node, String)> {
        let part = self.blamed();
        let whole = std::slice::from_ref(part);
        let parts = if part.ty.is_some() {
            whole
        } else {
            &part.operands
        };
        let typed = parts.iter();
        let typed = typed.filter_map(|part| Some((part, spelt(part.ty.as_ref()?))));
        typed.collect()
    }

    /// The type that the definition declares, if it is one.
    pub fn declared(&self) -> Option<String> {
        let mut definitions = self.sheet.definitions.iter();
        let root = self.root();
        let own = definitions.find(|definition| std::ptr::eq(&definition.root, root))?;
        Some(spelt(&own.ty))
    }

    /// The class that a definition is for.
    pub fn class_of(&self, definition: u8) -> Option<u8> {
        let called = self.sheet.definitions.get(usize::from(definition));
        called.map(|called| called.class)
    }

    /// The classes that declare an attribute of this name.
    pub fn declaring(&self, name: u8) -> Vec<u8> {
        let rows = self.sheet.model.rows.iter();
        let named = rows.filter(|row| row.name == name);
        named.map(|row| row.class).collect()
    }
}

pub fn spelt(ty: &Type) -> String {
    let mut out = Vec::new();
    ty.spell(&mut out);
    String::from_utf8_lossy(&out).into_owned()
}

/// Whether typing began in a part and did not end well there. It goes operands first, and
/// but for variables every leaf has its type.
fn is_begun(part: &Node) -> bool {
    part.ty.is_none() && part.nodes().iter().any(|node| node.ty.is_some())
}

/// The first variable, in the order of typing, that is not among the bound ones.
fn loose(node: &Node, bound: u16) -> Option<&Node> {
    let inside = match node.form {
        Form::Var(variable) => return (bound >> variable & 1 == 0).then_some(node),
        Form::Let(variable) | Form::ForAll(variable) | Form::Exists(variable) => 1 << variable,
        Form::Iter {
            member,
            accumulator,
            ..
        } => 1 << member | 1 << accumulator,
        _ => 0,
    };
    let last = node.operands.len().saturating_sub(1);
    let mut operands = node.operands.iter().enumerate();
    operands.find_map(|(place, operand)| {
        let more = if place == last { inside } else { 0 };
        loose(operand, bound | more)
    })
}
