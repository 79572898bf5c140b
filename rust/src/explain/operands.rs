//! Parts of a rule that do not type: what their operands are, and what they take.

use super::lines::cut;
use super::typed::{spelt, Typed};
use crate::tree::{Form, Node};
use crate::types::Type;
use crate::wording::shown;

fn quoted(part: &Node, ty: &str) -> String {
    format!("`{}` is of type {ty}", cut(&shown(part), 80))
}

/// What the operands of the part are that does not type, and what it takes.
pub fn operands(typed: &Typed, number: u64) -> Vec<String> {
    let blamed = typed.blamed();
    if let Form::Var(variable) = blamed.form {
        return vec![format!("v{variable} is bound nowhere around it")];
    }
    let operands = typed.operands();
    let said: Vec<String> = operands.iter().map(|(part, ty)| quoted(part, ty)).collect();
    let said = (!said.is_empty()).then(|| said.join(", and "));
    let more = match number {
        10 => unrelated(blamed),
        11 => Some(takes(typed, blamed)),
        _ => None,
    };
    said.into_iter().chain(more).collect()
}

/// The two classes of a cast.
fn unrelated(cast: &Node) -> Option<String> {
    let (Form::As(class), Some(Type::Class(own))) = (&cast.form, &cast.operands.first()?.ty) else {
        return None;
    };
    Some(format!(
        "#{own} and #{class} are unrelated: neither is above the other"
    ))
}

/// What a form takes, or what a definition gives.
fn takes(typed: &Typed, part: &Node) -> String {
    if part.ty.is_some() {
        let declared = typed.declared().unwrap_or_default();
        return format!("the definition is of type {declared}, and its body is not below it");
    }
    match &part.form {
        Form::Attr { name, .. } => {
            format!("`.a{name}` takes an object; for a collection of objects write `->collect(a{name})`")
        }
        Form::Collect { name, .. } => {
            format!("`->collect(a{name})` takes a collection of objects")
        }
        Form::As(class) => {
            format!("`.oclAsType(#{class})` takes an object, or what is of type Any")
        }
        Form::Call(number) => match typed.class_of(*number) {
            Some(class) => format!("`.d{number}()` takes an object of class #{class} or below"),
            None => format!("`.d{number}()` takes an object"),
        },
        Form::Iter { ty, .. } => {
            let ty = spelt(ty);
            format!(
                "`->iter` takes a collection, and a start and a body of its type, {ty}, or below"
            )
        }
        form => fixed(form).to_string(),
    }
}

/// What a form takes that has nothing of its own to say.
fn fixed(form: &Form) -> &'static str {
    match form {
        Form::Not => "`not` takes Bool",
        Form::And => "`and` takes Bool on both sides",
        Form::Or => "`or` takes Bool on both sides",
        Form::If => "`if` takes a Bool as its condition",
        Form::Less(_) => "`<` takes Int or Real on both sides",
        Form::Plus(_) => "`+` takes Int or Real on both sides",
        Form::Minus(_) => "`-` takes Int or Real on both sides",
        Form::Times(_) => "`*` takes Int or Real on both sides",
        Form::Over => "`/` takes Int or Real on both sides",
        Form::Div => "`div` takes Int on both sides",
        Form::Mod => "`mod` takes Int on both sides",
        Form::ForAll(_) => "`->forAll` takes a collection, and a body of type Bool",
        Form::Exists(_) => "`->exists` takes a collection, and a body of type Bool",
        Form::Including => "`->including` takes a collection of type S(..), Q(..) or B(..)",
        Form::Union => "`->union` takes two Sets, two Sequences or two Bags",
        _ => "`->` takes a collection",
    }
}

/// The classes that have an attribute of the name.
pub fn unnamed(typed: &Typed) -> Option<String> {
    let (Form::Attr { name, .. } | Form::Collect { name, .. }) = typed.blamed().form else {
        return None;
    };
    let declaring = typed.declaring(name);
    let classes: Vec<String> = declaring.iter().map(|class| format!("#{class}")).collect();
    let whose = match typed.operands().first() {
        Some((part, ty)) => quoted(part, ty) + "; ",
        None => String::new(),
    };
    Some(if classes.is_empty() {
        format!("{whose}no row on the sheet has the name {name}")
    } else {
        format!(
            "{whose}the name {name} is declared by {}",
            classes.join(" and ")
        )
    })
}
