//! Rules as OCL text, in as few brackets as they can be written with.

use crate::read::read;
use crate::read::tokens::is_of_word;
use crate::refusal::Refused;
use crate::tree::{Form, Node};
use crate::types::{Kind, Type};

/// How tightly an expression holds together.
#[derive(Clone, Copy, PartialEq, Eq, PartialOrd, Ord)]
enum Level {
    Whole,
    Or,
    And,
    Comparison,
    Sum,
    Product,
    Prefix,
    Postfix,
}

/// The sign between two operands, with the levels of the whole and of both sides.
fn sign(form: &Form) -> Option<(&'static str, [Level; 3])> {
    use Level::*;
    Some(match form {
        Form::Or => ("or", [Or, Or, And]),
        Form::And => ("and", [And, And, Comparison]),
        Form::Eq => ("=", [Comparison, Sum, Sum]),
        Form::Less(_) => ("<", [Comparison, Sum, Sum]),
        Form::Plus(_) => ("+", [Sum, Sum, Product]),
        Form::Minus(_) => ("-", [Sum, Sum, Product]),
        Form::Times(_) => ("*", [Product, Product, Prefix]),
        Form::Div => ("div", [Product, Product, Prefix]),
        Form::Mod => ("mod", [Product, Product, Prefix]),
        Form::Over => ("/", [Product, Product, Prefix]),
        _ => return None,
    })
}

fn level(form: &Form) -> Level {
    match form {
        Form::Let(_) => Level::Whole,
        Form::Not => Level::Prefix,
        other => sign(other).map_or(Level::Postfix, |(_, [whole, ..])| whole),
    }
}

/// A text in the making, as its words and signs.
struct Wording<'w> {
    tokens: Vec<String>,
    /// How many more brackets to put around an expression.
    more: &'w mut dyn FnMut() -> usize,
    /// Whether Integers below zero are written with their minus, which no text has.
    with_minus: bool,
}

/// The words and signs of a rule, in the brackets that it needs and as many more
/// around each expression as are asked for. None where no text says what the nodes
/// say: an Integer in a text has no minus.
pub fn worded(root: &Node, more: &mut dyn FnMut() -> usize) -> Option<Vec<String>> {
    wording(root, more, false)
}

fn wording(root: &Node, more: &mut dyn FnMut() -> usize, with_minus: bool) -> Option<Vec<String>> {
    let mut wording = Wording {
        tokens: Vec::new(),
        more,
        with_minus,
    };
    wording.expression(root, Level::Whole)?;
    Some(wording.tokens)
}

/// The text of a rule with the fewest brackets and the usual spaces.
pub fn text(root: &Node) -> Option<String> {
    worded(root, &mut || 0).map(|tokens| spaced(&tokens))
}

/// The same for a person to read, of any part of a rule or a definition: an Integer below
/// zero has its minus.
pub fn shown(root: &Node) -> String {
    let tokens = wording(root, &mut || 0, true);
    spaced(&tokens.expect("all else can be written"))
}

impl Wording<'_> {
    /// Words and signs that a space parts.
    fn put(&mut self, tokens: &str) {
        self.tokens.extend(tokens.split(' ').map(str::to_string));
    }

    fn expression(&mut self, node: &Node, least: Level) -> Option<()> {
        let brackets = usize::from(level(&node.form) < least) + (self.more)();
        for _ in 0..brackets {
            self.put("(");
        }
        self.node(node)?;
        for _ in 0..brackets {
            self.put(")");
        }
        Some(())
    }

    fn whole(&mut self, node: &Node) -> Option<()> {
        self.expression(node, Level::Whole)
    }

    fn node(&mut self, node: &Node) -> Option<()> {
        let operands = node.operands.as_slice();
        if let (Some((sign, [_, low, high])), [left, right]) = (sign(&node.form), operands) {
            self.expression(left, low)?;
            self.put(sign);
            return self.expression(right, high);
        }
        match (&node.form, operands) {
            (Form::Coll(kind), members) => self.collection(*kind, members),
            (form, []) => self.leaf(form),
            (Form::Not, [operand]) => {
                self.put("not");
                self.expression(operand, Level::Prefix)
            }
            (Form::Let(variable), [value, body]) => {
                self.put(&format!("let v{variable} ="));
                self.whole(value)?;
                self.put("in");
                self.whole(body)
            }
            (Form::If, parts) => {
                for (word, part) in ["if", "then", "else"].iter().zip(parts) {
                    self.put(word);
                    self.whole(part)?;
                }
                self.put("endif");
                Some(())
            }
            (form, [source, inside @ ..]) => {
                self.expression(source, Level::Postfix)?;
                self.step(form, inside)
            }
        }
    }

    fn leaf(&mut self, form: &Form) -> Option<()> {
        let word = match form {
            Form::Int(number) if *number < 0 && !self.with_minus => return None,
            Form::Int(number) => number.to_string(),
            Form::Real(number) => spelt(|out| number.spell(out)),
            Form::Var(variable) => format!("v{variable}"),
            Form::All(class) => format!("#{class} . allInstances ( )"),
            other => other.word().to_string(),
        };
        self.put(&word);
        Some(())
    }

    fn collection(&mut self, kind: Kind, members: &[Node]) -> Option<()> {
        self.put(match kind {
            Kind::Set => "Set {",
            Kind::Sequence => "Sequence {",
            Kind::Bag => "Bag {",
        });
        for (number, member) in members.iter().enumerate() {
            if number > 0 {
                self.put(",");
            }
            self.whole(member)?;
        }
        self.put("}");
        Some(())
    }

    /// A step, with the operands in its brackets.
    fn step(&mut self, form: &Form, inside: &[Node]) -> Option<()> {
        match form {
            Form::Attr { name, .. } => {
                self.put(&format!(". a{name}"));
                return Some(());
            }
            Form::IsUndef => self.put(". isUndef ("),
            Form::As(class) => self.put(&format!(". oclAsType ( #{class}")),
            Form::Call(number) => self.put(&format!(". d{number} (")),
            other => self.put(&format!("-> {} (", other.word())),
        }
        match form {
            Form::Collect { name, .. } => self.put(&format!("a{name}")),
            Form::ForAll(variable) | Form::Exists(variable) => self.put(&format!("v{variable} |")),
            Form::Iter {
                member,
                accumulator,
                ty,
            } => {
                self.put(&format!("v{member} ; v{accumulator} :"));
                self.ty(ty);
                self.put("=");
            }
            _ => {}
        }
        for (number, operand) in inside.iter().enumerate() {
            if number > 0 {
                self.put("|");
            }
            self.whole(operand)?;
        }
        self.put(")");
        Some(())
    }

    fn ty(&mut self, ty: &Type) {
        let spelt = spelt(|out| ty.spell(out));
        self.put(&spelt.replace('(', " ( ").replace(')', " )"));
    }
}

fn spelt(spell: impl Fn(&mut Vec<u8>)) -> String {
    let mut out = Vec::new();
    spell(&mut out);
    String::from_utf8(out).expect("spelt in ASCII")
}

/// Whether a token is a word.
pub fn is_word(token: &str) -> bool {
    token.bytes().all(is_of_word)
}

/// A text with the spaces that people write: around signs and words, but not around
/// full stops and arrows, nor inside brackets.
pub fn spaced(tokens: &[String]) -> String {
    const APART: [&str; 10] = [
        "let", "in", "if", "then", "else", "and", "or", "not", "div", "mod",
    ];
    let mut text = String::new();
    let mut before = "(";
    for token in tokens {
        let close = matches!(before, "(" | "{" | "." | "->")
            || matches!(token.as_str(), ")" | "}" | "{" | "," | ";" | "." | "->");
        // A word and the bracket of what it names.
        let named = token == "(" && is_word(before) && !APART.contains(&before);
        if !close && !named {
            text.push(' ');
        }
        text += token;
        before = token;
    }
    text
}

/// A sheet with its rules in text, and the rules that stay as they are because no
/// text says what their nodes say.
pub fn in_text(sheet: &[u8]) -> Result<(Vec<u8>, Vec<usize>), Refused> {
    let rules = read(sheet)?.rules;
    let mut number = 0;
    let mut told = Vec::new();
    let mut left = Vec::new();
    let mut is_told = false;
    for line in sheet.split_inclusive(|byte| *byte == b'\n') {
        if is_told && matches!(line[0], b'N' | b'X') {
            continue;
        }
        told.extend(line);
        if line[0] == b'R' {
            let text = text(&rules[number].root);
            is_told = text.is_some();
            match text {
                Some(text) => told.extend(format!("X\t{text}\n").as_bytes()),
                None => left.push(number),
            }
            number += 1;
        }
    }
    Ok((told, left))
}
