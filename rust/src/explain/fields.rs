//! What each field of a line holds, and how it is spelled.

use crate::read::nodes::MOST_NODES;
use crate::read::spelling::{
    integer, number, real, ty, value, LAST_CLASS, LAST_DEFINITION, LAST_NAME, LAST_OBJECT,
    LAST_ROW, LAST_RULE, LAST_VARIABLE,
};
use crate::refusal::Refusal;

/// What a field holds.
#[derive(Clone, Copy, PartialEq, Eq, Debug)]
pub enum Field {
    Class,
    /// A class, or a minus for none.
    Parent,
    Row,
    Name,
    Object,
    Definition,
    Rule,
    Node,
    Variable,
    Form,
    Integer,
    Real,
    Kind,
    Type,
    Value,
    /// The text of a rule, of which nothing is asked here.
    Text,
}

use Field::*;

/// The fields behind the letter of a line. Of `coll` there are as many members as it may
/// have. None for a letter or a form that there is not.
pub fn of_line(split: &[&[u8]]) -> Option<Vec<Field>> {
    Some(match split[0] {
        b"C" => vec![Class, Parent],
        b"A" => vec![Row, Class, Name, Type],
        b"O" => vec![Object, Class],
        b"V" => vec![Object, Row, Value],
        b"D" => vec![Definition, Class, Type],
        b"R" => vec![Rule, Class],
        b"X" => vec![Text],
        b"N" => [&[Node, Form], of_form(split.get(2)?)?].concat(),
        _ => return None,
    })
}

/// The fields behind the form of an N line.
fn of_form(form: &[u8]) -> Option<&'static [Field]> {
    Some(match form {
        b"true" | b"false" | b"undef" | b"self" => &[],
        b"int" => &[Integer],
        b"real" => &[Real],
        b"var" => &[Variable],
        b"all" => &[Class],
        b"not" | b"isUndef" | b"size" | b"asSet" | b"asBag" | b"asSequence" => &[Node],
        b"and" | b"or" | b"eq" | b"less" | b"plus" | b"minus" | b"times" | b"div" | b"mod"
        | b"over" | b"includes" | b"including" | b"union" => &[Node, Node],
        b"attr" | b"collect" => &[Node, Name],
        b"as" => &[Node, Class],
        b"call" => &[Node, Definition],
        b"if" => &[Node, Node, Node],
        b"let" => &[Variable, Node, Node],
        b"forAll" | b"exists" => &[Node, Variable, Node],
        b"iter" => &[Node, Variable, Variable, Type, Node, Node],
        b"coll" => &[Kind, Node, Node, Node, Node],
        _ => return None,
    })
}

impl Field {
    /// What a number here counts, in the singular and in the plural, the least and the
    /// greatest.
    pub fn range(self) -> Option<([&'static str; 2], u64, u64)> {
        Some(match self {
            Class | Parent => (["class", "classes"], 0, LAST_CLASS),
            Row => (["row", "rows"], 0, LAST_ROW),
            Name => (["name", "names"], 0, LAST_NAME),
            Object => (["object", "objects"], 0, LAST_OBJECT),
            Definition => (["definition", "definitions"], 0, LAST_DEFINITION),
            Rule => (["rule", "rules"], 0, LAST_RULE),
            Node => (["node", "nodes"], 0, MOST_NODES as u64 - 1),
            Variable => (["variable", "variables"], 1, LAST_VARIABLE),
            _ => return None,
        })
    }

    /// What a field that is spelled so is refused for: 3 or 4.
    pub fn refusal(self, spelt: &[u8]) -> Option<Refusal> {
        let judged = match self {
            Parent if spelt == b"-" => return None,
            Integer => integer(spelt).map(drop),
            Real => real(spelt).map(drop),
            Kind => match spelt {
                b"S" | b"Q" | b"B" => Ok(()),
                _ => Err(Refusal::BadLine),
            },
            Type => ty(spelt).map(drop),
            Value => value(spelt).map(drop),
            _ => {
                let (_, least, most) = self.range()?;
                number(spelt, least, most).map(drop)
            }
        };
        judged.err()
    }

    /// The letter or sign in front of such a number, where a text or a value has one.
    pub fn letter(self) -> Option<u8> {
        Some(match self {
            Class | Parent => b'#',
            Name => b'a',
            Object => b'@',
            Definition => b'd',
            Variable => b'v',
            _ => return None,
        })
    }
}
