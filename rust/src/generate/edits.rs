//! Edits of a board: good ones, and ones with a fault or two.

use super::boards::reals;
use super::limits::sequence;
use super::random::Random;
use super::world::any_value;
use crate::model::Model;
use crate::read::spelling;
use crate::types::{Kind, Type};
use crate::values::Value;

/// An edit's bytes, and the number of each fault that is in them.
pub struct Drawn {
    pub bytes: Vec<u8>,
    pub faults: Vec<u64>,
}

/// The fields of an edit, and how it ends.
struct Fields {
    letter: String,
    object: String,
    row: String,
    value: String,
    end: &'static str,
}

impl Fields {
    fn of((object, row): (u8, u8), value: String) -> Fields {
        Fields {
            letter: "V".to_string(),
            object: object.to_string(),
            row: row.to_string(),
            value,
            end: "\n",
        }
    }

    fn bytes(&self) -> Vec<u8> {
        let fields = [&*self.letter, &*self.object, &*self.row, &*self.value];
        (fields.join("\t") + self.end).into_bytes()
    }
}

/// An edit of what a model declares; often of the cell that was edited last.
pub fn edit(random: &mut Random, model: &Model, last: Option<(u8, u8)>) -> Drawn {
    if random.one_in(60) {
        return Drawn {
            bytes: Vec::new(),
            faults: vec![3],
        };
    }
    let cell = cell(random, model, last);
    let mut fields = Fields::of(cell, value(random, model, cell));
    let faults = match random.below(8) {
        0 | 1 => 1,
        2 => 2,
        _ => 0,
    };
    let mut parts = [
        Part::Line,
        Part::Object,
        Part::Row,
        Part::Value,
        Part::Value,
    ];
    random.shuffle(&mut parts);
    let mut numbers = Vec::new();
    for part in &parts[..faults] {
        numbers.extend(part.spoil(random, model, &mut fields));
    }
    if mismatches(model, &fields) {
        numbers.push(7);
    }
    Drawn {
        bytes: fields.bytes(),
        faults: numbers,
    }
}

/// A cell, mostly of an object that has such a row.
fn cell(random: &mut Random, model: &Model, last: Option<(u8, u8)>) -> (u8, u8) {
    if let Some(last) = last.filter(|_| random.one_in(4)) {
        return last;
    }
    if !model.values.is_empty() && random.one_in(3) {
        return random.pick(&model.values).0;
    }
    if random.one_in(10) && !model.objects.is_empty() && !model.rows.is_empty() {
        // Whether the object has such a row or not.
        let object = random.below(model.objects.len()) as u8;
        return (object, random.below(model.rows.len()) as u8);
    }
    let rows = 0..model.rows.len() as u8;
    let cells = rows.flat_map(|row| {
        let owner = model.rows[usize::from(row)].class;
        model.objects_of(owner).map(move |object| (object, row))
    });
    let cells: Vec<(u8, u8)> = cells.collect();
    let empty = cells
        .iter()
        .filter(|cell| model.value(cell.0, cell.1).is_none());
    let empty: Vec<(u8, u8)> = empty.copied().collect();
    match (cells.is_empty(), empty.is_empty()) {
        (true, _) => (0, 0),
        (_, false) if random.one_in(2) => *random.pick(&empty),
        _ => *random.pick(&cells),
    }
}

/// A value for a cell as it is spelt, or a minus sign.
fn value(random: &mut Random, model: &Model, (object, row): (u8, u8)) -> String {
    let Some(declared) = model.rows.get(usize::from(row)) else {
        return "-".to_string();
    };
    let old = model.value(object, row);
    let value = match old {
        Some(old) if random.one_in(5) => Some(old.clone()),
        _ if random.one_in(5) => None,
        _ if random.one_in(4) => return largest(random, model, &declared.ty),
        _ => any_value(random, model, &declared.ty, 128),
    };
    spelt(value)
}

/// A value as it is spelt, or a minus sign for none.
fn spelt(value: Option<Value>) -> String {
    let mut spelt = Vec::new();
    match value {
        Some(value) => value.spell(&mut spelt),
        None => spelt.push(b'-'),
    }
    String::from_utf8(spelt).expect("spelt in ASCII")
}

/// As large a value as there can be, where the row takes a Sequence of numbers; or one
/// that has one member less.
fn largest(random: &mut Random, model: &Model, ty: &Type) -> String {
    match ty {
        Type::Of(Kind::Sequence, member) if **member == Type::Int => {
            sequence(127 - random.below(2))
        }
        Type::Of(Kind::Sequence, member) if **member == Type::Real => reals(random),
        _ => spelt(any_value(random, model, ty, 128)),
    }
}

/// Whether the row does not take the value, or the object does not have the row, where it
/// is known that both are there.
fn mismatches(model: &Model, fields: &Fields) -> bool {
    let row = fields.row.parse().ok();
    let Some(declared) = row.and_then(|row: usize| model.rows.get(row)) else {
        return false;
    };
    let value = spelling::value(fields.value.as_bytes());
    let belongs = value.map_or(true, |value| {
        let is_known = value.objects_below(model.objects.len());
        let takes_objects = !matches!(declared.ty, Type::Bool | Type::Int | Type::Real);
        if is_known {
            model.belongs(&value, &declared.ty)
        } else {
            takes_objects
        }
    });
    let object = fields.object.parse().ok();
    let known = object.filter(|object: &u8| usize::from(*object) < model.objects.len());
    !belongs || known.is_some_and(|object| !model.is_of(object, declared.class))
}

/// The part of an edit that has a fault.
#[derive(Clone, Copy, PartialEq, Eq)]
enum Part {
    Line,
    Object,
    Row,
    Value,
}

const MISSPELT: [&str; 10] = [
    "",
    "01",
    "-0",
    "+1",
    "x",
    "1 ",
    "u",
    "--",
    "S(1",
    "r3ff0000000000000",
];
const OVER: [&str; 4] = [
    "2147483648",
    "-2147483649",
    "r7ff0000000000000",
    "Q(Q(Q(Q())))",
];
const UNORDERED: [&str; 4] = ["S(2,1)", "S(1,1)", "B(2,1)", "Q(S(2,2))"];
const OF_OTHER_TYPES: [&str; 6] = ["t", "7", "r3ff8000000000000", "S(t)", "Q(S(t))", "B(7,t)"];

impl Part {
    /// Puts a fault there, if there can be one, and gives its number.
    fn spoil(self, random: &mut Random, model: &Model, fields: &mut Fields) -> Option<u64> {
        match self {
            Part::Line => {
                match random.below(7) {
                    0 => fields.end = "",
                    1 => fields.end = "\nV\t0\t0\t-\n",
                    2 => fields.end = "\n\n",
                    3 => fields.end = "\t\n",
                    4 => fields.end = "\r\n",
                    5 => fields.letter = random.pick(&["C", "v", "", "VV", "V "]).to_string(),
                    _ => fields.letter = "O\t0\nV".to_string(),
                }
                Some(3)
            }
            Part::Object => {
                let absent = model.objects.len().min(96);
                number(random, &mut fields.object, absent, 96)
            }
            Part::Row => {
                let absent = model.rows.len().min(64);
                number(random, &mut fields.row, absent, 64)
            }
            Part::Value => {
                let (spelt, number) = match random.below(9) {
                    0 | 1 => (random.pick(&MISSPELT).to_string(), 3),
                    2 => (random.pick(&OVER).to_string(), 4),
                    3 => (sequence(128), 4),
                    4 | 5 => (random.pick(&UNORDERED).to_string(), 5),
                    6 => (format!("@{}", model.objects.len().min(95)), 6),
                    _ => (random.pick(&OF_OTHER_TYPES).to_string(), 7),
                };
                fields.value = spelt;
                // Whether it is one here, `mismatches` knows.
                let is_absent = model.objects.len() < 96;
                (number != 7 && (number != 6 || is_absent)).then_some(number)
            }
        }
    }
}

/// Makes a number a misspelt one, one that is absent, or one over its limit.
fn number(random: &mut Random, field: &mut String, absent: usize, limit: usize) -> Option<u64> {
    let (spelt, number) = match random.below(4) {
        0 => (random.pick(&MISSPELT[..5]).to_string(), 3),
        1 => (limit.to_string(), 4),
        2 => ("18446744073709551616".to_string(), 4),
        _ => (absent.to_string(), if absent == limit { 4 } else { 6 }),
    };
    *field = spelt;
    Some(number)
}
