//! Random classes, rows, objects and values, and how a sheet spells them.

use super::operands::EDGES;
use super::random::Random;

use crate::model::{Classes, Model, Row};
use crate::numbers::Number;
use crate::types::{Kind, Type, DEEPEST};
use crate::values::{Collection, Value};

/// How much a world holds at most, never more than a sheet may.
#[derive(Clone, Copy)]
pub struct Scale {
    pub classes: usize,
    pub rows: usize,
    pub objects: usize,
    pub values: usize,
    pub value_sizes: usize,
}

impl Scale {
    pub const SMALL: Scale = Scale {
        classes: 5,
        rows: 10,
        objects: 6,
        values: 40,
        value_sizes: 500,
    };
    pub const LIMIT: Scale = Scale {
        classes: 64,
        rows: 64,
        objects: 96,
        values: 1_024,
        value_sizes: 2_048,
    };
}

pub fn world(random: &mut Random, scale: Scale) -> Model {
    let mut model = Model::default();
    let classes = random.between(1, scale.classes);
    let chain = random.one_in(4);
    for class in 0..classes {
        let parent = match class {
            0 => None,
            _ if chain => Some(class - 1),
            _ if random.one_in(4) => None,
            _ => Some(random.below(class)),
        };
        model.classes.0.push(parent.map(|parent| parent as u8));
    }
    // Few names, so that subclasses declare them again.
    let names = random.between(1, 6);
    for _ in 0..random.between(0, scale.rows) {
        let class = random.below(classes) as u8;
        let name = if random.one_in(8) {
            random.below(256) as u8
        } else {
            random.below(names) as u8
        };
        let declared = |row: &Row| row.class == class && row.name == name;
        if !model.rows.iter().any(declared) {
            let ty = any_type(random, &model.classes, DEEPEST);
            model.rows.push(Row { class, name, ty });
        }
    }
    let least = usize::from(!random.one_in(20)).min(scale.objects);
    for _ in 0..random.between(least, scale.objects) {
        model.objects.push(random.below(classes) as u8);
    }
    fill(random, &mut model, scale);
    model
}

/// Values for most rows of most objects, within the scale.
fn fill(random: &mut Random, model: &mut Model, scale: Scale) {
    let mut left = scale.value_sizes;
    for object in 0..model.objects.len() as u8 {
        for row in 0..model.rows.len() as u8 {
            let declared = &model.rows[usize::from(row)];
            if !model.is_of(object, declared.class) || random.one_in(4) {
                continue;
            }
            let room = left.min(128);
            if model.values.len() == scale.values || room == 0 {
                return;
            }
            if let Some(value) = any_value(random, model, &declared.ty, room) {
                left -= value.size();
                model.values.push(((object, row), value));
            }
        }
    }
}

/// A type of at most `deep` collection letters.
pub fn any_type(random: &mut Random, classes: &Classes, deep: usize) -> Type {
    if deep > 0 && random.one_in(3) {
        let member = any_type(random, classes, deep - 1);
        return match random.below(7) {
            0 => Type::Collection(Box::new(member)),
            other => Type::of(Kind::ALL[other % 3], member),
        };
    }
    match random.below(23) {
        0..=5 => Type::Int,
        6..=8 => Type::Real,
        9..=12 => Type::Bool,
        13..=15 => Type::Any,
        16 => Type::Void,
        _ => Type::Class(random.below(classes.0.len()) as u8),
    }
}

pub fn any_integer(random: &mut Random) -> i32 {
    const EDGES: [i32; 8] = [
        i32::MIN,
        i32::MIN + 1,
        -65_536,
        -1,
        0,
        46_341,
        65_536,
        i32::MAX,
    ];
    match random.below(10) {
        0 => *random.pick(&EDGES),
        1 => random.word() as i32,
        _ => random.below(14) as i32 - 3,
    }
}

/// A number that is no Integer, mostly a small one that others are likely to meet.
pub fn any_real(random: &mut Random) -> Number {
    let sign = if random.one_in(3) { -1.0 } else { 1.0 };
    let small = random.below(24) as f64;
    let number = match random.below(10) {
        0 | 1 => f64::from_bits(*random.pick(&EDGES)),
        2 => f64::from_bits(random.word()),
        3 | 4 => small / 10.0,
        5 => small / 3.0,
        _ => small / 4.0,
    };
    let number = Number::of(sign * number).filter(|number| number.integer().is_none());
    number.unwrap_or_else(|| Number::of(sign * (small + 0.5)).expect("a finite number"))
}

/// A value of the type and of at most the size, if one is found.
pub fn any_value(random: &mut Random, model: &Model, ty: &Type, room: usize) -> Option<Value> {
    match ty {
        _ if room == 0 => None,
        Type::Void => None,
        Type::Bool => Some(Value::Bool(random.one_in(2))),
        Type::Int => Some(Value::Number(any_integer(random).into())),
        Type::Real if random.one_in(3) => any_value(random, model, &Type::Int, room),
        Type::Real => Some(Value::Number(any_real(random))),
        Type::Any if model.objects.is_empty() || random.one_in(2) => {
            let ty = random.pick(&[Type::Bool, Type::Int, Type::Real]).clone();
            any_value(random, model, &ty, room)
        }
        Type::Any => Some(Value::Object(random.below(model.objects.len()) as u8)),
        Type::Class(class) => {
            let objects: Vec<u8> = model.objects_of(*class).collect();
            (!objects.is_empty()).then(|| Value::Object(*random.pick(&objects)))
        }
        Type::Of(kind, member) => {
            let most = if random.one_in(12) { 127 } else { 4 };
            let mut left = room - 1;
            let mut members = Vec::new();
            for _ in 0..random.between(0, most) {
                let Some(value) = any_value(random, model, member, left) else {
                    break;
                };
                left -= value.size();
                members.push(value);
            }
            Collection::formed(*kind, members)
        }
        Type::Collection(member) => {
            let kind = *random.pick(&Kind::ALL);
            any_value(random, model, &Type::Of(kind, member.clone()), room)
        }
    }
}

pub fn spelt_real(number: Number) -> String {
    let mut spelt = Vec::new();
    number.spell(&mut spelt);
    String::from_utf8(spelt).expect("spelt in ASCII")
}

pub fn spelt_type(ty: &Type) -> String {
    let mut spelt = Vec::new();
    ty.spell(&mut spelt);
    String::from_utf8(spelt).expect("spelt in ASCII")
}

/// The lines of the blocks before the definitions.
pub fn spell(model: &Model) -> String {
    let mut text = String::new();
    for (class, parent) in model.classes.0.iter().enumerate() {
        let parent = parent.map_or("-".to_string(), |parent| parent.to_string());
        text += &format!("C\t{class}\t{parent}\n");
    }
    for (number, row) in model.rows.iter().enumerate() {
        let ty = spelt_type(&row.ty);
        text += &format!("A\t{number}\t{}\t{}\t{ty}\n", row.class, row.name);
    }
    for (object, class) in model.objects.iter().enumerate() {
        text += &format!("O\t{object}\t{class}\n");
    }
    for ((object, row), value) in &model.values {
        let mut bytes = Vec::new();
        value.spell(&mut bytes);
        let value = String::from_utf8(bytes).expect("spelt in ASCII");
        text += &format!("V\t{object}\t{row}\t{value}\n");
    }
    text
}
