//! What a sheet declares: classes, attribute rows, objects, their values, named
//! definitions, rules.

use crate::tree::Node;
use crate::types::Type;
use crate::values::Value;

/// The parent of each class, by class number.
#[derive(Clone, Default)]
pub struct Classes(pub Vec<Option<u8>>);

impl Classes {
    pub fn holds(&self, class: u8) -> bool {
        usize::from(class) < self.0.len()
    }

    /// The class itself, its parent and so on upward.
    pub fn upward(&self, class: u8) -> impl Iterator<Item = u8> + '_ {
        std::iter::successors(Some(class), |class| self.0[usize::from(*class)])
    }

    pub fn is_below(&self, low: u8, high: u8) -> bool {
        self.upward(low).any(|class| class == high)
    }

    /// The nearest common ancestor.
    pub fn common(&self, left: u8, right: u8) -> Option<u8> {
        self.upward(left)
            .find(|ancestor| self.is_below(right, *ancestor))
    }
}

/// An attribute row.
#[derive(Clone)]
pub struct Row {
    pub class: u8,
    pub name: u8,
    pub ty: Type,
}

#[derive(Clone, Default)]
pub struct Model {
    pub classes: Classes,
    pub rows: Vec<Row>,
    /// The class of each object.
    pub objects: Vec<u8>,
    /// Values by (object, row), ascending. No entry means undefined.
    pub values: Vec<((u8, u8), Value)>,
}

impl Model {
    /// The row nearest upward from the class that declares the name.
    pub fn row(&self, class: u8, name: u8) -> Option<u8> {
        self.classes.upward(class).find_map(|class| {
            let found = |row: &Row| row.class == class && row.name == name;
            self.rows.iter().position(found).map(|row| row as u8)
        })
    }

    pub fn value(&self, object: u8, row: u8) -> Option<&Value> {
        let found = self.values.binary_search_by_key(&(object, row), |v| v.0);
        found.ok().map(|position| &self.values[position].1)
    }

    /// The values with an edit made.
    pub fn edit(&mut self, edit: Edit) {
        let key = (edit.object, edit.row);
        match (
            self.values.binary_search_by_key(&key, |value| value.0),
            edit.value,
        ) {
            (Ok(position), Some(value)) => self.values[position].1 = value,
            (Ok(position), None) => drop(self.values.remove(position)),
            (Err(position), Some(value)) => self.values.insert(position, (key, value)),
            (Err(_), None) => {}
        }
    }

    /// The sizes of all values together.
    pub fn value_sizes(&self) -> usize {
        self.values.iter().map(|(_, value)| value.size()).sum()
    }

    pub fn is_of(&self, object: u8, class: u8) -> bool {
        self.classes
            .is_below(self.objects[usize::from(object)], class)
    }

    /// Every object of the class or below it, ascending.
    pub fn objects_of(&self, class: u8) -> impl Iterator<Item = u8> + '_ {
        (0..self.objects.len() as u8).filter(move |object| self.is_of(*object, class))
    }

    pub fn belongs(&self, value: &Value, ty: &Type) -> bool {
        match (value, ty) {
            (Value::Bool(_), Type::Bool | Type::Any) => true,
            (Value::Number(number), Type::Int) => number.integer().is_some(),
            (Value::Number(_), Type::Real | Type::Any) => true,
            (Value::Object(_), Type::Any) => true,
            (Value::Object(object), Type::Class(class)) => self.is_of(*object, *class),
            (Value::Collection(collection), Type::Of(kind, member)) => {
                collection.kind == *kind && self.all_belong(&collection.members, member)
            }
            (Value::Collection(collection), Type::Collection(member)) => {
                self.all_belong(&collection.members, member)
            }
            _ => false,
        }
    }

    fn all_belong(&self, members: &[Value], ty: &Type) -> bool {
        members.iter().all(|member| self.belongs(member, ty))
    }
}

/// What an object has in a row from now on: another value, or none.
#[derive(Clone)]
pub struct Edit {
    pub object: u8,
    pub row: u8,
    pub value: Option<Value>,
}

/// A named definition: what it is called for, what it gives, and its body.
#[derive(Clone)]
pub struct Definition {
    pub class: u8,
    pub ty: Type,
    pub root: Node,
    /// The depth of the body, those that it calls counted in.
    pub depth: usize,
}

#[derive(Clone)]
pub struct Rule {
    pub context: u8,
    pub root: Node,
}

#[derive(Clone, Default)]
pub struct Sheet {
    pub model: Model,
    pub definitions: Vec<Definition>,
    pub rules: Vec<Rule>,
}
