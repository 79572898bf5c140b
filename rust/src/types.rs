//! Types, subtyping and the common type.

use crate::model::Classes;

/// The deepest nesting of collection letters a type or a sheet's value may have.
pub const DEEPEST: usize = 3;

/// The kinds a collection value can have, in the order of values.
#[derive(Clone, Copy, PartialEq, Eq, PartialOrd, Ord, Debug)]
pub enum Kind {
    Set,
    Sequence,
    Bag,
}

impl Kind {
    pub const ALL: [Kind; 3] = [Kind::Set, Kind::Sequence, Kind::Bag];

    pub fn letter(self) -> u8 {
        match self {
            Kind::Set => b'S',
            Kind::Sequence => b'Q',
            Kind::Bag => b'B',
        }
    }

    pub fn from_letter(letter: u8) -> Option<Kind> {
        Kind::ALL.into_iter().find(|kind| kind.letter() == letter)
    }
}

#[derive(Clone, PartialEq, Eq, Debug)]
pub enum Type {
    Void,
    Bool,
    Int,
    Real,
    Any,
    Class(u8),
    /// A Set, Sequence or Bag of the member type.
    Of(Kind, Box<Type>),
    /// A collection of unknown kind.
    Collection(Box<Type>),
}

impl Type {
    pub fn of(kind: Kind, member: Type) -> Type {
        Type::Of(kind, Box::new(member))
    }

    /// The member type of a collection type. Void is no collection.
    pub fn member(&self) -> Option<&Type> {
        match self {
            Type::Of(_, member) | Type::Collection(member) => Some(member),
            _ => None,
        }
    }

    pub fn depth(&self) -> usize {
        self.member().map_or(0, |member| 1 + member.depth())
    }

    /// The class number in the type, if there is one.
    pub fn class(&self) -> Option<u8> {
        match self {
            Type::Class(class) => Some(*class),
            _ => self.member().and_then(Type::class),
        }
    }

    pub fn is_below(&self, other: &Type, classes: &Classes) -> bool {
        use Type::*;
        match (self, other) {
            (Void, _) => true,
            (Bool | Int | Real | Class(_) | Any, Any) => true,
            (Bool, Bool) | (Int, Int) | (Int | Real, Real) => true,
            (Class(low), Class(high)) => classes.is_below(*low, *high),
            (Of(k, low), Of(l, high)) => k == l && low.is_below(high, classes),
            (Of(_, low) | Collection(low), Collection(high)) => low.is_below(high, classes),
            _ => false,
        }
    }

    /// The least upper bound, where there is one.
    pub fn common(&self, other: &Type, classes: &Classes) -> Option<Type> {
        use Type::*;
        Some(match (self, other) {
            (Void, any) | (any, Void) => any.clone(),
            (Of(k, left), Of(l, right)) if k == l => Type::of(*k, left.common(right, classes)?),
            (Of(_, left) | Collection(left), Of(_, right) | Collection(right)) => {
                Collection(Box::new(left.common(right, classes)?))
            }
            (Of(..) | Collection(_), _) | (_, Of(..) | Collection(_)) => return None,
            (Class(left), Class(right)) => classes.common(*left, *right).map_or(Any, Class),
            (left, right) if left == right => left.clone(),
            (Int, Real) | (Real, Int) => Real,
            _ => Any,
        })
    }

    pub fn spell(&self, out: &mut Vec<u8>) {
        let (letter, member) = match self {
            Type::Void => return out.extend(b"Void"),
            Type::Bool => return out.extend(b"Bool"),
            Type::Int => return out.extend(b"Int"),
            Type::Real => return out.extend(b"Real"),
            Type::Any => return out.extend(b"Any"),
            Type::Class(class) => return out.extend(format!("#{class}").as_bytes()),
            Type::Of(kind, member) => (kind.letter(), member),
            Type::Collection(member) => (b'C', member),
        };
        out.extend([letter, b'(']);
        member.spell(out);
        out.push(b')');
    }
}
