//! A sheet with its objects numbered anew by a permutation (F-12).

use crate::model::Model;
use crate::values::{Collection, Value};

/// Whether these are the numbers from 0 on, each once.
pub fn is_permutation(to: &[u8]) -> bool {
    (0..to.len()).all(|number| to.iter().any(|new| usize::from(*new) == number))
}

/// The value with the new number of each object, `to` having those of 0 and so on;
/// members of Sets and Bags are put back in order.
pub fn value(value: &Value, to: &[u8]) -> Value {
    match value {
        Value::Object(object) => Value::Object(to[usize::from(*object)]),
        Value::Collection(old) => {
            let members = old.members.iter().map(|member| self::value(member, to));
            let new = Collection::formed(old.kind, members.collect());
            new.expect("other numbers make a value no larger")
        }
        _ => value.clone(),
    }
}

/// The sheet with the new number of each object: O and V lines, and members of Sets and
/// Bags, are put back in order, and all other lines stay. The model is the sheet's.
pub fn sheet(text: &[u8], model: &Model, to: &[u8]) -> Vec<u8> {
    assert!(to.len() == model.objects.len() && is_permutation(to));
    let mut objects: Vec<(u8, u8)> = (to.iter().copied())
        .zip(model.objects.iter().copied())
        .collect();
    objects.sort();
    let new_key = |(object, row): (u8, u8)| (to[usize::from(object)], row);
    let mut values: Vec<((u8, u8), Value)> = (model.values.iter())
        .map(|(key, old)| (new_key(*key), value(old, to)))
        .collect();
    values.sort_by_key(|(key, _)| *key);

    let lines = text.split_inclusive(|byte| *byte == b'\n');
    let others: Vec<&[u8]> = lines.filter(|line| !b"OV".contains(&line[0])).collect();
    let is_before = |line: &&&[u8]| b"CA".contains(&line[0]);
    let (before, behind) = others.split_at(others.iter().take_while(is_before).count());
    let mut new = before.concat();
    for (object, class) in objects {
        new.extend(format!("O\t{object}\t{class}\n").as_bytes());
    }
    for ((object, row), value) in values {
        new.extend(format!("V\t{object}\t{row}\t").as_bytes());
        value.spell(&mut new);
        new.push(b'\n');
    }
    new.extend(behind.concat());
    new
}
