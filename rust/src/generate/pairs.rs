//! Pairs of accepted sheets that differ only in V lines of rows that a rule does not
//! see: the second is made from the first.

use super::random::Random;
use super::world::{any_value, Scale};
use crate::calls::accepted;
use crate::model::{Edit, Model};
use crate::rows::rows_seen;
use crate::values::Value;
use std::collections::{BTreeMap, BTreeSet};
use std::str::from_utf8;

/// The first sheet, the rule, and in what the second sheet differs.
pub struct Pair {
    pub text: Vec<u8>,
    pub rule: usize,
    pub edits: Vec<Edit>,
}

impl Pair {
    /// The second sheet: all lines but the edited ones are the first one's.
    pub fn other(&self) -> Vec<u8> {
        let lines = self.text.split_inclusive(|byte| *byte == b'\n');
        let (values, others): (Vec<&[u8]>, Vec<&[u8]>) = lines.partition(|line| line[0] == b'V');
        let mut values: BTreeMap<(u8, u8), Vec<u8>> = (values.into_iter())
            .map(|line| (key(line), line.to_vec()))
            .collect();
        for Edit { object, row, value } in &self.edits {
            let Some(value) = value else {
                values.remove(&(*object, *row));
                continue;
            };
            let mut line = format!("V\t{object}\t{row}\t").into_bytes();
            value.spell(&mut line);
            line.push(b'\n');
            values.insert((*object, *row), line);
        }
        let is_before = |line: &&&[u8]| matches!(line[0], b'C' | b'A' | b'O');
        let (before, behind) = others.split_at(others.iter().take_while(is_before).count());
        let values: Vec<u8> = values.into_values().flatten().collect();
        [before.concat(), values, behind.concat()].concat()
    }

    /// Whether it still is such a pair, its first sheet having become another one.
    pub fn holds(&self) -> bool {
        let Ok((sheet, _)) = accepted(&self.text) else {
            return false;
        };
        let Some(rule) = sheet.rules.get(self.rule) else {
            return false;
        };
        let seen = rows_seen(&sheet, rule);
        let mut edits = self.edits.iter();
        edits.all(|edit| !seen.contains(&edit.row)) && accepted(&self.other()).is_ok()
    }
}

/// The object and the row of a V line.
fn key(line: &[u8]) -> (u8, u8) {
    let mut fields = line.split(|byte| *byte == b'\t').skip(1);
    let mut number = || {
        let field = fields.next().and_then(|field| from_utf8(field).ok());
        field.and_then(|field| field.parse().ok())
    };
    let numbers = number().zip(number());
    numbers.expect("a V line that is read has two numbers")
}

/// A pair for one of the rules of a sheet; none where the sheet is not accepted, or
/// no value can differ.
pub fn pair(random: &mut Random, text: &[u8]) -> Option<Pair> {
    let (sheet, _) = accepted(text).ok()?;
    let rule = random.below(sheet.rules.len().max(1));
    let seen = rows_seen(&sheet, sheet.rules.get(rule)?);
    let pair = Pair {
        text: text.to_vec(),
        rule,
        edits: edits(random, &sheet.model, &seen),
    };
    // With other values the sheet may be too long.
    (!pair.edits.is_empty() && pair.holds()).then_some(pair)
}

/// Other values, or none, in rows that are not among these: everywhere, or here and
/// there, within what a sheet can hold.
fn edits(random: &mut Random, model: &Model, seen: &BTreeSet<u8>) -> Vec<Edit> {
    let often = *random.pick(&[1, 2, 6]);
    let Scale {
        values: most,
        value_sizes: most_sizes,
        ..
    } = Scale::LIMIT;
    let mut count = model.values.len();
    let mut sizes: usize = model.values.iter().map(|(_, value)| value.size()).sum();
    let mut edits = Vec::new();
    for object in 0..model.objects.len() as u8 {
        for row in (0..model.rows.len() as u8).filter(|row| !seen.contains(row)) {
            let declared = &model.rows[usize::from(row)];
            if !model.is_of(object, declared.class) || !random.one_in(often) {
                continue;
            }
            let old = model.value(object, row);
            let without = sizes - old.map_or(0, Value::size);
            let room = (most_sizes - without).min(128);
            let value = match old {
                Some(_) if random.one_in(3) => None,
                None if count == most => None,
                _ => any_value(random, model, &declared.ty, room),
            };
            if value.as_ref() == old {
                continue;
            }
            count = count + usize::from(value.is_some()) - usize::from(old.is_some());
            sizes = without + value.as_ref().map_or(0, Value::size);
            edits.push(Edit { object, row, value });
        }
    }
    edits
}
