//! The cases of an edit that are about what it does to the values.

use super::board_cases::{BoardCase, Happened, Met};
use super::board_verdicts::seen;
use crate::calls::LONGEST_SHEET;
use crate::model::{Edit, Model, Sheet};
use crate::read::{MOST_VALUES, MOST_VALUE_SIZES};
use crate::report::report;
use crate::values::Value;

/// An edit without a fault of its own.
pub fn edited(happened: &Happened, sheet: &Sheet, edit: &Edit) -> Met {
    let number = happened.answer.number;
    let change = Change::of(&sheet.model, edit);
    let mut met = vec![
        (
            number == 21 && change.count_then > MOST_VALUES,
            BoardCase::Lines,
        ),
        (
            number == 21 && change.sizes_then > MOST_VALUE_SIZES,
            BoardCase::Sizes,
        ),
    ];
    if !matches!(number, 0 | 21) {
        return met;
    }
    let mut then = sheet.clone();
    then.model.edit(edit.clone());
    if number == 21 {
        let lines = report(&then, happened.turn.verdicts);
        met.push((lines.is_err(), BoardCase::FullTooLong));
        return met;
    }
    met.extend(change.done());
    met.extend(change.full());
    met.extend([
        (sheet.rules.is_empty(), BoardCase::NoRules),
        (happened.last == 18, BoardCase::AfterTooLong),
        (happened.last == 21, BoardCase::AfterFull),
        (matches!(happened.last, 3..=7), BoardCase::AfterBad),
        (
            length(happened.text, &then) > LONGEST_SHEET,
            BoardCase::LongSheet,
        ),
    ]);
    met.extend(seen(happened, sheet, edit));
    met
}

fn size(value: Option<&Value>) -> usize {
    value.map_or(0, Value::size)
}

/// What an edit does to the values, and how many and how large they are before and after.
struct Change<'c> {
    model: &'c Model,
    key: (u8, u8),
    old: Option<&'c Value>,
    new: Option<&'c Value>,
    count: usize,
    count_then: usize,
    sizes: usize,
    sizes_then: usize,
}

impl<'c> Change<'c> {
    fn of(model: &'c Model, edit: &'c Edit) -> Change<'c> {
        let old = model.value(edit.object, edit.row);
        let new = edit.value.as_ref();
        let (count, sizes) = (model.values.len(), model.value_sizes());
        Change {
            model,
            key: (edit.object, edit.row),
            old,
            new,
            count,
            count_then: count - usize::from(old.is_some()) + usize::from(new.is_some()),
            sizes,
            sizes_then: sizes - size(old) + size(new),
        }
    }

    /// Where a value is set, changed or cleared.
    fn done(&self) -> Met {
        let Change { old, new, key, .. } = *self;
        let values = &self.model.values;
        let is_new = old.is_none() && new.is_some();
        let changed = old.is_some() && new.is_some();
        let same = changed && old == new;
        vec![
            (values.is_empty(), BoardCase::NoValues),
            (is_new, BoardCase::Set),
            (changed && !same, BoardCase::Changed),
            (same, BoardCase::Same),
            (old.is_some() && new.is_none(), BoardCase::Cleared),
            (old.is_none() && new.is_none(), BoardCase::ClearedEmpty),
            (
                is_new && values.first().is_some_and(|first| key < first.0),
                BoardCase::FirstOfAll,
            ),
            (
                is_new && values.last().is_some_and(|last| key > last.0),
                BoardCase::LastOfAll,
            ),
        ]
    }

    /// Where the board is full, before it or after it.
    fn full(&self) -> Met {
        let Change {
            old, new, sizes, ..
        } = *self;
        let is_full = self.count == MOST_VALUES || sizes == MOST_VALUE_SIZES;
        let changed = old.is_some() && new.is_some();
        vec![
            (
                old.is_none() && new.is_some() && self.count_then == MOST_VALUES,
                BoardCase::MostLines,
            ),
            (
                sizes < self.sizes_then && self.sizes_then == MOST_VALUE_SIZES,
                BoardCase::MostSizes,
            ),
            (is_full && changed, BoardCase::ChangedFull),
            (
                changed && sizes + size(new) > MOST_VALUE_SIZES && size(old) > 1,
                BoardCase::LargerTaken,
            ),
            (
                is_full && old.is_some() && new.is_none(),
                BoardCase::ClearedFull,
            ),
            (
                is_full && old.is_none() && new.is_none(),
                BoardCase::EmptyFull,
            ),
        ]
    }
}

/// The bytes of a text with the values of a sheet in place of its own.
fn length(text: &[u8], sheet: &Sheet) -> usize {
    let lines = text.split_inclusive(|byte| *byte == b'\n');
    let others: usize = lines.filter(|line| line[0] != b'V').map(<[u8]>::len).sum();
    let values = sheet.model.values.iter().map(|((object, row), value)| {
        let mut line = format!("V\t{object}\t{row}\t\n").into_bytes();
        value.spell(&mut line);
        line.len()
    });
    others + values.sum::<usize>()
}
