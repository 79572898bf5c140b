//! How a stand-in for a product that edits boards wrongly judges an edit, which rules it
//! evaluates again, and what it makes of the verdicts.

use super::mishandlings::Mishandling;
use crate::board::laid;
use crate::eval::{evaluate, rows_run};
use crate::model::{Edit, Model, Rule, Sheet};
use crate::read::edits::edit;
use crate::read::{read, MOST_VALUES, MOST_VALUE_SIZES};
use crate::refusal::{Refusal, Refused};
use crate::report::{report, verdicts};
use crate::rows::{own_rows, rows_seen};
use crate::tree::{Form, Node};
use crate::values::Value;
use std::ops::Range;

/// An edit that was made: what the board becomes.
#[derive(Default)]
pub(super) struct Done {
    pub words: Vec<u64>,
    pub verdicts: Vec<u8>,
    pub steps: u64,
    /// The bytes that were evaluated again.
    pub renewed: usize,
}

/// A refusal of the edit, which is one line.
pub(super) fn own(refusal: Refusal) -> Refused {
    refusal.at(1)
}

/// Puts a sheet's values into the board, and its verdicts where they stood.
pub(super) fn put(sheet: &Sheet, parts: &[Range<usize>], board: &mut [u64]) {
    let ends: Vec<usize> = parts.iter().map(|part| part.end).collect();
    let words = laid(sheet, &ends);
    board[..words.len()].copy_from_slice(&words);
}

/// The steps of the verdicts that are meant.
pub(super) fn steps(sheet: &Sheet, is_meant: impl Fn(&Rule, u8) -> bool) -> u64 {
    let mut all = 0;
    for rule in &sheet.rules {
        for object in sheet.model.objects_of(rule.context) {
            if is_meant(rule, object) {
                all += evaluate(sheet, rule, object).1;
            }
        }
    }
    all
}

impl Mishandling {
    /// The edit's faults, where they come before the sheet's.
    pub(super) fn judged_early(self, text: &[u8], line: &[u8]) -> Result<(), Refused> {
        if self == Mishandling::EditBeforeText {
            let judged = edit(&Model::default(), line);
            if let Err(fault @ (Refusal::BadLine | Refusal::OutOfLimits)) = judged {
                return Err(own(fault));
            }
        }
        if let (Mishandling::EditBeforeTypes, Ok(sheet)) = (self, read(text)) {
            edit(&sheet.model, line).map_err(own)?;
        }
        Ok(())
    }

    /// The edit as the fault reads it; none where it would change nothing.
    pub(super) fn judged(self, model: &Model, line: &[u8]) -> Result<Option<Edit>, Refusal> {
        let judged = edit(model, line);
        let ended = [line, b"\n"].concat();
        let first = line.split_inclusive(|byte| *byte == b'\n').next();
        let cleared = line
            .strip_suffix(b"\tu\n")
            .map(|line| [line, b"\t-\n"].concat());
        let is_clearing = line.ends_with(b"\t-\n");
        match (self, &judged) {
            (Mishandling::NoLineFeed, Err(Refusal::BadLine)) => edit(model, &ended).map(Some),
            (Mishandling::TwoLines, Err(Refusal::BadLine)) => {
                edit(model, first.unwrap_or_default()).map(Some)
            }
            (Mishandling::NoBytes, _) if line.is_empty() => Ok(None),
            (Mishandling::AnyLine, Err(Refusal::BadLine)) if line.starts_with(b"C\t") => {
                Err(Refusal::OutOfOrder)
            }
            (Mishandling::Undefined, Err(Refusal::BadLine)) => {
                edit(model, cleared.as_deref().unwrap_or(line)).map(Some)
            }
            (Mishandling::ClearedAbsent, Err(Refusal::UnknownReference)) if is_clearing => Ok(None),
            (Mishandling::ClearedMismatch, Err(Refusal::ValueMismatch)) if is_clearing => Ok(None),
            (Mishandling::Members, Err(Refusal::OutOfOrder)) => Ok(None),
            (Mishandling::Ascending, Ok(edit)) => {
                let last = model.values.last();
                let is_behind = last.is_none_or(|last| last.0 <= (edit.object, edit.row));
                is_behind.then_some(()).ok_or(Refusal::OutOfOrder)?;
                judged.map(Some)
            }
            (Mishandling::FullBeforeMismatch, Err(Refusal::ValueMismatch))
                if model.values.len() == MOST_VALUES =>
            {
                Err(Refusal::BoardFull)
            }
            _ => judged.map(Some),
        }
    }

    /// Whether the board has room for an edit.
    pub(super) fn room(
        self,
        sheet: &Sheet,
        edit: &Edit,
        old: Option<&Value>,
    ) -> Result<(), Refusal> {
        let size = |value: Option<&Value>| value.map_or(0, Value::size);
        let (mut most, mut most_sizes) = (MOST_VALUES, MOST_VALUE_SIZES);
        let mut count = sheet.model.values.len();
        let mut sizes = sheet.model.value_sizes();
        let is_full = count == most || sizes == most_sizes;
        if self == Mishandling::ClearingFull && is_full && edit.value.is_none() {
            return Err(Refusal::BoardFull);
        }
        if edit.value.is_none() {
            return Ok(());
        }
        match self {
            Mishandling::FullAtLimit => most -= 1,
            Mishandling::SizesAtLimit => most_sizes -= 1,
            Mishandling::OldSizeStays => sizes += size(old),
            Mishandling::OldLineStays => count += usize::from(old.is_some()),
            _ => {}
        }
        count = count + 1 - usize::from(old.is_some());
        sizes = sizes + size(edit.value.as_ref()) - size(old);
        let has_room = count <= most && sizes <= most_sizes;
        has_room.then_some(()).ok_or(Refusal::BoardFull)
    }

    /// What is done wrongly where the board is full.
    pub(super) fn overfilled(
        self,
        mut sheet: Sheet,
        edit: Edit,
        parts: &[Range<usize>],
        board: &mut [u64],
        bytes: &[u8],
    ) -> Result<(), Refused> {
        match self {
            Mishandling::FullTaken => {
                let value = None;
                sheet.model.edit(Edit { value, ..edit });
                put(&sheet, parts, board);
            }
            Mishandling::LongBeforeFull => {
                sheet.model.edit(edit);
                report(&sheet, bytes.len())?;
            }
            _ => {}
        }
        Ok(())
    }

    /// Whether a rule is one to be evaluated again.
    pub(super) fn sees(self, sheet: &Sheet, rule: &Rule, row: u8) -> bool {
        let seen = rows_seen(sheet, rule);
        let name = |row: u8| sheet.model.rows[usize::from(row)].name;
        let mut objects = sheet.model.objects_of(rule.context);
        let mut nodes = rule.root.nodes().into_iter();
        let is_collect = |node: &&Node| matches!(node.form, Form::Collect { .. });
        match self {
            Mishandling::AllAgain => true,
            Mishandling::ByName => seen.iter().any(|other| name(*other) == name(row)),
            Mishandling::CalledLeft => own_rows(&rule.root).contains(&row),
            Mishandling::CollectLeft => seen.contains(&row) && !nodes.any(|node| is_collect(&node)),
            Mishandling::UnrunLeft => {
                let runs = |object| rows_run(sheet, rule, object) & (1 << row) != 0;
                seen.contains(&row) && objects.any(runs)
            }
            _ => seen.contains(&row),
        }
    }

    /// The verdicts, those of some rules evaluated again.
    pub(super) fn evaluated(
        self,
        sheet: &Sheet,
        is_renewed: impl Fn(&Rule) -> bool,
        bytes: &[u8],
        parts: &[Range<usize>],
    ) -> Result<Done, Refused> {
        let mut done = Done::default();
        let mut ends = Vec::new();
        for (number, rule) in sheet.rules.iter().enumerate() {
            let part = parts[number].clone();
            let start = done.verdicts.len();
            if is_renewed(rule) {
                done.steps += verdicts(sheet, number, usize::MAX, &mut done.verdicts)?;
                done.renewed += done.verdicts.len() - start;
            } else {
                let from = match self {
                    Mishandling::NotMoved => start.min(bytes.len() - part.len()),
                    Mishandling::MovedByOne if part.start < start => part.start - 1,
                    _ => part.start,
                };
                done.verdicts.extend(&bytes[from..from + part.len()]);
            }
            ends.push(done.verdicts.len());
        }
        let room = bytes.len() - usize::from(self == Mishandling::JustFits);
        if done.verdicts.len() > room {
            return Err(Refusal::ReportTooLong.at(0));
        }
        let mut sheet = sheet.clone();
        if self == Mishandling::Lost && sheet.model.values.len() == MOST_VALUES {
            sheet.model.values.pop();
        }
        done.words = laid(&sheet, &ends);
        Ok(done)
    }

    /// The steps of an edit that was made, where they are counted wrongly.
    pub(super) fn recounted(
        self,
        done: &mut Done,
        sheet: &Sheet,
        edit: &Edit,
        old: Option<&Value>,
    ) {
        let sees = |rule: &Rule| self.sees(sheet, rule, edit.row);
        let is_cleared = edit.value.is_none();
        let is_same = edit.value.as_ref() == old;
        match self {
            Mishandling::StepsOfObject => {
                done.steps = steps(sheet, |rule, object| sees(rule) && object == edit.object);
            }
            Mishandling::StopsLeft => {
                let ends = |rule: &Rule, object| evaluate(sheet, rule, object).0.is_ok();
                done.steps = steps(sheet, |rule, object| sees(rule) && ends(rule, object));
            }
            Mishandling::NothingNew if is_same && !is_cleared => done.steps = 0,
            Mishandling::NothingCleared if is_same && is_cleared => done.steps = 0,
            _ => {}
        }
    }

    /// Lines of other objects stay as they were.
    pub(super) fn keep_others(self, done: &mut Done, bytes: &[u8], object: u8) {
        let old = bytes.split_inclusive(|byte| *byte == b'\n');
        let new = done.verdicts.split_inclusive(|byte| *byte == b'\n');
        let own = format!(" {object} ");
        let kept = new.zip(old).map(|(new, old)| {
            let space = new.iter().position(|byte| *byte == b' ');
            let is_own = new[space.unwrap_or(0)..].starts_with(own.as_bytes());
            if is_own {
                new
            } else {
                old
            }
        });
        done.verdicts = kept.collect::<Vec<_>>().concat();
    }
}
