//! A sheet's refusal, or its verdicts, in words for a person. What is explained are the
//! lines that the product's programs print; the words, and the values of a rule's parts,
//! come from the second evaluator. Where the two do not say the same of a sheet, nothing is
//! explained.

pub mod advice;
mod bound;
mod decided;
mod fields;
mod hints;
mod known;
mod limits;
mod lines;
mod misfit;
mod operands;
mod order;
pub mod page;
mod refused;
mod remedies;
mod runs;
mod spelling;
mod texts;
mod trees;
mod typed;
mod unlike;
mod verdicts;
mod why;
mod words;

use crate::calls::{accepted, program, undefined_program};
use crate::model::Sheet;
use crate::origins;
use crate::report;
use lines::Lines;
pub use refused::refused;
use unlike::never_true;
pub use verdicts::{Kind, Told, Verdict};

/// What the product's programs print for a sheet: its report, and where undefined came
/// from. None where a program is not at hand.
#[derive(Default)]
pub struct Printed {
    pub report: Option<Vec<u8>>,
    pub undefined: Option<Vec<u8>>,
}

/// A sheet with what is printed for it.
pub struct Explained<'t> {
    text: &'t [u8],
    lines: Lines<'t>,
    whose: &'static str,
    /// The number and the place of a refusal.
    pub refusal: Option<(u64, usize)>,
    /// Whether the report or the lines about undefined verdicts are too long to be printed.
    /// Then the second evaluator's are explained, which have no limit.
    too_long: bool,
    sheet: Option<Sheet>,
    pub verdicts: Vec<Verdict>,
}

/// Said where the lines that are explained are not those of a program.
pub const TOO_LONG: &str =
    "Too long to be printed (18), the lines below are the second evaluator's alone.\n\n";

/// Said of a sheet that may have been cut off.
pub const NO_RULE: &str = "The sheet has no rule: nothing was checked.";

/// What is printed, compared with what the second evaluator says. Where they differ, a
/// sentence on how.
pub fn explained<'t>(text: &'t [u8], printed: &Printed) -> Result<Explained<'t>, String> {
    let (report, undefined) = (program(text), undefined_program(text));
    same("ocl_report", printed.report.as_deref(), &report)?;
    same("ocl_undefined", printed.undefined.as_deref(), &undefined)?;
    let sheet = accepted(text).ok().map(|(sheet, _)| sheet);
    let refusal = refusal(&report);
    let mut explained = Explained {
        text,
        lines: Lines::new(text),
        whose: whose(printed, refusal.is_some()),
        refusal,
        too_long: false,
        sheet,
        verdicts: Vec::new(),
    };
    explained.take(report, undefined);
    Ok(explained)
}

fn spelt(bytes: &[u8]) -> String {
    String::from_utf8_lossy(bytes).into_owned()
}

/// The first line in which the product's program says something else.
fn same(name: &str, printed: Option<&[u8]>, second: &[u8]) -> Result<(), String> {
    let Some(printed) = printed.filter(|printed| *printed != second) else {
        return Ok(());
    };
    let (printed, second) = (spelt(printed), spelt(second));
    let (mut left, mut right) = (printed.lines(), second.lines());
    let differs = (1..).find_map(|number| {
        let pair = (left.next(), right.next());
        (pair.0 != pair.1 || pair.0.is_none()).then_some((number, pair))
    });
    let (number, (left, right)) = differs.unwrap_or_default();
    let said = |line: Option<&str>| line.map_or("nothing".to_string(), |line| format!("`{line}`"));
    Err(format!(
        "the proved program and the second evaluator do not say the same of this sheet, so nothing is \
        explained. Line {number} of {name} is {} by the one and {} by the other. Keep the sheet: it shows \
        a mistake in one of them",
        said(left),
        said(right)
    ))
}

/// A sentence on whose lines are explained and whose words these are.
fn whose(printed: &Printed, refused: bool) -> &'static str {
    match (&printed.report, &printed.undefined) {
        (Some(_), _) if refused => {
            "The refusal is printed by the proved program ocl_report, and the second evaluator came to the \
            same. The words are the second evaluator's, which is not proved."
        }
        (Some(_), Some(_)) => {
            "Verdicts, steps and where undefined arose are printed by the proved programs ocl_report and \
            ocl_undefined, and the second evaluator came to the same. The words and the values of parts are \
            the second evaluator's, which is not proved."
        }
        (Some(_), None) => {
            "Verdicts and steps are printed by the proved program ocl_report, and the second evaluator came \
            to the same. The words, the values of parts and where undefined arose are the second \
            evaluator's, which is not proved."
        }
        _ => {
            "All of this is said by the second evaluator, which is not proved: no proved program was at \
            hand to compare it with."
        }
    }
}

/// The number and the place of a refusal.
fn refusal(printed: &[u8]) -> Option<(u64, usize)> {
    let printed = spelt(printed);
    let (number, place) = printed.strip_prefix("! ")?.trim_end().split_once(' ')?;
    Some((number.parse().ok()?, place.parse().ok()?))
}

/// A line of four numbers.
fn numbers(line: &str) -> Option<[usize; 4]> {
    let numbers: Vec<usize> = line.split(' ').filter_map(|n| n.parse().ok()).collect();
    numbers.try_into().ok()
}

/// A line of the report, and where undefined arose in it, which is the next that is told.
fn verdict(line: &str, origins: &mut impl Iterator<Item = [usize; 4]>) -> Option<Verdict> {
    let fields: Vec<&str> = line.split(' ').collect();
    let [rule, object, value, steps] = fields[..] else {
        return None;
    };
    let origin = if value == "u" { origins.next() } else { None };
    Some(Verdict {
        rule: rule.parse().ok()?,
        object: object.parse().ok()?,
        value: value.to_string(),
        steps: steps.parse().ok()?,
        origin: origin.map(|[_, _, line, step]| (line, step)),
    })
}

impl Explained<'_> {
    /// Takes the verdicts from the lines that are printed.
    fn take(&mut self, mut report: Vec<u8>, mut undefined: Vec<u8>) {
        if let Some(sheet) = &self.sheet {
            if refusal(&report).is_some() {
                self.too_long = true;
                report = report::report(sheet, usize::MAX).unwrap_or_default();
            }
            if refusal(&undefined).is_some() {
                self.too_long = true;
                undefined = origins::lines(sheet, usize::MAX).unwrap_or_default();
            }
        }
        let (report, undefined) = (spelt(&report), spelt(&undefined));
        let mut origins = undefined.lines().filter_map(numbers);
        let lines = report.lines();
        let verdicts = lines.filter_map(|line| verdict(line, &mut origins));
        self.verdicts = verdicts.collect();
    }

    /// How many verdicts there are of each kind: true, false, undefined, stopped, others.
    pub fn counts(&self) -> [usize; 5] {
        let kinds = [
            Kind::True,
            Kind::False,
            Kind::Undefined,
            Kind::Stopped,
            Kind::Value,
        ];
        kinds.map(|kind| {
            let verdicts = self.verdicts.iter();
            verdicts.filter(|verdict| verdict.kind() == kind).count()
        })
    }

    pub fn told(&self) -> Option<Told<'_>> {
        let lines = &self.lines;
        self.sheet.as_ref().map(|sheet| Told {
            sheet,
            lines,
            is_traced: false,
        })
    }

    /// The refusal, or each verdict that is false, undefined or stopped and how many there
    /// are of each kind.
    pub fn words(&self) -> String {
        let mut out = String::new();
        if let Some((number, place)) = self.refusal {
            out += &refused(self.text, number, place);
        }
        let Some(told) = self.told() else {
            return out;
        };
        if self.too_long {
            out += TOO_LONG;
        }
        for verdict in &self.verdicts {
            if !matches!(verdict.kind(), Kind::True | Kind::Value) {
                out += &(told.words(verdict) + "\n");
            }
        }
        out += &never_true(told.sheet).concat();
        if told.sheet.rules.is_empty() {
            out += NO_RULE;
            out += "\n";
        }
        out + &self.counted() + "\n"
    }

    /// The number of verdicts, and how many there are of each kind.
    pub fn counted(&self) -> String {
        let [kept, broken, undefined, stopped, others] = self.counts();
        let total = self.verdicts.len();
        let word = if total == 1 { "verdict" } else { "verdicts" };
        format!(
            "{total} {word}: {kept} true, {broken} false, {undefined} undefined, {stopped} stopped, \
            {others} other values."
        )
    }

    pub fn whose(&self) -> &'static str {
        self.whose
    }
}
