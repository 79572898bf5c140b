//! The report: one line for each rule and each object of its class or below.

use crate::eval::{evaluate, Stop};
use crate::model::Sheet;
use crate::refusal::{Refusal, Refused};
use crate::values::Value;

/// The report, of at most `room` bytes, on a sheet whose rules are typed.
pub fn report(sheet: &Sheet, room: usize) -> Result<Vec<u8>, Refused> {
    let mut out = Vec::new();
    for number in 0..sheet.rules.len() {
        verdicts(sheet, number, room, &mut out)?;
    }
    Ok(out)
}

/// Adds a rule's lines and gives their steps together.
pub fn verdicts(
    sheet: &Sheet,
    number: usize,
    room: usize,
    out: &mut Vec<u8>,
) -> Result<u64, Refused> {
    let rule = &sheet.rules[number];
    let mut all = 0;
    for object in sheet.model.objects_of(rule.context) {
        out.extend(format!("{number} {object} ").as_bytes());
        let (outcome, steps) = evaluate(sheet, rule, object);
        match outcome {
            Ok(value) => spell(value.as_ref(), out),
            Err(stop) => out.extend(format!("!{}", stop.refusal() as u8).as_bytes()),
        }
        out.extend(format!(" {steps}\n").as_bytes());
        if out.len() > room {
            return Err(Refusal::ReportTooLong.at(0));
        }
        all += steps;
    }
    Ok(all)
}

/// A value, or undefined where there is none.
pub fn spell(value: Option<&Value>, out: &mut Vec<u8>) {
    match value {
        Some(value) => value.spell(out),
        None => out.push(b'u'),
    }
}

impl Stop {
    pub fn refusal(self) -> Refusal {
        match self {
            Stop::Steps => Refusal::StepStop,
            Stop::Size => Refusal::SizeStop,
            Stop::Range => Refusal::OverRange,
            Stop::Stuck => panic!("a typed rule ended stuck"),
        }
    }
}

/// The steps of all lines of a report.
pub fn steps_of(lines: &[u8]) -> u64 {
    let lines = String::from_utf8_lossy(lines);
    let steps = lines.lines().filter_map(|line| line.rsplit(' ').next());
    steps.filter_map(|steps| steps.parse::<u64>().ok()).sum()
}
