//! Where undefined came from (F-11): a line for each undefined verdict, in the report's
//! order, with the node at which undefined arose.

use crate::eval::{origin, Origin, Run};
use crate::model::Sheet;
use crate::refusal::{Refusal, Refused};

/// Rule, object, line and step of each undefined verdict; at most `room` bytes in all.
pub fn lines(sheet: &Sheet, room: usize) -> Result<Vec<u8>, Refused> {
    let mut out = Vec::new();
    for (number, rule) in sheet.rules.iter().enumerate() {
        for object in sheet.model.objects_of(rule.context) {
            if let Some(Origin { line, step }) = origin(sheet, rule, object) {
                out.extend(format!("{number} {object} {line} {step}\n").as_bytes());
            }
            if out.len() > room {
                return Err(Refusal::ReportTooLong.at(0));
            }
        }
    }
    Ok(out)
}

/// The positions of the runs from the root to the one at which undefined arose, read off
/// all that ran: from each, its first operand that came out undefined. None where the
/// root did not.
pub fn followed(runs: &[Run]) -> Vec<usize> {
    let mut path = Vec::new();
    let mut next = (0..runs.len().min(1)).find(|root| runs[*root].is_undefined());
    while let Some(above) = next {
        path.push(above);
        let operand = |run: &Run| run.above == Some(above) && run.is_undefined();
        next = (above + 1..runs.len()).find(|position| operand(&runs[*position]));
    }
    path
}
