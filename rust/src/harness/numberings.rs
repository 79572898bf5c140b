//! A sheet and the same one with its objects numbered anew: what must agree for rules
//! in the profile, and the cases that a comparison must have met.

use super::compare::answered;
use super::named::cases;
use super::Calls;
use crate::calls::{accepted, Answer, LONGEST_SHEET};
use crate::eval::evaluate;
use crate::generate::numberings::Numbering;
use crate::generate::random::Random;
use crate::generate::Call;
use crate::profile::is_in_profile;
use crate::read::spelling;
use crate::renumber;

cases! {
    NumberingCase:
    Sheets: "a sheet with its objects numbered anew",
    TooLong: "numbered anew, a sheet that is too long then",
    OtherObjects: "numbered anew, a value of other objects",
    OtherOrder: "numbered anew, members in another order",
    KeptOrder: "numbered anew, a Sequence that is not in the objects' order",
    Undefined: "numbered anew, undefined both times",
    OtherSteps: "numbered anew, other steps",
    OneStop: "numbered anew, a stop on one sheet only",
    Absent: "numbered anew, an object that is not there",
    OtherClass: "numbered anew, an object of another class",
    Outside: "numbered anew, a rule outside the profile that answers otherwise",
}

/// What is asked of both sheets, where the number of an object is the first one's.
#[derive(Clone, Copy)]
pub enum Asked {
    /// Their types, or as they are held to the profile.
    Types(Call),
    Value {
        rule: u64,
        object: u64,
    },
}

impl Asked {
    /// The call on the first sheet, and on the second one, whose objects have new numbers.
    /// One that is not there has none.
    fn calls(self, to: &[u8]) -> [Call; 2] {
        match self {
            Asked::Types(call) => [call, call],
            Asked::Value { rule, object } => {
                let new = to.get(object as usize);
                let image = new.map_or(object, |new| u64::from(*new));
                [object, image].map(|object| Call::Evaluate { rule, object })
            }
        }
    }
}

/// An answer with what was written.
type Told = (Answer, String);

/// What was asked on the two sheets, the second one's answer where it is not too long,
/// and how they disagree, if they do.
pub struct Compared {
    pub first: Told,
    pub second: Option<Told>,
    pub difference: Option<String>,
}

/// Each call is lent other garbage. None where the sheet is not accepted.
pub fn compared(
    calls: &dyn Calls,
    numbering: &Numbering,
    asked: Asked,
    seed: u64,
) -> Option<Compared> {
    let (other, to) = numbering.other()?;
    let [call, image] = asked.calls(&to);
    let mut garbage = Random::new(seed);
    let first = answered(calls, call, &numbering.text, garbage.word());
    let second = answered(calls, image, &other, garbage.word());
    if other.len() > LONGEST_SHEET {
        let is_said = second.0.number == 2;
        return Some(Compared {
            first,
            difference: (!is_said).then(|| format!("too long, but {second:?}")),
            second: None,
        });
    }
    let agree = match asked {
        Asked::Types(_) => first == second,
        Asked::Value { .. } => agree(&first, &second, &to),
    };
    let difference = (!agree)
        .then(|| format!("{call:?} on one sheet {first:?}\n{image:?} on the other {second:?}"));
    Some(Compared {
        first,
        second: Some(second),
        difference,
    })
}

fn is_stop(answer: Answer) -> bool {
    matches!(answer.number, 16 | 17 | 19)
}

/// Whether the values agree up to the new numbers, where neither is a stop.
fn agree((first, value): &Told, (second, image): &Told, to: &[u8]) -> bool {
    if is_stop(*first) || is_stop(*second) {
        return true;
    }
    let same = (first.number, first.place) == (second.number, second.place);
    same && renumbered(value, to).as_ref() == Some(image)
}

/// The value as it is with the new numbers; none if it is no value.
fn renumbered(value: &str, to: &[u8]) -> Option<String> {
    if matches!(value, "" | "u") {
        return Some(value.to_string());
    }
    let value = spelling::value(value.as_bytes()).ok()?;
    let mut spelt = Vec::new();
    renumber::value(&value, to).spell(&mut spelt);
    String::from_utf8(spelt).ok()
}

/// The rules that are in the profile, by number.
pub fn rules(text: &[u8]) -> Vec<u64> {
    let Ok((sheet, _)) = accepted(text) else {
        return Vec::new();
    };
    let rules = (0..).zip(&sheet.rules);
    let rules = rules.filter(|(_, rule)| is_in_profile(&sheet, rule));
    rules.map(|(number, _)| number).collect()
}

/// The cases that two answers are.
pub fn met(compared: &Compared) -> Vec<NumberingCase> {
    let Some((second, image)) = &compared.second else {
        return vec![NumberingCase::TooLong];
    };
    let (first, value) = &compared.first;
    let stops = [first, second].map(|answer| is_stop(*answer));
    let members = objects_in(value);
    let images = objects_in(image);
    let mut sorted = members.clone();
    sorted.sort();
    let is_sequence = value.starts_with('Q');
    let is_group = value.starts_with(['S', 'B']);
    let cases = [
        (true, NumberingCase::Sheets),
        (members != images, NumberingCase::OtherObjects),
        (
            is_group && members.len() > 1 && members != images,
            NumberingCase::OtherOrder,
        ),
        (is_sequence && sorted != members, NumberingCase::KeptOrder),
        (value == "u" && image == "u", NumberingCase::Undefined),
        (
            stops == [false; 2] && first.steps != second.steps,
            NumberingCase::OtherSteps,
        ),
        (stops[0] != stops[1], NumberingCase::OneStop),
        (first.number == 14, NumberingCase::Absent),
        (first.number == 15, NumberingCase::OtherClass),
    ];
    let met = cases.into_iter().filter(|(is, _)| *is);
    met.map(|(_, case)| case).collect()
}

/// The numbers of the objects in a value, as they stand.
fn objects_in(value: &str) -> Vec<usize> {
    let pieces = value.split('@').skip(1);
    let digits = pieces.map(|piece| piece.trim_end_matches(|c: char| !c.is_ascii_digit()));
    digits
        .filter_map(|digits| digits.split(',').next()?.parse().ok())
        .collect()
}

/// Whether a rule outside the profile answers otherwise for an object.
pub fn is_told_apart(numbering: &Numbering) -> bool {
    const MOST_TRIES: usize = 20;
    let Ok((sheet, _)) = accepted(&numbering.text) else {
        return false;
    };
    let Some((other, to)) = numbering.other() else {
        return false;
    };
    let Ok((new, _)) = accepted(&other) else {
        return false;
    };
    let rules = sheet.rules.iter().zip(&new.rules);
    let rules = rules.filter(|(rule, _)| !is_in_profile(&sheet, rule));
    let all = rules.flat_map(|(rule, same)| {
        let objects = sheet.model.objects_of(rule.context);
        objects.map(move |object| (rule, same, object))
    });
    let mut all = all.take(MOST_TRIES);
    all.any(|(rule, same, object)| {
        let first = evaluate(&sheet, rule, object).0;
        let second = evaluate(&new, same, to[usize::from(object)]).0;
        match (first, second) {
            (Ok(first), Ok(second)) => first.map(|value| renumber::value(&value, &to)) != second,
            _ => false,
        }
    })
}
