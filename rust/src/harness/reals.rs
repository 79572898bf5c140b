//! Which cases of Reals a call's answer is.

use super::cases::Case;
use super::numbers::{closed, computed, is_mixed};
use crate::calls::Answer;
use crate::eval::evaluate_node;
use crate::generate::Call;
use crate::model::Sheet;
use crate::read::{read, spelling};
use crate::refusal::{Refusal, Refused};
use crate::types::{Kind, Type};
use crate::typing::type_rules;
use crate::values::Value;

/// The bytes of a Sequence of 127 Reals.
const LONGEST: u64 = 2_288;
/// Evaluations of more steps are not run again.
const MOST_STEPS: u64 = 10_000;
/// What a faulty spelling is mended to.
const GOOD: &[u8] = b"r3ff8000000000000";

/// A text by lines and fields, and the sheet if it is accepted and speaks of Reals.
pub struct Reals<'t> {
    lines: Vec<Vec<&'t [u8]>>,
    accepted: Option<(Sheet, Vec<Type>)>,
}

/// What the letter r and 16 digits can be the bits of, but for a Real.
#[derive(Clone, Copy, PartialEq, Eq)]
enum Wrong {
    Whole,
    MinusZero,
    Infinite,
    Nan,
    Capital,
}

impl<'t> Reals<'t> {
    pub fn of(text: &'t [u8]) -> Reals<'t> {
        let speaks = (text.windows(4)).any(|word| matches!(word, b"Real" | b"real" | b"over"));
        let lines = text.split(|byte| *byte == b'\n');
        let fields = |line: &'t [u8]| line.split(|byte| *byte == b'\t').collect();
        let sheet = speaks.then(|| read(text).ok()).flatten();
        let typed = |mut sheet| type_rules(&mut sheet).ok().map(|types| (sheet, types));
        Reals {
            lines: lines.map(fields).collect(),
            accepted: sheet.and_then(typed),
        }
    }

    /// What a refusal's line tells.
    pub fn refused(&self, answer: Answer) -> Vec<Case> {
        let place = answer.place as usize;
        let Some(line) = place.checked_sub(1).and_then(|at| self.lines.get(at)) else {
            return Vec::new();
        };
        let one = |case: Case, met: bool| met.then_some(case).into_iter().collect();
        match (answer.number, line.as_slice()) {
            (3 | 4, _) => self.misspelt(place, answer.number),
            (5, [b"V", .., value]) => spelling::value(value).map_or(Vec::new(), |v| disorder(&v)),
            (7, [b"V", _, row, value]) => {
                let real = spelling::real(value).is_ok() && self.is_of_integers(row);
                one(Case::RealForInteger, real)
            }
            (11, [b"N", _, b"div" | b"mod", ..]) => {
                let mended = self.with_field(place, 2, b"over");
                let here = Some(Refusal::WrongOperandType.at(place));
                one(Case::DivisionOfReal, refusal(&mended) != here)
            }
            (11, [b"N", _, b"as", operand, _]) => {
                one(Case::CastOfReal, self.is_real(place, operand))
            }
            _ => Vec::new(),
        }
    }

    fn is_of_integers(&self, row: &[u8]) -> bool {
        let mut lines = self.lines.iter();
        lines.any(|line| matches!(line.as_slice(), [b"A", number, _, _, b"Int"] if *number == row))
    }

    /// Whether the node nearest before the line with this number is a `real`.
    fn is_real(&self, place: usize, node: &[u8]) -> bool {
        let mut before = self.lines[..place - 1].iter().rev();
        let found = before.find(|line| line.get(1) == Some(&node));
        found.is_some_and(|line| line.get(2) == Some(&b"real".as_slice()))
    }

    /// The faults of spelling on a line that, mended, is refused for something else.
    fn misspelt(&self, place: usize, number: u64) -> Vec<Case> {
        const FAULTS: [(Wrong, u64, Case); 5] = [
            (Wrong::Whole, 3, Case::SpeltInteger),
            (Wrong::MinusZero, 3, Case::SpeltMinusZero),
            (Wrong::Capital, 3, Case::SpeltCapital),
            (Wrong::Infinite, 4, Case::SpeltInfinite),
            (Wrong::Nan, 4, Case::SpeltNan),
        ];
        let mut met = Vec::new();
        for (wrong, refused, case) in FAULTS {
            if refused != number || !self.has(place, wrong) {
                continue;
            }
            let mended = refusal(&self.mended(place, wrong));
            if mended.is_none_or(|mended| mended.refusal as u64 != number || mended.place != place)
            {
                met.push(case);
            }
            if wrong == Wrong::Whole && mended == Some(Refusal::OutOfLimits.at(place)) {
                met.push(Case::SpeltBoth);
            }
        }
        met
    }

    fn has(&self, place: usize, wrong: Wrong) -> bool {
        let fields = self.lines[place - 1].iter();
        fields
            .flat_map(|field| parts(field))
            .any(|part| self::wrong(part) == Some(wrong))
    }

    /// The text with this fault of a line mended.
    fn mended(&self, place: usize, wrong: Wrong) -> Vec<u8> {
        let mend = |field: &&[u8]| {
            let parts = parts(field).map(|part| match self::wrong(part) {
                Some(found) if found == wrong => GOOD,
                _ => part,
            });
            parts.collect::<Vec<_>>().concat()
        };
        let line: Vec<Vec<u8>> = self.lines[place - 1].iter().map(mend).collect();
        self.with_line(place, &line.join(&b'\t'))
    }

    fn with_field(&self, place: usize, field: usize, word: &[u8]) -> Vec<u8> {
        let mut line = self.lines[place - 1].clone();
        line[field] = word;
        self.with_line(place, &line.join(&b'\t'))
    }

    fn with_line(&self, place: usize, line: &[u8]) -> Vec<u8> {
        let mut lines: Vec<Vec<u8>> = self.lines.iter().map(|line| line.join(&b'\t')).collect();
        lines[place - 1] = line.to_vec();
        lines.join(&b'\n')
    }

    /// What an answer on an accepted sheet tells.
    pub fn answered(&self, call: Call, answer: Answer) -> Vec<Case> {
        let Some((sheet, types)) = &self.accepted else {
            return Vec::new();
        };
        match (call, answer.number) {
            (Call::Read, 0) if types.contains(&Type::Real) => vec![Case::TypeReal],
            (Call::Evaluate { rule, object }, 0 | 19) if answer.steps < MOST_STEPS => {
                let root = &sheet.rules[rule as usize].root;
                let object = object as u8;
                let mut met = Vec::new();
                for node in closed(root) {
                    met.extend(computed(sheet, node, object));
                }
                let value = evaluate_node(sheet, root, object).0;
                if matches!(value, Ok(Some(value)) if is_mixed(&value)) {
                    met.push(Case::SetOfBoth);
                }
                if answer.length == LONGEST {
                    met.push(Case::LongestValue);
                }
                met
            }
            _ => Vec::new(),
        }
    }
}

/// What a text is refused for, by its lines or by typing.
fn refusal(text: &[u8]) -> Option<Refused> {
    match read(text) {
        Err(refused) => Some(refused),
        Ok(mut sheet) => type_rules(&mut sheet).err(),
    }
}

/// A field's brackets and commas, and what stands between them.
fn parts(field: &[u8]) -> impl Iterator<Item = &[u8]> {
    let is_part = |byte: &u8| b"(),".contains(byte);
    field.chunk_by(move |left, right| !is_part(left) && !is_part(right))
}

fn wrong(part: &[u8]) -> Option<Wrong> {
    let [b'r', digits @ ..] = part else {
        return None;
    };
    let digits = std::str::from_utf8(digits)
        .ok()
        .filter(|digits| digits.len() == 16)?;
    let number = f64::from_bits(u64::from_str_radix(digits, 16).ok()?);
    if digits.bytes().any(|digit| digit.is_ascii_uppercase()) {
        return Some(Wrong::Capital);
    }
    match number {
        _ if number.is_nan() => Some(Wrong::Nan),
        _ if number.is_infinite() => Some(Wrong::Infinite),
        _ if number == 0.0 && number.is_sign_negative() => Some(Wrong::MinusZero),
        _ if f64::from(number as i32) == number => Some(Wrong::Whole),
        _ => None,
    }
}

/// Members of a Set or a Bag that are numbers and out of order.
fn disorder(value: &Value) -> Vec<Case> {
    let Value::Collection(collection) = value else {
        return Vec::new();
    };
    let mut met: Vec<Case> = collection.members.iter().flat_map(disorder).collect();
    for pair in collection.members.windows(2) {
        let [Value::Number(left), Value::Number(right)] = pair else {
            continue;
        };
        let both = left.integer().is_some() != right.integer().is_some();
        match collection.kind {
            Kind::Set | Kind::Bag if both && left > right => met.push(Case::MembersOfBoth),
            Kind::Set if left == right && left.integer().is_none() => met.push(Case::RealTwice),
            _ => {}
        }
    }
    met
}
