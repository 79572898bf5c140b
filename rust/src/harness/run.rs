//! Comparisons over many sheets, up to the first difference.

use super::cases::Cases;
use super::compare::{compare, Compared};
use super::numberings::{self, Asked, NumberingCase};
use super::origins::Origins;
use super::pairs;
use super::profiles;
use super::program::{self, Program};
use super::shrink::shrink;
use super::tally::Tally;
use super::texts::Texts;
use super::Calls;
use crate::calls::accepted;
use crate::generate::numberings::{numbering, Numbering};
use crate::generate::pairs::{pair, Pair};
use crate::generate::random::Random;
use crate::generate::{Ask, Call};
use std::io;

/// The first case in which the two differ, its sheet shortened.
pub struct Difference {
    pub text: Vec<u8>,
    pub differs: Differs,
    pub how: String,
}

/// What differs: a call or a program from the second evaluator's, a rule's answers on a
/// sheet from those on another one, or answers from those with other numbers.
pub enum Differs {
    Call(Ask),
    Program,
    Rule { other: Vec<u8> },
    Numbering { other: Vec<u8> },
}

/// What is asked about one sheet. The garbage, another one for each call, follows
/// from the seed.
pub fn sheet(
    calls: &dyn Calls,
    text: &[u8],
    seed: u64,
    asks: &[Ask],
    tally: &mut Tally,
) -> Result<(), Difference> {
    let mut garbage = Random::new(seed);
    let cases = Cases::of(text);
    let texts = Texts::of(text);
    let origins = Origins::of(text);
    for ask in asks.iter().copied() {
        let compared = asked(calls, text, ask, garbage.word())?;
        tally.add(ask.call, compared.answer);
        for case in cases.met(ask.call, compared.answer) {
            tally.add_case(case);
        }
        for case in profiles::met(text, ask.call, compared.answer) {
            tally.add_profile(case);
        }
        for case in texts
            .iter()
            .flat_map(|texts| texts.met(ask.call, compared.answer))
        {
            tally.add_text(case);
        }
        for name in origins
            .iter()
            .flat_map(|origins| origins.met(ask, compared.answer, &compared.written))
        {
            tally.add_origin(name);
        }
    }
    Ok(())
}

/// One call, the garbage following from the seed.
pub fn asked(calls: &dyn Calls, text: &[u8], ask: Ask, seed: u64) -> Result<Compared, Difference> {
    let compared = compare(calls, text, ask, seed);
    if compared.difference.is_none() {
        return Ok(compared);
    }
    let how = |text: &[u8]| compare(calls, text, ask, seed).difference;
    let text = shrink(text, |text| how(text).is_some());
    Err(Difference {
        how: how(&text).unwrap_or_default(),
        differs: Differs::Call(ask),
        text,
    })
}

/// The rules of a sheet that are tried on another one.
const MOST_PAIRS: usize = 4;

/// Some rules' answers for every object, and for one that is not there, on a sheet and
/// on another that differs in what the rule does not see. Rules and sheets follow
/// from the seed.
pub fn paired(
    calls: &dyn Calls,
    text: &[u8],
    seed: u64,
    tally: &mut Tally,
) -> Result<(), Difference> {
    let Ok((sheet, _)) = accepted(text) else {
        return Ok(());
    };
    let mut random = Random::new(!seed);
    for _ in 0..MOST_PAIRS.min(sheet.rules.len()) {
        let Some(pair) = pair(&mut random, text) else {
            continue;
        };
        let mut numbers = Vec::new();
        for object in 0..=sheet.model.objects.len() as u64 {
            let seed = random.word();
            let (answer, difference) = pairs::compared(calls, &pair, object, seed);
            numbers.push(answer.number);
            if difference.is_some() {
                return Err(shortened(calls, pair, object, seed));
            }
        }
        for case in pairs::met(&pair, &numbers) {
            tally.add_pair(case);
        }
    }
    Ok(())
}

/// The difference on two sheets, both shortened by the same lines.
fn shortened(calls: &dyn Calls, mut pair: Pair, object: u64, seed: u64) -> Difference {
    let text = pair.text.clone();
    let text = shrink(&text, |text| {
        pair.text = text.to_vec();
        pair.holds() && pairs::compared(calls, &pair, object, seed).1.is_some()
    });
    pair.text = text;
    Difference {
        how: pairs::compared(calls, &pair, object, seed)
            .1
            .unwrap_or_default(),
        differs: Differs::Rule {
            other: pair.other(),
        },
        text: pair.text,
    }
}

/// The rules in the profile, and the objects, that are tried with other numbers.
const MOST_RULES: usize = 3;
const MOST_OBJECTS: usize = 8;

/// A sheet's types, and the answers of some rules in the profile for some objects and
/// for one that is not there, and the same with the objects numbered anew. The
/// numbers follow from the seed.
pub fn renumbered(
    calls: &dyn Calls,
    text: &[u8],
    seed: u64,
    tally: &mut Tally,
) -> Result<(), Difference> {
    let mut random = Random::new(seed.rotate_left(32));
    let Some(numbering) = numbering(&mut random, text) else {
        return Ok(());
    };
    for asked in asked_of_both(&mut random, text) {
        let seed = random.word();
        let Some(compared) = numberings::compared(calls, &numbering, asked, seed) else {
            continue;
        };
        if compared.difference.is_some() {
            return Err(numbered_short(calls, numbering, asked, seed));
        }
        for case in numberings::met(&compared) {
            tally.add_numbering(case);
        }
    }
    if numberings::is_told_apart(&numbering) {
        tally.add_numbering(NumberingCase::Outside);
    }
    Ok(())
}

/// What is asked of a sheet and of the same with other numbers.
fn asked_of_both(random: &mut Random, text: &[u8]) -> Vec<Asked> {
    let objects = accepted(text).map_or(0, |(sheet, _)| sheet.model.objects.len());
    let mut rules = numberings::rules(text);
    random.shuffle(&mut rules);
    rules.truncate(MOST_RULES);
    let types = [Call::Read, Call::FreeNumbering].map(Asked::Types);
    let mut asked = types.to_vec();
    for rule in rules {
        let mut some: Vec<u64> = (0..objects as u64).collect();
        random.shuffle(&mut some);
        some.truncate(MOST_OBJECTS);
        some.push(objects as u64);
        asked.extend(some.into_iter().map(|object| Asked::Value { rule, object }));
    }
    asked
}

/// The difference with other numbers, the sheet shortened; a rule stays in the profile.
fn numbered_short(
    calls: &dyn Calls,
    mut numbering: Numbering,
    asked: Asked,
    seed: u64,
) -> Difference {
    let text = numbering.text.clone();
    let text = shrink(&text, |text| {
        numbering.text = text.to_vec();
        let is_meant = match asked {
            Asked::Types(_) => true,
            Asked::Value { rule, .. } => numberings::rules(text).contains(&rule),
        };
        let compared = numberings::compared(calls, &numbering, asked, seed);
        is_meant && compared.is_some_and(|compared| compared.difference.is_some())
    });
    numbering.text = text;
    let compared = numberings::compared(calls, &numbering, asked, seed);
    let other = numbering.other().map_or(Vec::new(), |(other, _)| other);
    Difference {
        how: compared
            .and_then(|compared| compared.difference)
            .unwrap_or_default(),
        differs: Differs::Numbering { other },
        text: numbering.text,
    }
}

/// What a program of the product's prints for one sheet.
pub fn program_sheet(product: &Program, text: &[u8]) -> io::Result<Result<(), Difference>> {
    let Program { path, printed } = product;
    if program::run(path, text)? == printed(text) {
        return Ok(Ok(()));
    }
    let differs = |text: &[u8]| program::run(path, text).is_ok_and(|got| got != printed(text));
    let text = shrink(text, differs);
    let got = program::run(path, &text)?;
    let spelt = |bytes: &[u8]| String::from_utf8_lossy(bytes).into_owned();
    let expected = printed(&text);
    Ok(Err(Difference {
        text,
        differs: Differs::Program,
        how: format!("expected\n{}got\n{}", spelt(&expected), spelt(&got)),
    }))
}
