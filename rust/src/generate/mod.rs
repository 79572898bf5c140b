//! Sheets by seed, and what is asked of the calls about them.

pub mod blank_forms;
pub mod blanks;
pub mod boards;
pub mod chains;
pub mod damage;
pub mod definitions;
pub mod draft;
pub mod edits;
pub mod fields;
pub mod forms;
pub mod full;
pub mod large;
pub mod limits;
pub mod numberings;
pub mod operands;
pub mod origins;
pub mod pairs;
pub mod profile;
pub mod random;
pub mod reals;
pub mod rows;
pub mod rules;
pub mod runs;
pub mod sentences;
pub mod slips;
pub mod texts;
pub mod trees;
pub mod turns;
pub mod world;

use crate::calls::{program, rows_program, undefined_program};
use crate::calls::{LEAST_OUTPUT, LEAST_WORDS, PROGRAM_OUTPUT};
use crate::read::read;
use definitions::defined;
use random::Random;
use trees::grown;

/// A sheet for a seed: most type, some are damaged, some stand at a limit.
pub fn sheet(seed: u64) -> Vec<u8> {
    let mut random = Random::new(seed);
    match random.below(46) {
        0..=7 => grown(&mut random),
        8 => with_definitions(&mut random),
        9 => large::large(&mut random),
        10..=17 => {
            let text = grown(&mut random);
            damage::damage(&mut random, &text)
        }
        20..=24 => {
            let kind = *random.pick(&limits::OF_REALS);
            limits::limit(&mut random, kind)
        }
        25..=27 => told(&mut random),
        28 => {
            let text = told(&mut random);
            if random.one_in(3) {
                damage::damage(&mut random, &text)
            } else {
                texts::slipped(&mut random, text)
            }
        }
        29..=37 => sentences::about(&mut random).into_bytes(),
        38 | 39 => rows::about(&mut random).into_bytes(),
        40..=42 => profile::about(&mut random).into_bytes(),
        43..=45 => origins::about(&mut random),
        _ => {
            let kind = random.below(limits::KINDS);
            let text = limits::limit(&mut random, kind);
            if random.one_in(10) {
                damage::damage(&mut random, &text)
            } else {
                text
            }
        }
    }
}

/// A sheet with a text, for a seed: about texts, or another one with its rules in text,
/// some of them with a slip.
pub fn sheet_of_texts(seed: u64) -> Vec<u8> {
    let mut random = Random::new(seed);
    loop {
        let text = match random.below(4) {
            0 => told(&mut random),
            1 => {
                let text = told(&mut random);
                texts::slipped(&mut random, text)
            }
            _ => sentences::about(&mut random).into_bytes(),
        };
        if texts_of(&text) > 0 {
            return text;
        }
    }
}

/// The lines of a sheet that are texts.
pub fn texts_of(text: &[u8]) -> usize {
    let lines = text.split(|byte| *byte == b'\n');
    lines.filter(|line| line.starts_with(b"X\t")).count()
}

/// Another sheet with its rules in text.
fn told(random: &mut Random) -> Vec<u8> {
    let text = match random.below(9) {
        0 => large::large(random),
        1 => {
            let kind = *random.pick(&limits::OF_RULES);
            limits::limit(random, kind)
        }
        2 => with_definitions(random),
        3 => rows::about(random).into_bytes(),
        4 => profile::about(random).into_bytes(),
        5 => origins::about(random),
        _ => grown(random),
    };
    texts::retold(random, &text).unwrap_or(text)
}

/// A sheet about definitions, or another one with its rules made definitions.
fn with_definitions(random: &mut Random) -> Vec<u8> {
    let text = match random.below(4) {
        0 => grown(random),
        1 => large::large(random),
        2 => {
            let kind = *random.pick(&limits::OF_RULES);
            limits::limit(random, kind)
        }
        _ => {
            let kind = *random.pick(&limits::OF_DEFINITIONS);
            return limits::limit(random, kind);
        }
    };
    defined(random, &text).unwrap_or(text)
}

#[derive(Clone, Copy, PartialEq, Eq, Debug)]
pub enum Call {
    Read,
    Evaluate { rule: u64, object: u64 },
    Report,
    Rows,
    FreeNumbering,
    Undefined,
}

/// A call and the lengths of what is lent to it.
#[derive(Clone, Copy, PartialEq, Eq, Debug)]
pub struct Ask {
    pub call: Call,
    pub words: [usize; 3],
    pub out: usize,
}

/// What is asked about a sheet: each call, for numbers on the sheet and off it.
pub fn asks(seed: u64, text: &[u8]) -> Vec<Ask> {
    let mut random = Random::new(!seed);
    let (rules, objects) = counts(text);
    let calls = [
        Call::Read,
        Call::Read,
        Call::FreeNumbering,
        Call::FreeNumbering,
        Call::Report,
        Call::Rows,
        Call::Undefined,
    ];
    let mut asks = drawn(&mut random, &calls, 5, (rules, objects));
    // So many lines may be more than the least output.
    if rules * objects > 32 || random.one_in(4) {
        asks.extend(exact(Call::Report, &program(text)));
        asks.extend(exact(Call::Undefined, &undefined_program(text)));
    }
    if rules > 16 {
        asks.extend(exact(Call::Rows, &rows_program(text)));
    }
    asks
}

/// Fewer of them, for many sheets.
pub fn few_asks(seed: u64, text: &[u8]) -> Vec<Ask> {
    let calls = [
        Call::Read,
        Call::FreeNumbering,
        Call::Report,
        Call::Rows,
        Call::Undefined,
    ];
    drawn(&mut Random::new(!seed), &calls, 2, counts(text))
}

/// The rules and the objects of a sheet.
fn counts(text: &[u8]) -> (usize, usize) {
    match read(text) {
        Ok(sheet) => (sheet.rules.len(), sheet.model.objects.len()),
        Err(_) => (1, 1),
    }
}

/// The calls and so many evaluations, with lengths.
fn drawn(
    random: &mut Random,
    calls: &[Call],
    evaluations: usize,
    (rules, objects): (usize, usize),
) -> Vec<Ask> {
    let mut calls = calls.to_vec();
    for _ in 0..evaluations {
        let rule = number(random, rules);
        let object = number(random, objects);
        calls.push(Call::Evaluate { rule, object });
    }
    (calls.into_iter())
        .map(|call| Ask {
            call,
            words: std::array::from_fn(|_| length(random, LEAST_WORDS, LEAST_WORDS + 300)),
            out: length(random, LEAST_OUTPUT, PROGRAM_OUTPUT),
        })
        .collect()
}

/// What is asked about a vector: as well, its types and the profile with the least that
/// can be lent and, within reason, each rule's value for each object.
pub fn vector_asks(seed: u64, text: &[u8]) -> Vec<Ask> {
    const MOST_PAIRS: usize = 64;
    let mut asks = asks(seed, text);
    let Ok(sheet) = read(text) else {
        return asks;
    };
    let rules = 0..sheet.rules.len() as u64;
    let objects = sheet.model.objects.len() as u64;
    let pairs = rules.flat_map(|rule| (0..objects).map(move |object| (rule, object)));
    let values = (pairs.take(MOST_PAIRS)).map(|(rule, object)| Call::Evaluate { rule, object });
    let calls = [Call::Read, Call::FreeNumbering].into_iter().chain(values);
    asks.extend(calls.map(|call| Ask {
        call,
        words: [LEAST_WORDS; 3],
        out: LEAST_OUTPUT,
    }));
    asks
}

/// The call in an output just long enough for what it writes, and one byte too short.
fn exact(call: Call, written: &[u8]) -> Vec<Ask> {
    let lengths = [written.len(), written.len().saturating_sub(1)];
    (lengths.into_iter().filter(|out| *out >= LEAST_OUTPUT))
        .map(|out| Ask {
            call,
            words: [LEAST_WORDS; 3],
            out,
        })
        .collect()
}

/// A number that is mostly below the count, else near it or far off: among them
/// numbers that are below it in their lower bits only.
fn number(random: &mut Random, count: usize) -> u64 {
    let within = random.below(count.max(1)) as u64;
    match random.below(60) {
        0 => count as u64,
        1 => u64::MAX,
        2 => within + (1 << 8),
        3 => within + (1 << 32),
        4 => within + (1 << 63),
        5 => count as u64 + random.below(100) as u64,
        _ => within,
    }
}

/// A length that is mostly the least, else one below it, far below or above.
fn length(random: &mut Random, least: usize, most: usize) -> usize {
    match random.below(200) {
        0 => least - 1,
        1 => random.below(least),
        2..=40 => random.between(least, most),
        41..=60 => least + 1,
        _ => least,
    }
}
