//! How often the generated sheets reach each refusal, form, outcome and value kind.

use crate::calls::LONGEST_SHEET;
use crate::eval::{evaluate, Stop};
use crate::generate::{asks, sheet};
use crate::harness::answer;
use crate::harness::tally::NUMBERS;
use crate::read::read;
use crate::tree::Node;
use crate::types::Kind;
use crate::typing::type_rules;
use crate::values::Value;
use std::collections::BTreeMap;
use std::fmt;

const FORMS: [&str; 37] = [
    "true",
    "false",
    "undef",
    "int",
    "real",
    "self",
    "var",
    "coll",
    "let",
    "if",
    "and",
    "or",
    "not",
    "isUndef",
    "eq",
    "less",
    "plus",
    "minus",
    "times",
    "div",
    "mod",
    "over",
    "attr",
    "collect",
    "all",
    "as",
    "size",
    "includes",
    "asSet",
    "asBag",
    "asSequence",
    "including",
    "union",
    "iter",
    "forAll",
    "exists",
    "call",
];
const OUTCOMES: [&str; 6] = ["value", "undefined", "16", "17", "19", "stuck"];
const KINDS: [&str; 8] = [
    "f", "t", "Integer", "Real", "object", "Set", "Sequence", "Bag",
];

/// The objects evaluated for each rule, so that large sheets do not take all the time.
const OBJECTS: usize = 4;

pub struct Statistics {
    /// Answers by number.
    pub numbers: [u64; NUMBERS],
    pub forms: BTreeMap<&'static str, u64>,
    /// Those of rules in text.
    pub texts: BTreeMap<&'static str, u64>,
    pub outcomes: BTreeMap<&'static str, u64>,
    pub kinds: BTreeMap<&'static str, u64>,
}

impl Statistics {
    pub fn over(seeds: std::ops::Range<u64>) -> Statistics {
        let zeros = |names: &[&'static str]| names.iter().map(|name| (*name, 0)).collect();
        let mut statistics = Statistics {
            numbers: [0; NUMBERS],
            forms: zeros(&FORMS),
            texts: zeros(&FORMS),
            outcomes: zeros(&OUTCOMES),
            kinds: zeros(&KINDS),
        };
        for seed in seeds {
            statistics.add(seed);
        }
        statistics
    }

    fn add(&mut self, seed: u64) {
        let text = sheet(seed);
        for ask in asks(seed, &text) {
            self.numbers[answer(&text, ask).number as usize] += 1;
        }
        let Ok(mut sheet) = read(&text) else {
            return;
        };
        if text.len() > LONGEST_SHEET || type_rules(&mut sheet).is_err() {
            return;
        }
        for definition in &sheet.definitions {
            count(&mut self.forms, &definition.root);
        }
        let lines: Vec<&[u8]> = text.split(|byte| *byte == b'\n').collect();
        for rule in &sheet.rules {
            count(&mut self.forms, &rule.root);
            if lines[rule.root.line - 1].starts_with(b"X") {
                count(&mut self.texts, &rule.root);
            }
            for object in sheet.model.objects_of(rule.context).take(OBJECTS) {
                let outcome = match evaluate(&sheet, rule, object).0 {
                    Ok(Some(value)) => {
                        *self.kinds.entry(kind(&value)).or_default() += 1;
                        "value"
                    }
                    Ok(None) => "undefined",
                    Err(Stop::Steps) => "16",
                    Err(Stop::Size) => "17",
                    Err(Stop::Range) => "19",
                    Err(Stop::Stuck) => "stuck",
                };
                *self.outcomes.entry(outcome).or_default() += 1;
            }
        }
    }

    /// What was never reached.
    pub fn missing(&self) -> Vec<String> {
        let counts = [&self.forms, &self.outcomes, &self.kinds];
        let named = counts.into_iter().flatten();
        let mut missing: Vec<String> = (named.filter(|(_, count)| **count == 0))
            .map(|(name, _)| name.to_string())
            .collect();
        let texts = self.texts.iter().filter(|(_, count)| **count == 0);
        missing.extend(texts.map(|(name, _)| format!("{name} in text")));
        for (number, count) in self.numbers.iter().enumerate() {
            if *count == 0 && !matches!(number, 21 | 22) {
                missing.push(format!("number {number}"));
            }
        }
        missing
    }
}

/// Counts the forms of a tree.
fn count(forms: &mut BTreeMap<&'static str, u64>, node: &Node) {
    *forms.entry(node.form.word()).or_default() += 1;
    for operand in &node.operands {
        count(forms, operand);
    }
}

fn kind(value: &Value) -> &'static str {
    match value {
        Value::Bool(false) => "f",
        Value::Bool(true) => "t",
        Value::Number(number) if number.integer().is_some() => "Integer",
        Value::Number(_) => "Real",
        Value::Object(_) => "object",
        Value::Collection(collection) => match collection.kind {
            Kind::Set => "Set",
            Kind::Sequence => "Sequence",
            Kind::Bag => "Bag",
        },
    }
}

impl fmt::Display for Statistics {
    fn fmt(&self, out: &mut fmt::Formatter) -> fmt::Result {
        writeln!(out, "Answers by number, 0 being no refusal:")?;
        for (number, count) in self.numbers.iter().enumerate() {
            writeln!(out, "  {number:>10} {count:>10}")?;
        }
        let named = [
            ("Forms in accepted sheets:", &self.forms),
            ("Forms in text:", &self.texts),
            ("Outcomes:", &self.outcomes),
            ("Kinds of values:", &self.kinds),
        ];
        for (title, counts) in named {
            writeln!(out, "{title}")?;
            for (name, count) in counts {
                writeln!(out, "  {name:>10} {count:>10}")?;
            }
        }
        Ok(())
    }
}
