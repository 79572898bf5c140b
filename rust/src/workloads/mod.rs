//! What the benchmark runs: each workload small and about ten times as large.

mod areas;
mod cap;
mod densities;
pub mod edits;
mod sheets;
mod texts;

use crate::calls::Answer;
use crate::generate::full::full;
use crate::generate::Call;
use areas::areas;
use cap::cap;
use densities::densities;
use sheets::{
    bags, blank, collected, iterations, nodes, nodes_of, quantifiers, real_iterations, rows, sets,
    types, values,
};

/// What a workload's time is divided by.
#[derive(Clone, Copy, PartialEq, Eq, Debug)]
pub enum Unit {
    Byte,
    Node,
    Step,
    Line,
    /// A step, once for each of the members that collections have.
    Member,
}

pub struct Workload {
    pub name: &'static str,
    pub unit: Unit,
    /// The small job and the large one: the texts a call is made for.
    pub jobs: [Vec<Vec<u8>>; 2],
    pub call: Call,
    /// What the call answers: 0 but where a refusal is what is timed.
    pub number: u64,
}

impl Workload {
    /// One call for one text, small and large the same.
    pub fn of(name: &'static str, call: Call, text: Vec<u8>) -> Workload {
        Workload {
            name,
            unit: Unit::Line,
            jobs: [vec![text.clone()], vec![text]],
            call,
            number: 0,
        }
    }

    /// The units of a text that the call answered and wrote the output for.
    pub fn units(&self, text: &[u8], answer: Answer, out: &[u8]) -> usize {
        let lines = |bytes: &[u8], start: &[u8]| {
            let lines = bytes.split_inclusive(|byte| *byte == b'\n');
            lines.filter(|line| line.starts_with(start)).count()
        };
        let steps = answer.steps as usize;
        match self.unit {
            Unit::Byte => text.len(),
            Unit::Node => lines(text, b"N"),
            Unit::Step => steps,
            Unit::Line => lines(&out[..answer.length as usize], b""),
            Unit::Member => steps * members(text),
        }
    }
}

/// The members of the last value on the sheet.
fn members(text: &[u8]) -> usize {
    let mut lines = text.split(|byte| *byte == b'\n');
    let last = lines.rfind(|line| line.starts_with(b"V"));
    let commas = last
        .unwrap_or_default()
        .iter()
        .filter(|byte| **byte == b',');
    commas.count() + 1
}

const EVALUATE: Call = Call::Evaluate { rule: 0, object: 0 };

pub fn workloads() -> Vec<Workload> {
    let all = [
        reading(),
        judging(),
        reporting(),
        days(),
        stepping(),
        forming(),
    ];
    all.into_iter().flatten().collect()
}

fn workload(name: &'static str, unit: Unit, call: Call, jobs: [Vec<Vec<u8>>; 2]) -> Workload {
    Workload {
        name,
        unit,
        call,
        jobs,
        number: 0,
    }
}

/// The jobs of one text each.
fn one(small: Vec<u8>, large: Vec<u8>) -> [Vec<Vec<u8>>; 2] {
    [vec![small], vec![large]]
}

/// The jobs of a tenth of a day and of a whole one.
fn day(sheet: fn(u64) -> Vec<u8>) -> [Vec<Vec<u8>>; 2] {
    [40, 400].map(|sheets| (0..sheets).map(sheet).collect())
}

/// Lines and texts, to the end of reading.
fn reading() -> Vec<Workload> {
    vec![
        workload(
            "reading, values",
            Unit::Byte,
            Call::Read,
            one(values(2, 50), values(16, 63)),
        ),
        workload(
            "reading, nodes",
            Unit::Byte,
            Call::Read,
            one(nodes(12), nodes(128)),
        ),
        workload(
            "reading, a full sheet",
            Unit::Byte,
            Call::Read,
            one([values(2, 50), nodes_of(12, 1)].concat(), full(49_152, 128)),
        ),
        workload(
            "reading, a text",
            Unit::Byte,
            Call::Read,
            one(texts::quantified(12), texts::quantified(128)),
        ),
        Workload {
            number: 4,
            ..workload(
                "reading, a long text",
                Unit::Byte,
                Call::Read,
                one(texts::sum(4_900), texts::sum(49_000)),
            )
        },
    ]
}

/// What is told of rules that are read: types, rows and the profile.
fn judging() -> Vec<Workload> {
    vec![
        workload("typing", Unit::Node, Call::Read, one(types(10), types(96))),
        workload("rows", Unit::Line, Call::Rows, one(rows(6), rows(60))),
        workload(
            "the profile, quantifiers",
            Unit::Byte,
            Call::FreeNumbering,
            one(texts::quantified(24), texts::quantified(128)),
        ),
        workload(
            "the profile, attributes",
            Unit::Node,
            Call::FreeNumbering,
            one(types(10), types(96)),
        ),
    ]
}

/// Verdicts of all rules, and where undefined ones came from.
fn reporting() -> Vec<Workload> {
    vec![
        workload(
            "undefined, a report",
            Unit::Line,
            Call::Report,
            one(blank(6), blank(60)),
        ),
        workload(
            "undefined, its origins",
            Unit::Line,
            Call::Undefined,
            one(blank(6), blank(60)),
        ),
    ]
}

/// Reports of as many sheets as a day has.
fn days() -> Vec<Workload> {
    vec![
        workload(
            "a day of 400 cap sheets",
            Unit::Line,
            Call::Report,
            day(cap),
        ),
        workload(
            "a day of 400 texts",
            Unit::Line,
            Call::Report,
            day(texts::told),
        ),
        workload(
            "a day of 400 area sheets",
            Unit::Line,
            Call::Report,
            day(areas),
        ),
        workload(
            "a day of 400 density sheets",
            Unit::Line,
            Call::Report,
            day(densities),
        ),
    ]
}

/// One rule of many steps.
fn stepping() -> Vec<Workload> {
    vec![
        workload(
            "steps, forAll in forAll",
            Unit::Step,
            EVALUATE,
            one(quantifiers(44), quantifiers(96)),
        ),
        workload(
            "steps, iter in iter",
            Unit::Step,
            EVALUATE,
            one(iterations(31), iterations(68)),
        ),
        workload(
            "steps, Reals in iter in iter",
            Unit::Step,
            EVALUATE,
            one(real_iterations(31), real_iterations(68)),
        ),
    ]
}

/// One rule that forms large values.
fn forming() -> Vec<Workload> {
    vec![
        workload(
            "values, Sets",
            Unit::Member,
            EVALUATE,
            one(sets(12), sets(120)),
        ),
        workload(
            "values, Bags",
            Unit::Member,
            EVALUATE,
            one(bags(6), bags(60)),
        ),
        workload(
            "values, collect",
            Unit::Member,
            EVALUATE,
            one(collected(12), collected(120)),
        ),
    ]
}

/// N lines of nodes that a bar parts.
fn numbered(nodes: &str) -> String {
    let lines = nodes.split('|').enumerate();
    let lines = lines.map(|(node, words)| format!("N {node} {words}|"));
    lines.collect()
}

/// A sheet from lines with a space for each tab and a bar for each line feed.
fn sheet(lines: String) -> Vec<u8> {
    lines.replace(' ', "\t").replace('|', "\n").into_bytes()
}
