//! Sheets of as many operations as can be, each with its own line in the report, and
//! their reports, worked out by hardware alone.

use super::cases::Case;
use super::compare::on_stack;
use super::numbers::of_two;
use super::Calls;
use crate::binary64::{integer, less, widened};
use crate::calls::LEAST_WORDS;
use crate::generate::operands::operands;
use crate::generate::random::Random;
use crate::generate::Call;
use crate::tree::Form;
use std::fmt;

/// The operations of a sheet: each rule has one, for each object.
pub const OF_SHEET: u64 = (RULES * OBJECTS) as u64;

const RULES: usize = 64;
const OBJECTS: usize = 96;
/// The rows of an object, two for each pair of operands.
const ROWS: usize = 10;
/// The longest report: no line is longer than `63 95 rffefffffffffffff 5`.
const ROOM: usize = RULES * OBJECTS * 26;

const FORMS: [Form; 5] = [
    Form::Plus(None),
    Form::Minus(None),
    Form::Times(None),
    Form::Over,
    Form::Less(None),
];

/// The cases that the operations must have met: those of what comes out, which are listed together.
fn cases() -> &'static [Case] {
    let at = |case| Case::ALL.iter().position(|&c| c == case).expect("listed");
    &Case::ALL[at(Case::Widened)..=at(Case::LessOfBoth)]
}

/// The right operand of a rule: a row, or a number in the rule itself.
enum Right {
    Row(usize),
    Leaf(f64),
}

/// A form with the row of its left operand, and its right operand.
struct Rule {
    form: &'static Form,
    left: usize,
    right: Right,
}

pub struct Operations {
    rules: Vec<Rule>,
    objects: Vec<[f64; ROWS]>,
}

impl Operations {
    /// Each pair of rows with each form, in either order, then rows with numbers in the
    /// rules.
    pub fn new(seed: u64) -> Operations {
        let mut random = Random::new(seed);
        let mut rule = |number: usize| {
            let form = &FORMS[number % FORMS.len()];
            let row = number / FORMS.len();
            let (left, right) = match row {
                0..ROWS => (row, Right::Row(row ^ 1)),
                _ => (random.below(ROWS), Right::Leaf(operands(&mut random)[0])),
            };
            Rule { form, left, right }
        };
        let rules = (0..RULES).map(&mut rule).collect();
        let mut object = |_| {
            let mut rows = [0.0; ROWS];
            for pair in rows.chunks_mut(2) {
                pair.copy_from_slice(&operands(&mut random));
            }
            // No value is minus zero.
            rows.map(|number| number + 0.0)
        };
        let objects = (0..OBJECTS).map(&mut object).collect();
        Operations { rules, objects }
    }

    pub fn text(&self) -> Vec<u8> {
        let mut text = "C\t0\t-\n".to_string();
        for row in 0..ROWS {
            text += &format!("A\t{row}\t0\t{row}\tReal\n");
        }
        for object in 0..OBJECTS {
            text += &format!("O\t{object}\t0\n");
        }
        for (object, rows) in self.objects.iter().enumerate() {
            for (row, number) in rows.iter().enumerate() {
                text += &format!("V\t{object}\t{row}\t{}\n", spelt(*number));
            }
        }
        for (number, Rule { form, left, right }) in self.rules.iter().enumerate() {
            text += &format!("R\t{number}\t0\nN\t0\tself\nN\t1\tattr\t0\t{left}\n");
            let node = match right {
                Right::Row(row) => format!("N\t2\tself\nN\t3\tattr\t2\t{row}\nN\t4"),
                Right::Leaf(number) => {
                    let leaf = integer(*number).map_or("real", |_| "int");
                    format!("N\t2\t{leaf}\t{}\nN\t3", spelt(*number))
                }
            };
            let last = if matches!(right, Right::Row(_)) { 3 } else { 2 };
            text += &format!("{node}\t{}\t1\t{last}\n", form.word());
        }
        text.into_bytes()
    }

    /// Each operation with its line, in the report's order.
    fn lines(&self) -> impl Iterator<Item = (&Form, f64, f64, String)> {
        let rules = self.rules.iter().enumerate();
        rules.flat_map(|(number, Rule { form, left, right })| {
            let objects = self.objects.iter().enumerate();
            objects.map(move |(object, rows)| {
                let (right, steps) = match right {
                    Right::Row(row) => (rows[*row], 5),
                    Right::Leaf(number) => (*number + 0.0, 4),
                };
                let left = rows[*left];
                let value = by_hardware(form, left, right);
                (
                    *form,
                    left,
                    right,
                    format!("{number} {object} {value} {steps}\n"),
                )
            })
        })
    }

    /// The report, worked out by hardware; every operation is also done in whole numbers.
    pub fn report(&self, counts: &mut Counts) -> Vec<u8> {
        let mut report = String::new();
        for (form, left, right, line) in self.lines() {
            counts.add(form, left, right);
            report += &line;
        }
        report.into_bytes()
    }

    /// How a report differs from the one worked out, if it does.
    pub fn difference(&self, calls: &dyn Calls, report: &[u8]) -> Option<String> {
        let mut words = [0; 3].map(|word| vec![word; LEAST_WORDS]);
        let mut out = vec![0; ROOM];
        let slices = words.each_mut().map(Vec::as_mut_slice);
        let answer = on_stack(calls, Call::Report, &self.text(), slices, &mut out);
        out.truncate(answer.length as usize);
        if out == report {
            return None;
        }
        let mut got = out.split_inclusive(|byte| *byte == b'\n');
        let unlike = self.lines().find_map(|(form, left, right, line)| {
            let got = got.next().unwrap_or_default();
            (got != line.as_bytes()).then(|| {
                let (left, right) = (spelt(left), spelt(right));
                let got = String::from_utf8_lossy(got).into_owned();
                format!(
                    "{left} {} {right}\nexpected {line}     got {got}",
                    form.word()
                )
            })
        });
        Some(unlike.unwrap_or_else(|| format!("{answer:?}, a report that is too long")))
    }
}

fn spelt(number: f64) -> String {
    integer(number).map_or_else(
        || format!("r{:016x}", number.to_bits()),
        |integer| integer.to_string(),
    )
}

/// The value of an operation as a report spells it, or its stop.
fn by_hardware(form: &Form, left: f64, right: f64) -> String {
    let Some(operation) = form.operation() else {
        return if left < right { "t" } else { "f" }.to_string();
    };
    if *form == Form::Over && right == 0.0 {
        return "u".to_string();
    }
    let result = operation.by_hardware(left, right);
    if result.is_infinite() {
        return "!19".to_string();
    }
    let whole = result as i32;
    if f64::from(whole) == result {
        return whole.to_string();
    }
    format!("r{:016x}", result.to_bits())
}

/// The operations by form, and the cases that they were.
pub struct Counts {
    forms: [u64; FORMS.len()],
    cases: Vec<u64>,
}

impl Default for Counts {
    fn default() -> Counts {
        Counts {
            forms: [0; FORMS.len()],
            cases: vec![0; cases().len()],
        }
    }
}

impl Counts {
    /// Counts an operation and does it in whole numbers.
    fn add(&mut self, form: &Form, left: f64, right: f64) {
        let form = FORMS.iter().position(|other| other == form);
        let form = form.expect("one of the forms");
        self.forms[form] += 1;
        less(left, right);
        for number in [left, right] {
            let whole = number as i32;
            let hardware = (f64::from(whole) == number).then_some(whole);
            assert_eq!(integer(number), hardware, "{number:e}");
            assert_eq!(widened(whole), f64::from(whole), "{whole}");
        }
        for met in of_two(&FORMS[form], left, right) {
            let case = cases().iter().position(|case| *case == met);
            self.cases[case.expect("one of the cases")] += 1;
        }
    }

    /// Adds what another one has counted.
    pub fn join(&mut self, other: Counts) {
        let counts = self.forms.iter_mut().chain(&mut self.cases);
        for (count, more) in counts.zip(other.forms.into_iter().chain(other.cases)) {
            *count += more;
        }
    }

    pub fn total(&self) -> u64 {
        self.forms.iter().sum()
    }

    /// How many cases there are.
    pub fn cases(&self) -> usize {
        self.cases.len()
    }

    /// The cases that were never met.
    pub fn missing(&self) -> Vec<&'static str> {
        let unmet = (cases().iter().zip(&self.cases)).filter(|(_, count)| **count == 0);
        unmet.map(|(case, _)| case.name()).collect()
    }
}

impl fmt::Display for Counts {
    fn fmt(&self, out: &mut fmt::Formatter) -> fmt::Result {
        for (form, count) in FORMS.iter().zip(self.forms) {
            writeln!(out, "{count:>10} {}", form.word())?;
        }
        for (case, count) in cases().iter().zip(&self.cases) {
            writeln!(out, "{count:>10} {}", case.name())?;
        }
        Ok(())
    }
}
