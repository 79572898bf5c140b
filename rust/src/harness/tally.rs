//! Which answers each call was compared in, and which cases.

use super::cases::Case;
use super::numberings::NumberingCase;
use super::origin_cases;
use super::pairs::PairCase;
use super::profiles::ProfileCase;
use super::text_cases::TextCase;
use crate::calls::Answer;
use crate::generate::Call;
use std::fmt;

const NAMES: [&str; 6] = ["read", "evaluate", "report", "rows", "profile", "undefined"];
/// The numbers from 0 on; 21 is given to none of these calls.
pub const NUMBERS: usize = 25;

/// Answers by call and number, and cases in the order of each kind's `ALL`, or of
/// `origin_cases::NAMES`.
pub struct Tally {
    answers: [[u64; NUMBERS]; NAMES.len()],
    cases: [u64; Case::ALL.len()],
    texts: [u64; TextCase::ALL.len()],
    pairs: [u64; PairCase::ALL.len()],
    profiles: [u64; ProfileCase::ALL.len()],
    numberings: [u64; NumberingCase::ALL.len()],
    origins: [u64; origin_cases::NAMES.len()],
}

impl Default for Tally {
    fn default() -> Tally {
        Tally {
            answers: [[0; NUMBERS]; NAMES.len()],
            cases: [0; Case::ALL.len()],
            texts: [0; TextCase::ALL.len()],
            pairs: [0; PairCase::ALL.len()],
            profiles: [0; ProfileCase::ALL.len()],
            numberings: [0; NumberingCase::ALL.len()],
            origins: [0; origin_cases::NAMES.len()],
        }
    }
}

/// The calls in the order of `NAMES`, whatever their numbers.
const CALLS: [Call; NAMES.len()] = [
    Call::Read,
    Call::Evaluate { rule: 0, object: 0 },
    Call::Report,
    Call::Rows,
    Call::FreeNumbering,
    Call::Undefined,
];

fn position(call: Call) -> usize {
    match call {
        Call::Read => 0,
        Call::Evaluate { .. } => 1,
        Call::Report => 2,
        Call::Rows => 3,
        Call::FreeNumbering => 4,
        Call::Undefined => 5,
    }
}

/// Whether a call can answer with the number.
fn relevant(call: Call, number: usize) -> bool {
    match call {
        Call::Read => matches!(number, 0..=13 | 20 | 23 | 24),
        Call::Evaluate { .. } => matches!(number, 0..=17 | 19 | 20 | 23 | 24),
        Call::Report | Call::Rows | Call::Undefined => {
            matches!(number, 0..=13 | 18 | 20 | 23 | 24)
        }
        Call::FreeNumbering => matches!(number, 0..=13 | 20 | 22 | 23 | 24),
    }
}

impl Tally {
    pub fn add(&mut self, call: Call, answer: Answer) {
        self.answers[position(call)][answer.number as usize] += 1;
    }

    pub fn add_case(&mut self, case: Case) {
        self.cases[case as usize] += 1;
    }

    pub fn add_text(&mut self, case: TextCase) {
        self.texts[case as usize] += 1;
    }

    pub fn add_pair(&mut self, case: PairCase) {
        self.pairs[case as usize] += 1;
    }

    pub fn add_profile(&mut self, case: ProfileCase) {
        self.profiles[case as usize] += 1;
    }

    pub fn add_numbering(&mut self, case: NumberingCase) {
        self.numberings[case as usize] += 1;
    }

    /// A case by its name.
    pub fn add_origin(&mut self, name: &str) {
        let position = origin_cases::NAMES.iter().position(|known| *known == name);
        self.origins[position.unwrap_or_else(|| panic!("{name} is no case"))] += 1;
    }

    /// The names of all cases, with how often each was met.
    fn cases(&self) -> impl Iterator<Item = (&'static str, u64)> + '_ {
        let cases = Case::ALL.iter().map(|case| case.name());
        let texts = TextCase::ALL.iter().map(|case| case.name());
        let pairs = PairCase::ALL.iter().map(|case| case.name());
        let profiles = ProfileCase::ALL.iter().map(|case| case.name());
        let numberings = NumberingCase::ALL.iter().map(|case| case.name());
        let counts = cases.zip(self.cases).chain(texts.zip(self.texts));
        let counts = counts.chain(pairs.zip(self.pairs));
        let counts = counts.chain(profiles.zip(self.profiles));
        let counts = counts.chain(numberings.zip(self.numberings));
        counts.chain(origin_cases::NAMES.into_iter().zip(self.origins))
    }

    /// Adds what another one has counted.
    pub fn join(&mut self, other: Tally) {
        let counts = self.answers.iter_mut().flatten().chain(&mut self.cases);
        let counts = counts.chain(&mut self.texts).chain(&mut self.pairs);
        let counts = counts.chain(&mut self.profiles);
        let counts = counts.chain(&mut self.numberings).chain(&mut self.origins);
        let more = other.answers.into_iter().flatten().chain(other.cases);
        let more = more.chain(other.texts).chain(other.pairs);
        let more = more.chain(other.profiles).chain(other.numberings);
        let more = more.chain(other.origins);
        for (count, more) in counts.zip(more) {
            *count += more;
        }
    }

    /// How often each number was answered, by all calls together.
    pub fn numbers(&self) -> [u64; NUMBERS] {
        std::array::from_fn(|number| self.answers.iter().map(|row| row[number]).sum())
    }

    /// The numbers a call can answer with and never did, and the cases never met.
    pub fn missing(&self) -> Vec<String> {
        let mut missing = Vec::new();
        for call in CALLS {
            let row = position(call);
            for (number, count) in self.answers[row].iter().enumerate() {
                if relevant(call, number) && *count == 0 {
                    missing.push(format!("{} {number}", NAMES[row]));
                }
            }
        }
        let unmet = self.cases().filter(|(_, count)| *count == 0);
        missing.extend(unmet.map(|(name, _)| name.to_string()));
        missing
    }
}

impl fmt::Display for Tally {
    fn fmt(&self, out: &mut fmt::Formatter) -> fmt::Result {
        write!(out, "{:>6}", "number")?;
        for name in NAMES {
            write!(out, " {name:>10}")?;
        }
        writeln!(out)?;
        for number in 0..NUMBERS {
            write!(out, "{number:>6}")?;
            for call in CALLS {
                match self.answers[position(call)][number] {
                    0 if !relevant(call, number) => write!(out, " {:>10}", "-")?,
                    count => write!(out, " {count:>10}")?,
                }
            }
            writeln!(out)?;
        }
        for (name, count) in self.cases() {
            writeln!(out, "{count:>8} {name}")?;
        }
        Ok(())
    }
}
