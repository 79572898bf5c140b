//! Which answers making and editing were compared in, and which cases.

use super::board_cases::{met, BoardCase, Happened};
use crate::generate::turns::{Tampering, What};
use std::fmt;

/// The numbers that the two calls can answer with.
pub const NUMBERS: usize = 25;

/// Which answers making and editing were compared in, and which cases.
pub struct BoardTally {
    answers: [[u64; NUMBERS]; 2],
    cases: [u64; BoardCase::ALL.len()],
    /// Whether cases are looked for, which takes as long as the calls.
    has_cases: bool,
}

impl Default for BoardTally {
    fn default() -> BoardTally {
        BoardTally {
            answers: [[0; NUMBERS]; 2],
            cases: [0; BoardCase::ALL.len()],
            has_cases: true,
        }
    }
}

const NAMES: [&str; 2] = ["make", "edit"];

fn relevant(row: usize, number: usize) -> bool {
    matches!(number, 0..=13 | 18 | 20 | 23 | 24) || (row == 1 && number == 21)
}

impl BoardTally {
    /// Of answers alone.
    pub fn of_answers() -> BoardTally {
        BoardTally {
            has_cases: false,
            ..BoardTally::default()
        }
    }

    pub fn add(&mut self, happened: &Happened) {
        let row = usize::from(happened.turn.what != What::Make);
        self.answers[row][happened.answer.number as usize] += 1;
        if !self.has_cases {
            return;
        }
        for case in met(happened) {
            self.cases[case as usize] += 1;
        }
    }

    /// A call on what is no board of its text.
    pub fn add_touched(&mut self, how: Tampering) {
        self.cases[BoardCase::of(how) as usize] += 1;
    }

    /// Adds what another one has counted.
    pub fn join(&mut self, other: BoardTally) {
        let counts = self.answers.iter_mut().flatten().chain(&mut self.cases);
        let more = other.answers.into_iter().flatten().chain(other.cases);
        for (count, more) in counts.zip(more) {
            *count += more;
        }
    }

    /// How often each number was answered, by making and by editing.
    pub fn numbers(&self) -> [[u64; NUMBERS]; 2] {
        self.answers
    }

    /// The numbers a call can answer with and never did, and the cases never met.
    pub fn missing(&self) -> Vec<String> {
        let mut missing = Vec::new();
        for (row, name) in NAMES.iter().enumerate() {
            let unmet = (0..NUMBERS).filter(|number| self.answers[row][*number] == 0);
            let unmet = unmet.filter(|number| relevant(row, *number));
            missing.extend(unmet.map(|number| format!("{name} {number}")));
        }
        let unmet = BoardCase::ALL.iter().zip(self.cases);
        let unmet = unmet.filter(|(_, count)| *count == 0);
        missing.extend(unmet.map(|(case, _)| case.name().to_string()));
        missing
    }
}

impl fmt::Display for BoardTally {
    fn fmt(&self, out: &mut fmt::Formatter) -> fmt::Result {
        writeln!(out, "number       make       edit")?;
        for number in 0..NUMBERS {
            write!(out, "{number:>6}")?;
            for (row, answers) in self.answers.iter().enumerate() {
                match answers[number] {
                    0 if !relevant(row, number) => write!(out, " {:>10}", "-")?,
                    count => write!(out, " {count:>10}")?,
                }
            }
            writeln!(out)?;
        }
        for (case, count) in BoardCase::ALL.iter().zip(self.cases) {
            writeln!(out, "{count:>8} {}", case.name())?;
        }
        Ok(())
    }
}
