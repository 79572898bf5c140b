//! A soak: the cases of as many seeds as are asked for, by the calls alone and spread over all
//! processors, and what they reached. The gate's comparison looks at more of each case.

use super::board_tally::BoardTally;
use super::boards::Boards;
use super::corrections::{self, corrected};
use super::operations::{Counts, Operations};
use super::run;
use super::runs::{differs, Loads};
use super::tally::Tally;
use super::Calls;
use crate::generate::random::Random;
use crate::generate::runs::full_run;
use crate::generate::{boards, few_asks, sheet, sheet_of_texts, texts_of, Ask, Call};
use crate::report::steps_of;
use std::fmt;
use std::ops::Range;
use std::sync::atomic::{AtomicBool, AtomicU64, Ordering};
use std::thread;

/// How a case differs, and the input in which it does.
pub struct Found {
    pub how: String,
    pub input: Vec<u8>,
}

impl From<run::Difference> for Found {
    fn from(difference: run::Difference) -> Found {
        let call = match difference.differs {
            run::Differs::Call(ask) => format!("{ask:?}\n"),
            _ => String::new(),
        };
        Found {
            how: call + &difference.how,
            input: difference.text,
        }
    }
}

impl From<corrections::Difference> for Found {
    fn from(difference: corrections::Difference) -> Found {
        let turns = difference.turns.iter().map(|turn| format!("{turn:?}\n"));
        Found {
            how: turns.collect::<String>() + &difference.how,
            input: difference.text,
        }
    }
}

/// Cases of one kind, compared one by one, and what they reached.
pub trait Soaked: Send + fmt::Display {
    /// Compares the case of a seed.
    fn case(&mut self, seed: u64) -> Result<(), Found>;

    /// Adds what another one has reached.
    fn join(&mut self, other: Self);
}

/// All seeds' cases; or a difference, and its seed.
pub fn soak<S: Soaked>(seeds: Range<u64>, new: impl Fn() -> S + Sync) -> Result<S, (u64, Found)> {
    let next = AtomicU64::new(seeds.start);
    let differs = AtomicBool::new(false);
    let work = || {
        let mut soaked = new();
        while !differs.load(Ordering::Relaxed) {
            let seed = next.fetch_add(1, Ordering::Relaxed);
            if seed >= seeds.end {
                break;
            }
            if let Err(found) = soaked.case(seed) {
                differs.store(true, Ordering::Relaxed);
                return Err((seed, found));
            }
        }
        Ok(soaked)
    };
    let processors = thread::available_parallelism().map_or(1, usize::from);
    thread::scope(|scope| {
        let workers: Vec<_> = (0..processors).map(|_| scope.spawn(work)).collect();
        let mut all = new();
        for worker in workers {
            all.join(worker.join().expect("a comparison does not panic")?);
        }
        Ok(all)
    })
}

/// Numbers that were answered, and how often each was.
fn reached(numbers: &[u64]) -> String {
    let numbers = numbers.iter().enumerate().filter(|(_, count)| **count > 0);
    let numbers = numbers.map(|(number, count)| format!("{number} ({count})"));
    numbers.collect::<Vec<_>>().join(", ")
}

/// A report of more steps is long: behind it nothing is evaluated again, but for one sheet of
/// so many.
const MOST_STEPS: u64 = 50_000;
const WHOLE: u64 = 8;

/// Sheets, and what is asked about each.
pub struct Sheets<'p> {
    calls: &'p dyn Calls,
    sheet: fn(u64) -> Vec<u8>,
    is_asked: fn(&Ask) -> bool,
    tally: Tally,
    texts: usize,
}

impl<'p> Sheets<'p> {
    /// Any sheets, by every call.
    pub fn new(calls: &'p dyn Calls) -> Sheets<'p> {
        Sheets {
            calls,
            sheet,
            is_asked: |_| true,
            tally: Tally::default(),
            texts: 0,
        }
    }

    /// Sheets with texts, by two calls: reading tells every refusal, and the report tells how
    /// a text was read.
    pub fn of_texts(calls: &'p dyn Calls) -> Sheets<'p> {
        Sheets {
            sheet: sheet_of_texts,
            is_asked: |ask| matches!(ask.call, Call::Read | Call::Report),
            ..Sheets::new(calls)
        }
    }
}

impl Soaked for Sheets<'_> {
    fn case(&mut self, seed: u64) -> Result<(), Found> {
        let text = (self.sheet)(seed);
        let mut garbage = Random::new(seed);
        let mut is_long = false;
        for ask in few_asks(seed, &text) {
            let evaluates = matches!(ask.call, Call::Undefined | Call::Evaluate { .. });
            if !(self.is_asked)(&ask) || (is_long && evaluates) {
                continue;
            }
            let compared = run::asked(self.calls, &text, ask, garbage.word())?;
            self.tally.add(ask.call, compared.answer);
            is_long |= ask.call == Call::Report && steps_of(&compared.written) > MOST_STEPS;
            is_long &= seed % WHOLE != 0;
        }
        self.texts += texts_of(&text);
        Ok(())
    }

    fn join(&mut self, other: Self) {
        self.tally.join(other.tally);
        self.texts += other.texts;
    }
}

impl fmt::Display for Sheets<'_> {
    fn fmt(&self, out: &mut fmt::Formatter) -> fmt::Result {
        let numbers = self.tally.numbers();
        let (calls, texts) = (numbers.iter().sum::<u64>(), self.texts);
        write!(out, "{texts} texts; {calls} calls: {}", reached(&numbers))
    }
}

/// Lists of calls about a board.
pub struct Edits<'p> {
    boards: &'p dyn Boards,
    tally: BoardTally,
}

impl<'p> Edits<'p> {
    pub fn new(boards: &'p dyn Boards) -> Edits<'p> {
        Edits {
            boards,
            tally: BoardTally::of_answers(),
        }
    }
}

impl Soaked for Edits<'_> {
    fn case(&mut self, seed: u64) -> Result<(), Found> {
        let text = boards::sheet(&mut Random::new(seed));
        Ok(corrected(self.boards, &text, seed, &mut self.tally)?)
    }

    fn join(&mut self, other: Self) {
        self.tally.join(other.tally);
    }
}

impl fmt::Display for Edits<'_> {
    fn fmt(&self, out: &mut fmt::Formatter) -> fmt::Result {
        let [made, edited] = self.tally.numbers();
        let (makings, edits) = (made.iter().sum::<u64>(), edited.iter().sum::<u64>());
        write!(out, "{makings} makings: {}; ", reached(&made))?;
        write!(out, "{edits} edits: {}", reached(&edited))
    }
}

/// Operations on numbers, as many to a seed as one sheet can have.
pub struct Reals<'p> {
    calls: &'p dyn Calls,
    counts: Counts,
}

impl<'p> Reals<'p> {
    pub fn new(calls: &'p dyn Calls) -> Reals<'p> {
        Reals {
            calls,
            counts: Counts::default(),
        }
    }
}

impl Soaked for Reals<'_> {
    fn case(&mut self, seed: u64) -> Result<(), Found> {
        let operations = Operations::new(seed);
        let report = operations.report(&mut self.counts);
        match operations.difference(self.calls, &report) {
            None => Ok(()),
            Some(how) => Err(Found {
                how,
                input: operations.text(),
            }),
        }
    }

    fn join(&mut self, other: Self) {
        self.counts.join(other.counts);
    }
}

impl fmt::Display for Reals<'_> {
    fn fmt(&self, out: &mut fmt::Formatter) -> fmt::Result {
        let (missing, cases) = (self.counts.missing().len(), self.counts.cases());
        let met = cases - missing;
        write!(out, "{} operations, ", self.counts.total())?;
        write!(out, "{met} of {cases} cases of what comes out")
    }
}

/// Runs of full length.
pub struct Runs<'p> {
    loads: &'p dyn Loads,
    bytes: usize,
}

impl<'p> Runs<'p> {
    pub fn new(loads: &'p dyn Loads) -> Runs<'p> {
        Runs { loads, bytes: 0 }
    }
}

impl Soaked for Runs<'_> {
    fn case(&mut self, seed: u64) -> Result<(), Found> {
        let input = full_run(seed);
        self.bytes += input.len();
        match differs(self.loads, &input, seed) {
            None => Ok(()),
            Some(how) => Err(Found { how, input }),
        }
    }

    fn join(&mut self, other: Self) {
        self.bytes += other.bytes;
    }
}

impl fmt::Display for Runs<'_> {
    fn fmt(&self, out: &mut fmt::Formatter) -> fmt::Result {
        write!(out, "{} bytes, each run also by the record", self.bytes)
    }
}
