//! `explain [--report PROGRAM] [--undefined PROGRAM] [RULE OBJECT]` reads a sheet from
//! standard input and says in words why it is refused, or what made each of its false,
//! undefined and stopped verdicts and what to look at; of a rule and an object, what made
//! its verdict and every step of it. The programs are the product's, and what they print is
//! explained; where the second evaluator says something else of the sheet, nothing is.
//!
//! `explain .. --page NAME` prints the report as a page in HTML, under that name.
//! `explain --number NUMBER` says what a number means, and reads nothing.
//!
//! The exit status is 0 after a report, 1 after a refusal, and 2 if there is neither.

use second_evaluator::calls::LONGEST_SHEET;
use second_evaluator::explain::advice::{advice, NUMBERS};
use second_evaluator::explain::page::page;
use second_evaluator::explain::{explained, refused, Explained, Printed, Told};
use second_evaluator::harness::program::run;
use std::io::{self, BufWriter, Read, Write};
use std::path::Path;
use std::process::ExitCode;

/// What is asked for.
#[derive(Default)]
struct Asked {
    report: Option<String>,
    undefined: Option<String>,
    page: Option<String>,
    number: Option<String>,
    /// A rule and an object.
    verdict: Vec<String>,
}

impl Asked {
    fn new() -> Option<Asked> {
        let mut asked = Asked::default();
        let mut words = std::env::args_os().skip(1);
        while let Some(word) = words.next() {
            let word = word.to_string_lossy().into_owned();
            let place = match word.as_str() {
                "--report" => &mut asked.report,
                "--undefined" => &mut asked.undefined,
                "--page" => &mut asked.page,
                "--number" => &mut asked.number,
                _ => {
                    asked.verdict.push(word);
                    continue;
                }
            };
            *place = Some(words.next()?.to_string_lossy().into_owned());
        }
        matches!(asked.verdict.len(), 0 | 2).then_some(asked)
    }

    fn printed(&self, text: &[u8]) -> io::Result<Printed> {
        let run = |program: &Option<String>| {
            let program = program.as_ref();
            program
                .map(|program| run(Path::new(program), text))
                .transpose()
        };
        Ok(Printed {
            report: run(&self.report)?,
            undefined: run(&self.undefined)?,
        })
    }
}

/// What is said of an error. Where nobody reads on, as behind `head`, nothing is.
fn failed(error: io::Error) -> String {
    if error.kind() == io::ErrorKind::BrokenPipe {
        std::process::exit(0);
    }
    error.to_string()
}

/// One verdict, and every step of it.
fn traced(explained: &Explained, asked: &[String], out: &mut dyn Write) -> Result<(), String> {
    let number = |word: &str| word.parse::<usize>().ok();
    // The screen names an object as @9.
    let object = asked[1].strip_prefix('@').unwrap_or(&asked[1]);
    let (rule, object) = (number(&asked[0]), number(object));
    let found = explained
        .verdicts
        .iter()
        .find(|verdict| Some(verdict.rule) == rule && Some(usize::from(verdict.object)) == object);
    let (Some(verdict), Some(told)) = (found, explained.told()) else {
        return Err(format!(
            "the report has no line for rule {} and object {}",
            asked[0], asked[1]
        ));
    };
    let told = Told {
        is_traced: true,
        ..told
    };
    let written = out.write_all(told.words(verdict).as_bytes());
    let written = written.and_then(|()| told.trace(verdict, out));
    written.map_err(failed)
}

/// Writes what is asked for; whether it is of a refusal.
fn explain(asked: &Asked, out: &mut dyn Write) -> Result<bool, String> {
    if let Some(number) = &asked.number {
        let known = number
            .parse()
            .ok()
            .filter(|number| advice(*number).is_some());
        let (first, last) = (NUMBERS.start(), NUMBERS.end());
        let known = known.ok_or(format!("the numbers go from {first} to {last}"))?;
        let words = refused(b"", known, 0);
        return out
            .write_all(words.as_bytes())
            .map_err(failed)
            .map(|()| false);
    }
    let mut text = Vec::new();
    // As the programs do: one byte more than a sheet may have.
    let mut input = io::stdin().lock().take(LONGEST_SHEET as u64 + 1);
    input.read_to_end(&mut text).map_err(failed)?;
    let printed = asked.printed(&text).map_err(failed)?;
    let explained = explained(&text, &printed)?;
    match &asked.page {
        Some(name) => out.write_all(page(&explained, name).as_bytes()),
        None => {
            if asked.verdict.is_empty() || explained.told().is_none() {
                out.write_all(explained.words().as_bytes())
                    .map_err(failed)?;
            } else {
                traced(&explained, &asked.verdict, out)?;
            }
            writeln!(out, "{}", explained.whose())
        }
    }
    .map_err(failed)?;
    Ok(explained.refusal.is_some())
}

fn main() -> ExitCode {
    let Some(asked) = Asked::new() else {
        eprintln!("explain: words that do not go together; its source says which do");
        return ExitCode::from(2);
    };
    let mut out = BufWriter::new(io::stdout().lock());
    let done = explain(&asked, &mut out);
    let done = done.and_then(|refused| out.flush().map(|()| refused).map_err(failed));
    match done {
        Ok(refused) => ExitCode::from(u8::from(refused)),
        Err(error) => {
            eprintln!("explain: {error}");
            ExitCode::from(2)
        }
    }
}
