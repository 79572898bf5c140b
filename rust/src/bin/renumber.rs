//! `renumber NEW..`: reads a sheet from standard input and prints it with its objects
//! numbered anew. NEW are the new numbers of objects 0, 1 and so on, each once. A sheet
//! that can't be read is refused as the report refuses it, and the exit status is 1.

use second_evaluator::calls::LONGEST_SHEET;
use second_evaluator::read::read;
use second_evaluator::refusal::{Refusal, Refused};
use second_evaluator::renumber;
use std::io::{self, Read, Write};
use std::process::ExitCode;

/// The new numbers, if each is there once.
fn arguments() -> Option<Vec<u8>> {
    let words = std::env::args().skip(1);
    let to: Vec<u8> = words.map(|word| word.parse().ok()).collect::<Option<_>>()?;
    renumber::is_permutation(&to).then_some(to)
}

fn main() -> io::Result<ExitCode> {
    let Some(to) = arguments() else {
        eprintln!("usage: renumber NEW..: each number from 0 on once");
        return Ok(ExitCode::from(2));
    };
    let mut text = Vec::new();
    io::stdin().lock().read_to_end(&mut text)?;
    let read = if text.len() > LONGEST_SHEET {
        Err(Refusal::SheetTooLong.at(0))
    } else {
        read(&text)
    };
    let mut out = io::stdout().lock();
    match read {
        Ok(sheet) if sheet.model.objects.len() == to.len() => {
            out.write_all(&renumber::sheet(&text, &sheet.model, &to))?;
            Ok(ExitCode::SUCCESS)
        }
        Ok(sheet) => {
            let objects = sheet.model.objects.len();
            eprintln!("The sheet has {objects} objects, so there must be as many numbers.");
            Ok(ExitCode::from(2))
        }
        Err(Refused { refusal, place }) => {
            writeln!(out, "! {} {place}", refusal as u64)?;
            Ok(ExitCode::FAILURE)
        }
    }
}
