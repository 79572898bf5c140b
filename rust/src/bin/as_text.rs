//! Reads a sheet from standard input and prints it with its rules in text. A rule
//! that no text says stays in its nodes and is named on standard error; a sheet that
//! can't be read is refused as the report refuses it, and the exit status is 1.

use second_evaluator::calls::LONGEST_SHEET;
use second_evaluator::refusal::{Refusal, Refused};
use second_evaluator::wording::in_text;
use std::io::{self, Read, Write};
use std::process::ExitCode;

fn main() -> io::Result<ExitCode> {
    let mut sheet = Vec::new();
    io::stdin().lock().read_to_end(&mut sheet)?;
    let told = if sheet.len() > LONGEST_SHEET {
        Err(Refusal::SheetTooLong.at(0))
    } else {
        in_text(&sheet)
    };
    let mut out = io::stdout().lock();
    match told {
        Ok((told, left)) => {
            out.write_all(&told)?;
            for rule in left {
                eprintln!("Rule {rule} stays in nodes: it has an Integer below zero, and a text has none.");
            }
            Ok(ExitCode::SUCCESS)
        }
        Err(Refused { refusal, place }) => {
            writeln!(out, "! {} {place}", refusal as u64)?;
            Ok(ExitCode::FAILURE)
        }
    }
}
