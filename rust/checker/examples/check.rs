//! `check SHEET`: reads a job sheet from a file and prints each rule's type, what
//! the rule comes to for each of its objects, the rows that each rule sees, whether the
//! sheet is in the free-numbering profile, where undefined came from, and the report; or
//! why the sheet is refused, in words. It does what `examples/c/check.c` does.
//!
//! Its exit status is 0 after a report, 1 after a refusal and 2 if the file
//! could not be read.

use ocl_checker::{evaluate_rule, read_free_numbering, read_types, report, rows, undefined};
use ocl_checker::{Evaluated, Memory, Refusal, Refused, LEAST_OUTPUT, REPORT_OUTPUT};
use std::path::PathBuf;
use std::process::ExitCode;

/// Prints what the rule comes to for each object it applies to.
fn evaluate_for_all(text: &[u8], rule: u64, memory: &mut Memory, output: &mut [u8]) {
    for object in 0.. {
        match evaluate_rule(text, rule, object, memory, output) {
            Ok(Evaluated { value, steps }) => println!("  object {object}: {value}, {steps} steps"),
            Err(refused) => match refused.refusal() {
                // The object before this one was the last.
                Some(Refusal::NotFound) => return,
                Some(Refusal::OtherClass) => {}
                _ => println!("  object {object}: {refused}"),
            },
        }
    }
}

/// Prints what each rule is and comes to, then the rows, the profile, where undefined came
/// from, and the report.
fn check(text: &[u8]) -> Result<(), Refused> {
    let mut memory = Box::new(Memory::new());
    let mut output = vec![0; REPORT_OUTPUT];
    // The types have an output of their own, so that they last while the rules
    // are evaluated.
    let mut types = [0; LEAST_OUTPUT];
    for (rule, ty) in (0..).zip(read_types(text, &mut memory, &mut types)?) {
        println!("rule {rule}: {ty}");
        evaluate_for_all(text, rule, &mut memory, &mut output);
    }
    let lines = rows(text, &mut memory, &mut output)?;
    print!("rows:\n{lines}");
    match read_free_numbering(text, &mut memory, &mut output) {
        Ok(_) => println!("free numbering: yes"),
        Err(refused) => println!("free numbering: {refused}"),
    }
    let lines = undefined(text, &mut memory, &mut output)?;
    print!("undefined:\n{lines}");
    let lines = report(text, &mut memory, &mut output)?;
    print!("report:\n{lines}");
    Ok(())
}

fn main() -> ExitCode {
    let Some(path) = std::env::args_os().nth(1).map(PathBuf::from) else {
        eprintln!("usage: check SHEET");
        return ExitCode::from(2);
    };
    let text = match std::fs::read(&path) {
        Ok(text) => text,
        Err(error) => {
            eprintln!("{}: {error}", path.display());
            return ExitCode::from(2);
        }
    };
    match check(&text) {
        Ok(()) => ExitCode::SUCCESS,
        Err(refused) => {
            println!("{refused}");
            ExitCode::FAILURE
        }
    }
}
