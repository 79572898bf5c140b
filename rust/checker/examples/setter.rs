//! `setter SHEET`: a setter corrects values at the machine. Makes a board of a job sheet,
//! prints its verdicts, and then for each edit on standard input, a V line or one with `-`
//! for the value, the verdicts that changed and the steps that it took; or the number and
//! the place of its refusal. It does what `examples/c/setter.c` does.
//!
//! Its exit status is 0 at the end of the edits, 1 if the sheet is refused and 2 if the
//! file could not be read.

use ocl_checker::{edit_board, make_board, Board, Memory, Refused, REPORT_OUTPUT};
use std::io::BufRead;
use std::process::ExitCode;

fn print_refusal(refused: Refused) {
    println!("refused: {} at {}", refused.number, refused.place);
}

/// Prints the lines that are others than before.
fn print_changed(before: &str, after: &str) {
    for (old, new) in before.lines().zip(after.lines()) {
        if old != new {
            println!("{new}");
        }
    }
}

fn correct(text: &[u8]) -> ExitCode {
    let mut memory = Box::new(Memory::new());
    let mut board = Box::new(Board::new());
    let mut verdicts = vec![0; REPORT_OUTPUT];
    let mut last = match make_board(text, &mut memory, &mut board, &mut verdicts) {
        Ok(made) => made.to_string(),
        Err(refused) => {
            print_refusal(refused);
            return ExitCode::FAILURE;
        }
    };
    print!("{last}");
    for line in std::io::stdin().lock().split(b'\n').map_while(Result::ok) {
        let edit = [&line[..], b"\n"].concat();
        match edit_board(text, &edit, &mut memory, &mut board, &mut verdicts) {
            Ok(edited) => {
                println!("{} steps", edited.steps);
                print_changed(&last, edited.verdicts);
                last = edited.verdicts.to_string();
            }
            Err(refused) => print_refusal(refused),
        }
    }
    ExitCode::SUCCESS
}

fn main() -> ExitCode {
    let Some(path) = std::env::args_os().nth(1) else {
        eprintln!("usage: setter SHEET");
        return ExitCode::from(2);
    };
    match std::fs::read(&path) {
        Ok(text) => correct(&text),
        Err(error) => {
            eprintln!("{}: {error}", path.to_string_lossy());
            ExitCode::from(2)
        }
    }
}
