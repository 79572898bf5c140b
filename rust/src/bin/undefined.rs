//! Reads a sheet from standard input and prints where each undefined verdict came from,
//! or its refusal.

use second_evaluator::calls;
use std::io::{self, Read, Write};

fn main() -> io::Result<()> {
    let mut text = Vec::new();
    io::stdin().lock().read_to_end(&mut text)?;
    io::stdout()
        .lock()
        .write_all(&calls::undefined_program(&text))
}
