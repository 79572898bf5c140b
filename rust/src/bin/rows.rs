//! Reads a sheet from standard input and prints the rows that each rule sees, or its
//! refusal.

use second_evaluator::calls;
use std::io::{self, Read, Write};

fn main() -> io::Result<()> {
    let mut text = Vec::new();
    io::stdin().lock().read_to_end(&mut text)?;
    io::stdout().lock().write_all(&calls::rows_program(&text))
}
