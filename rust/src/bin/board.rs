//! Prints what is answered where a board is made and edited: standard input is a sheet and
//! then edits, each ended by a tilde and a line feed.

use second_evaluator::calls::board_program;
use std::io::{self, Read, Write};

fn main() -> io::Result<()> {
    let mut pieces = Vec::new();
    io::stdin().read_to_end(&mut pieces)?;
    io::stdout().write_all(&board_program(&pieces))
}
