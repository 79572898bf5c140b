//! The product's programs, compared on standard input and output.

use crate::calls;
use std::env;
use std::io::{self, Write};
use std::path::{Path, PathBuf};
use std::process::{Command, Stdio};
use std::thread;

/// What a program must print for a text.
type Printed = fn(&[u8]) -> Vec<u8>;

/// A program of the product's.
pub struct Program {
    pub path: PathBuf,
    pub printed: Printed,
}

/// Those that CHECKER_PROGRAM, ROWS_PROGRAM and UNDEFINED_PROGRAM name.
pub fn programs() -> Vec<Program> {
    let known: [(_, Printed); 3] = [
        ("CHECKER_PROGRAM", calls::program),
        ("ROWS_PROGRAM", calls::rows_program),
        ("UNDEFINED_PROGRAM", calls::undefined_program),
    ];
    let named = known.into_iter().filter_map(|(name, printed)| {
        let path = env::var_os(name)?.into();
        Some(Program { path, printed })
    });
    named.collect()
}

/// What the program prints for a text.
pub fn run(program: &Path, text: &[u8]) -> io::Result<Vec<u8>> {
    let mut child = Command::new(program)
        .stdin(Stdio::piped())
        .stdout(Stdio::piped())
        .spawn()?;
    let mut input = child.stdin.take().expect("standard input is piped");
    thread::scope(|scope| {
        // A program may leave the rest of a long text unread.
        scope.spawn(move || match input.write_all(text) {
            Err(error) if error.kind() != io::ErrorKind::BrokenPipe => Err(error),
            _ => Ok(()),
        });
        Ok(child.wait_with_output()?.stdout)
    })
}

/// Texts that are only about their length.
pub fn long_texts() -> Vec<Vec<u8>> {
    let line = b"C\t0\t-\n";
    [49_152, 49_153, 65_536, 65_537, 131_072, 1_000_000]
        .map(|length| line.iter().copied().cycle().take(length).collect())
        .to_vec()
}
