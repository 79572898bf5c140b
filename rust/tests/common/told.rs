//! Sheets in short, with spaces in texts, and what is printed for them.

use second_evaluator::calls::{program, undefined_program};
use second_evaluator::explain::{explained, Printed};

/// A bar for each line feed, a space for each tab; the text of an X line keeps its spaces, and
/// has a broken bar for a bar.
pub fn sheet(lines: &str) -> Vec<u8> {
    let lines = lines.split('|').map(|line| match line.strip_prefix("X ") {
        Some(text) => format!("X\t{}\n", text.replace('¦', "|")),
        None => line.replace(' ', "\t") + "\n",
    });
    lines.collect::<String>().into_bytes()
}

/// What the second evaluator prints, in place of the product's programs.
pub fn printed(text: &[u8]) -> Printed {
    Printed {
        report: Some(program(text)),
        undefined: Some(undefined_program(text)),
    }
}

/// What is explained of a sheet.
pub fn explanation(text: &[u8]) -> String {
    explained(text, &printed(text)).unwrap().words()
}

/// A sheet's explanation has all of these.
pub fn says(lines: &str, expected: &[&str]) {
    let words = explanation(&sheet(lines));
    for part in expected {
        assert!(words.contains(part), "{part} is not in\n{words}");
    }
}
