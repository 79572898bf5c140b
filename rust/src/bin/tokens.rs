//! Reads texts of rules from standard input, one a line, and prints of each whether it is a
//! sentence, and then its words and signs with their kinds, one a line; an empty line ends a
//! text. What an editor shows of a rule is compared with it (`../tests/editors`).

use second_evaluator::read::kinds::kind;
use second_evaluator::read::sentences::sentence;
use second_evaluator::read::tokens::{most_open, tokens, MOST_OPEN};
use std::io::{self, BufWriter, Read, Write};

fn main() -> io::Result<()> {
    let mut texts = Vec::new();
    io::stdin().lock().read_to_end(&mut texts)?;
    let mut out = BufWriter::new(io::stdout().lock());
    for text in texts.split_inclusive(|byte| *byte == b'\n') {
        let tokens = tokens(text.strip_suffix(b"\n").unwrap_or(text));
        let read = sentence(&tokens).is_some_and(|sentence| !sentence.over);
        let is_sentence = read && most_open(&tokens) <= MOST_OPEN;
        writeln!(out, "{}", if is_sentence { "sentence" } else { "none" })?;
        for token in tokens {
            write!(out, "{}\t", kind(token))?;
            out.write_all(token)?;
            out.write_all(b"\n")?;
        }
        out.write_all(b"\n")?;
    }
    out.flush()
}
