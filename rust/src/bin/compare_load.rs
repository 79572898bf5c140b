//! `compare_load FIRST COUNT`: compares the linked record, the linked call over a
//! text and the program that LOAD_PROGRAM names with the second implementation of
//! thread load, over the vectors, long inputs and the runs of COUNT seeds from FIRST
//! on. Short ones the program also gets cut at every byte.

use second_evaluator::generate::runs::{long_runs, run};
use second_evaluator::harness::runs::{differs, program_differs, shortened, vectors, Linked};
use second_evaluator::load;
use std::collections::BTreeMap;
use std::path::{Path, PathBuf};
use std::process::ExitCode;

/// Where the input of a difference is written.
const DIFFERENCE: &str = "difference.run";
/// How many short inputs are cut at every byte.
const CUT: usize = 60;
/// The most bytes of a short input.
const SHORT: usize = 40;
/// One input in this many goes to the program whole.
const WHOLE: u64 = 20;

/// What was compared.
#[derive(Default)]
struct Done {
    inputs: usize,
    cut: usize,
    pieces: usize,
    /// By the number of the answer, 0 for a load.
    answers: BTreeMap<u64, usize>,
}

impl Done {
    /// Compares what is linked; the first difference is printed.
    fn linked(&mut self, name: &str, text: &[u8], seed: u64) -> bool {
        self.inputs += 1;
        let number = load::thread_load(text).err().map_or(0, |none| none.number);
        *self.answers.entry(number).or_default() += 1;
        let Some(how) = differs(&Linked, text, seed) else {
            return true;
        };
        print_difference(name, &how, &shortened(&Linked, text, seed));
        false
    }

    /// Compares the program on a text in these pieces.
    fn program(&mut self, product: &Path, name: &str, pieces: &[&[u8]]) -> bool {
        self.pieces += pieces.len();
        let differs = program_differs(product, pieces).expect("the program can be run");
        let Some(how) = differs else { return true };
        let lengths: Vec<usize> = pieces.iter().map(|piece| piece.len()).collect();
        let name = format!("{name}, in pieces of {lengths:?} bytes,");
        print_difference(&name, &how, &pieces.concat());
        false
    }

    /// Compares the program on a text cut in two at each byte, and into bytes.
    fn cuts(&mut self, product: &Path, name: &str, text: &[u8]) -> bool {
        self.cut += 1;
        let bytes: Vec<&[u8]> = text.chunks(1).collect();
        (1..text.len()).all(|at| self.program(product, name, &[&text[..at], &text[at..]]))
            && self.program(product, name, &bytes)
    }
}

fn print_difference(name: &str, how: &str, text: &[u8]) {
    println!("{name} differs:\n{how}");
    match std::fs::write(DIFFERENCE, text) {
        Ok(()) => println!("The input is in {DIFFERENCE}."),
        Err(error) => println!("The input could not be written: {error}"),
    }
}

/// All comparisons, up to a difference.
fn compare(product: &Path, first: u64, count: u64) -> Option<Done> {
    let mut done = Done::default();
    let known = vectors().expect("the vectors can be read");
    for vector in &known {
        let (name, text) = (format!("vector {}", vector.name), &vector.text);
        assert_eq!(load::program(text).as_bytes(), vector.printed, "{name}");
        if !(done.linked(&name, text, 0) && done.program(product, &name, &[text])) {
            return None;
        }
    }
    for text in &long_runs() {
        let name = format!("a text of {} bytes", text.len());
        if !(done.linked(&name, text, 0) && done.program(product, &name, &[text])) {
            return None;
        }
    }
    for seed in first..first + count {
        let (text, name) = (run(seed), format!("seed {seed}"));
        let cut = text.len() <= SHORT && done.cut < CUT;
        let whole = seed % WHOLE == 0;
        if !done.linked(&name, &text, seed)
            || (whole && !done.program(product, &name, &[&text]))
            || (cut && !done.cuts(product, &name, &text))
        {
            return None;
        }
    }
    Some(done)
}

fn arguments() -> Option<(PathBuf, u64, u64)> {
    let words: Vec<String> = std::env::args().skip(1).collect();
    let [first, count] = words.as_slice() else {
        return None;
    };
    let product = std::env::var_os("LOAD_PROGRAM")?;
    Some((product.into(), first.parse().ok()?, count.parse().ok()?))
}

fn main() -> ExitCode {
    let Some((product, first, count)) = arguments() else {
        eprintln!("usage: LOAD_PROGRAM=.. compare_load FIRST COUNT");
        return ExitCode::from(2);
    };
    let Some(done) = compare(&product, first, count) else {
        return ExitCode::FAILURE;
    };
    println!(
        "Thread load: no difference in {} inputs ({} answered, {} with 3, {} with 4, {} with 25); {} of them cut at every byte, {} pieces read by the program.",
        done.inputs,
        done.answers.get(&0).unwrap_or(&0),
        done.answers.get(&3).unwrap_or(&0),
        done.answers.get(&4).unwrap_or(&0),
        done.answers.get(&25).unwrap_or(&0),
        done.cut,
        done.pieces,
    );
    let missing = [0, 3, 4, 25].map(|number| !done.answers.contains_key(&number));
    if missing.contains(&true) || done.cut < CUT {
        println!("Too little was compared: 2,000 seeds are enough for every answer and every cut.");
        return ExitCode::FAILURE;
    }
    ExitCode::SUCCESS
}
