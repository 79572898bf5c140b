//! `compare_reals FIRST COUNT`: compares COUNT operations on numbers, of random bits and at
//! the edges of binary64, with hardware: by the linked calls' reports, by the second
//! evaluator's, and in whole numbers. The operations follow from the seeds from FIRST on,
//! as many to a seed as one sheet can have.

use second_evaluator::harness::faults::Fault;
use second_evaluator::harness::operations::{Counts, Operations, OF_SHEET};
use second_evaluator::harness::standin::StandIn;
use second_evaluator::harness::Calls;
use std::ops::Range;
use std::process::ExitCode;

/// Whose reports are compared.
fn calls() -> Vec<(&'static str, Box<dyn Calls>)> {
    let second = StandIn { fault: Fault::None };
    vec![
        #[cfg(feature = "linked")]
        (
            "the product",
            Box::new(second_evaluator::harness::linked::Linked::BOUNDED),
        ),
        ("the second evaluator", Box::new(second)),
    ]
}

/// The seeds of enough sheets for the operations asked for.
fn seeds() -> Option<Range<u64>> {
    let words: Vec<String> = std::env::args().skip(1).collect();
    let [first, count] = words.as_slice() else {
        return None;
    };
    let (first, count): (u64, u64) = (first.parse().ok()?, count.parse().ok()?);
    Some(first..first.checked_add(count.div_ceil(OF_SHEET))?)
}

fn main() -> ExitCode {
    let Some(seeds) = seeds() else {
        eprintln!("usage: compare_reals FIRST COUNT");
        return ExitCode::from(2);
    };
    let calls = calls();
    let mut counts = Counts::default();
    for seed in seeds {
        let operations = Operations::new(seed);
        let report = operations.report(&mut counts);
        for (name, calls) in &calls {
            if let Some(how) = operations.difference(&**calls, &report) {
                println!("{name} differs from hardware, seed {seed}:\n{how}");
                return ExitCode::FAILURE;
            }
        }
    }
    let names: Vec<&str> = calls.iter().map(|(name, _)| *name).collect();
    println!("{counts}");
    println!(
        "No difference in {} operations between hardware, whole numbers, {}.",
        counts.total(),
        names.join(", ")
    );
    let missing = counts.missing();
    if missing.is_empty() {
        return ExitCode::SUCCESS;
    }
    println!("Never compared: {}.", missing.join(", "));
    ExitCode::FAILURE
}
