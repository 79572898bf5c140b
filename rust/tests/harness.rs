//! The comparison finds every fault of a stand-in, and none where there is none.

#[path = "common/digit.rs"]
mod digit;

use digit::OneDigit;
use second_evaluator::calls::{Answer, Words};
use second_evaluator::generate::{self, Ask, Call};
use second_evaluator::harness::cases::Case;
use second_evaluator::harness::compare::compare;
use second_evaluator::harness::faults::Fault;
use second_evaluator::harness::operations::{Counts, Operations, OF_SHEET};
use second_evaluator::harness::run;
use second_evaluator::harness::shrink::shrink;
use second_evaluator::harness::standin::StandIn;
use second_evaluator::harness::tally::Tally;
use second_evaluator::harness::vectors::all_vectors;
use second_evaluator::harness::{answer, second, Calls};
use std::collections::BTreeSet;
use std::sync::Mutex;

#[test]
fn no_fault_is_no_difference_and_everything_is_reached() {
    let standin = StandIn { fault: Fault::None };
    let mut tally = Tally::default();
    for (seed, vector) in (0..).zip(&all_vectors().unwrap()) {
        let asks = generate::vector_asks(seed, &vector.text);
        let result = run::sheet(&standin, &vector.text, seed, &asks, &mut tally);
        assert!(result.is_ok(), "{}", vector.name);
        let result = run::paired(&standin, &vector.text, seed, &mut tally);
        assert!(result.is_ok(), "{}", vector.name);
        let result = run::renumbered(&standin, &vector.text, seed, &mut tally);
        assert!(result.is_ok(), "{}", vector.name);
    }
    for seed in 0..1_500 {
        let text = generate::sheet(seed);
        let asks = generate::asks(seed, &text);
        let result = run::sheet(&standin, &text, seed, &asks, &mut tally);
        assert!(result.is_ok(), "{seed}");
        let result = run::paired(&standin, &text, seed, &mut tally);
        assert!(result.is_ok(), "{seed}");
        let result = run::renumbered(&standin, &text, seed, &mut tally);
        assert!(result.is_ok(), "{seed}");
        if seed % 50 == 49 && tally.missing().is_empty() {
            return;
        }
    }
    panic!("{tally}");
}

/// A text, what is asked about it, and the seed of the garbage.
struct Sheet {
    seed: u64,
    text: Vec<u8>,
    asks: Vec<Ask>,
}

impl Sheet {
    fn new((seed, text): (u64, Vec<u8>)) -> Sheet {
        let asks = generate::asks(seed, &text);
        Sheet { seed, text, asks }
    }

    fn takes_long(&self) -> bool {
        let mut asks = self.asks.iter();
        asks.any(|ask| answer(&self.text, *ask).steps > 10_000)
    }

    /// Whether the comparison finds the fault here.
    fn shows(&self, fault: Fault) -> bool {
        let compared = |ask: &Ask| compare(&StandIn { fault }, &self.text, *ask, self.seed);
        let mut asks = self.asks.iter();
        asks.any(|ask| compared(ask).difference.is_some())
    }
}

/// A sheet is compared for the faults that none before it has shown: generated ones, then the
/// vectors, and last the few that take nearly all of the time.
#[test]
fn every_fault_is_found() {
    let mut hidden = Fault::ALL.to_vec();
    let mut long = Vec::new();
    let generated = (0..400).map(|seed| (seed, generate::sheet(seed)));
    let vectors = all_vectors().unwrap().into_iter();
    let vectors = (0..).zip(vectors.map(|vector| vector.text));
    for sheet in generated.chain(vectors).map(Sheet::new) {
        if sheet.takes_long() {
            long.push(sheet);
            continue;
        }
        hidden.retain(|fault| !sheet.shows(*fault));
        if hidden.is_empty() {
            return;
        }
    }
    hidden.retain(|fault| !long.iter().any(|sheet| sheet.shows(*fault)));
    assert!(hidden.is_empty(), "{hidden:?}");
}

#[test]
fn what_was_never_compared_is_missing() {
    let standin = StandIn { fault: Fault::None };
    let mut tally = Tally::default();
    let asks = generate::asks(0, b"");
    assert!(run::sheet(&standin, b"", 0, &asks, &mut tally).is_ok());
    let missing = tally.missing();
    assert!(missing.contains(&"read 9".to_string()), "{missing:?}");
    assert!(!missing.contains(&"read 14".to_string()), "{missing:?}");
    for case in Case::ALL {
        let met = !missing.contains(&case.name().to_string());
        assert_eq!(met, case == Case::NoRules, "{missing:?}");
    }
}

#[test]
fn tallies_add_up() {
    let answer = |number| Answer {
        number,
        ..Answer::default()
    };
    let (mut one, mut other) = (Tally::default(), Tally::default());
    one.add(Call::Read, answer(7));
    other.add(Call::Read, answer(8));
    other.add(Call::Report, answer(18));
    other.add_case(Case::LaterRule);
    one.join(other);
    let missing = one.missing();
    for reached in ["read 7", "read 8", "report 18", Case::LaterRule.name()] {
        assert!(!missing.contains(&reached.to_string()), "{reached}");
    }
}

#[test]
fn a_wrong_digit_of_one_operation_is_found() {
    let operations = Operations::new(3);
    let mut counts = Counts::default();
    let report = operations.report(&mut counts);
    assert_eq!(counts.total(), OF_SHEET);
    let right = StandIn { fault: Fault::None };
    assert_eq!(operations.difference(&right, &report), None);
    let how = operations.difference(&OneDigit, &report).unwrap();
    assert!(how.contains("\nexpected 6"), "{how}");
    let shorter = &report[..report.len() - 1];
    let how = operations.difference(&right, shorter).unwrap();
    assert!(how.contains("length"), "{how}");
}

/// Keeps what each call is lent, before it runs.
#[derive(Default)]
struct Keeper {
    slices: Mutex<Vec<Vec<u64>>>,
    outs: Mutex<Vec<Vec<u8>>>,
}

impl Calls for Keeper {
    fn call(&self, call: Call, text: &[u8], words: Words, out: &mut [u8]) -> Answer {
        let slices = words.iter().map(|slice| slice.to_vec());
        self.slices.lock().unwrap().extend(slices);
        self.outs.lock().unwrap().push(out.to_vec());
        second(call, text, words, out)
    }
}

#[test]
fn every_slice_of_every_call_is_lent_with_other_garbage() {
    let keeper = Keeper::default();
    let ask = Ask {
        call: Call::Report,
        words: [8_192; 3],
        out: 2_560,
    };
    let result = run::sheet(&keeper, b"", 7, &[ask; 9], &mut Tally::default());
    assert!(result.is_ok());
    let slices: BTreeSet<Vec<u64>> = keeper.slices.into_inner().unwrap().into_iter().collect();
    let outs: BTreeSet<Vec<u8>> = keeper.outs.into_inner().unwrap().into_iter().collect();
    assert_eq!((slices.len(), outs.len()), (27, 9));
    assert!(slices.iter().flatten().all(|word| *word != 0));
}

#[test]
fn a_difference_says_where() {
    let ask = Ask {
        call: Call::Read,
        words: [8_192; 3],
        out: 2_560,
    };
    let how = |fault, ask| compare(&StandIn { fault }, b"C\t0\n", ask, 7).difference;
    assert_eq!(how(Fault::None, ask), None);
    let place = how(Fault::Place, ask).unwrap();
    assert!(
        place.contains("place: 1") && place.contains("place: 2"),
        "{place}"
    );
    let word = how(Fault::WordLeft, ask).unwrap();
    assert_eq!(word, "word 8191 of word slice 1");
    let report = Ask {
        call: Call::Report,
        ..ask
    };
    let byte = how(Fault::OutputOfRefusal, report).unwrap();
    assert!(byte.starts_with("byte 0 of the output"), "{byte}");
}

#[test]
fn a_shown_sheet_is_short() {
    let text = b"a\nb\nc\nd\ne\nf\n";
    let shows = |text: &[u8]| text.windows(2).any(|pair| pair == b"d\n");
    assert_eq!(shrink(text, shows), b"d\n");
}
