//! The soak: it finds a fault in each kind of case, and none where there is none, and says what
//! it reached.

#[path = "common/digit.rs"]
mod digit;

use digit::OneDigit;
use second_evaluator::harness::boards::Second;
use second_evaluator::harness::faults::Fault;
use second_evaluator::harness::mishandlings::Mishandling;
use second_evaluator::harness::runs::{Loads, Record, LINE};
use second_evaluator::harness::soak::{soak, Edits, Found, Reals, Runs, Sheets, Soaked};
use second_evaluator::harness::standin::StandIn;

const RIGHT: StandIn = StandIn { fault: Fault::None };

/// What was reached; there is no difference.
fn reached(soaked: Result<impl Soaked, (u64, Found)>) -> String {
    match soaked {
        Ok(all) => all.to_string(),
        Err((seed, found)) => panic!("{seed}: {}", found.how),
    }
}

/// How the first difference is told; there is one.
fn found(soaked: Result<impl Soaked, (u64, Found)>) -> Found {
    match soaked {
        Ok(all) => panic!("not found: {all}"),
        Err((_, found)) => found,
    }
}

#[test]
fn no_fault_is_no_difference() {
    let sheets = reached(soak(0..40, || Sheets::new(&RIGHT)));
    assert!(sheets.contains(" calls: 0 ("), "{sheets}");
    let texts = reached(soak(0..100, || Sheets::of_texts(&RIGHT)));
    assert!(texts.contains("; 200 calls: 0 ("), "{texts}");
    let edits = reached(soak(0..20, || Edits::new(&Second)));
    assert!(edits.contains(" edits: 0 ("), "{edits}");
    let reals = reached(soak(0..1, || Reals::new(&RIGHT)));
    assert!(reals.starts_with("6144 operations, "), "{reals}");
}

#[test]
fn pieces_reach_what_the_whole_does() {
    let piece = |seeds| soak(seeds, || Edits::new(&Second)).ok().unwrap();
    let mut pieces = piece(3..9);
    pieces.join(piece(9..15));
    assert_eq!(pieces.to_string(), piece(3..15).to_string());
}

#[test]
fn a_fault_in_a_sheet_or_a_text_is_found() {
    for fault in [Fault::Steps, Fault::OutputWrong, Fault::WordLeft] {
        let stand_in = StandIn { fault };
        let shown = found(soak(0..200, || Sheets::new(&stand_in)));
        assert!(shown.how.starts_with("Ask {"), "{}", shown.how);
    }
    let stand_in = StandIn {
        fault: Fault::Place,
    };
    let shown = found(soak(0..200, || Sheets::of_texts(&stand_in)));
    assert!(shown.how.contains("place: "), "{}", shown.how);
}

#[test]
fn a_fault_in_a_list_of_edits_is_found() {
    let shown = found(soak(0..200, || Edits::new(&Mishandling::StepsOfObject)));
    assert!(shown.how.contains("steps"), "{}", shown.how);
}

/// Prints what can be no load.
struct NoLoad;

impl Loads for NoLoad {
    fn push(&self, _: &mut Record, _: u16) -> bool {
        false
    }

    fn print(&self, _: &[u8], output: &mut [u8; LINE]) -> usize {
        output[..4].copy_from_slice(b"0 2\n");
        4
    }
}

#[test]
fn a_fault_in_an_operation_or_a_run_is_found() {
    let shown = found(soak(0..1, || Reals::new(&OneDigit)));
    assert!(shown.how.contains("\nexpected "), "{}", shown.how);
    let shown = found(soak(0..1, || Runs::new(&NoLoad)));
    assert!(shown.how.ends_with("printed 0 2\n"), "{}", shown.how);
    let lines = shown.input.iter().filter(|byte| **byte == b'\n').count();
    assert_eq!(lines, 1_000_001);
}
