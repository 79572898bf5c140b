//! The comparison of calls about boards: it finds every mishandling, and nothing where there
//! is none.

#[path = "common/text.rs"]
mod text;

use second_evaluator::calls::accepted;
use second_evaluator::generate::random::Random;
use second_evaluator::generate::turns::turns;
use second_evaluator::generate::{self, boards};
use second_evaluator::harness::board_tally::BoardTally;
use second_evaluator::harness::boards::Second;
use second_evaluator::harness::corrections::{corrected, differs};
use second_evaluator::harness::mishandlings::Mishandling;
use second_evaluator::harness::program::long_texts;
use text::text;

#[test]
fn no_fault_is_no_difference_and_every_case_is_met() {
    let mut tally = BoardTally::default();
    let compare = |text: &[u8], seed, tally: &mut BoardTally| {
        if let Err(difference) = corrected(&Second, text, seed, tally) {
            panic!("{seed}: {}", difference.how);
        }
    };
    for (seed, text) in (0..).zip(long_texts()) {
        compare(&text, seed, &mut tally);
    }
    for seed in 0..1_500 {
        let text = generate::sheet(seed);
        if seed % 25 == 0 || accepted(&text).is_err() {
            compare(&text, seed, &mut tally);
        }
        if seed < 500 {
            compare(&boards::sheet(&mut Random::new(seed)), seed, &mut tally);
        }
        if seed % 50 == 49 && tally.missing().is_empty() {
            return;
        }
    }
    panic!("{:#?}\n{tally}", tally.missing());
}

#[test]
fn every_mishandling_is_found() {
    let mut left = Mishandling::ALL.to_vec();
    for seed in 0..800 {
        let mut random = Random::new(seed);
        let text = boards::sheet(&mut random);
        let list = turns(&mut random, &text);
        left.retain(|fault| differs(fault, &text, &list, seed, None).is_none());
        if left.is_empty() {
            return;
        }
    }
    let names: Vec<&str> = left.iter().map(|fault| fault.name()).collect();
    panic!("not found: {names:#?}");
}

#[test]
fn what_was_never_compared_is_missing() {
    let sheet = "C 0 -|A 0 0 5 Int|O 0 0|V 0 0 9|R 0 0|N 0 self|N 1 attr 0 5";
    let mut tally = BoardTally::default();
    assert!(corrected(&Second, &text(sheet), 5, &mut tally).is_ok());
    let missing = tally.missing();
    let is_missing = |name: &str| missing.contains(&name.to_string());
    assert!(is_missing("make 9") && !is_missing("make 0") && !is_missing("make 21"));
    assert!(
        is_missing("an edit that is one value too many"),
        "{missing:#?}"
    );
}

#[test]
fn a_difference_is_short_and_says_where() {
    let shown = (0..200).find_map(|seed| {
        let text = boards::sheet(&mut Random::new(seed));
        corrected(
            &Mishandling::StepsOfObject,
            &text,
            seed,
            &mut BoardTally::default(),
        )
        .err()
    });
    let shown = shown.unwrap();
    assert!(shown.turns.len() <= 3, "{:?}", shown.turns);
    assert!(shown.text.len() < 400, "{}", shown.text.len());
    assert!(shown.how.contains("steps"), "{}", shown.how);
}
