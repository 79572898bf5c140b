//! The rows that a rule sees (F-9), what the call answers that tells them, and that a
//! rule does not tell two sheets apart that differ elsewhere.

mod common;

use common::{answer, evaluate_on, lent, lent_with, read, text};
use second_evaluator::calls::{self, accepted, Answer};
use second_evaluator::eval::rows_run;
use second_evaluator::generate;
use second_evaluator::generate::pairs::pair;
use second_evaluator::generate::random::Random;
use second_evaluator::generate::rows::about;
use second_evaluator::harness::oversights::{Oversight, Peek};
use second_evaluator::harness::run::{self, Differs};
use second_evaluator::harness::tally::Tally;
use second_evaluator::harness::vectors::row_vectors;
use second_evaluator::rows::rows_seen;
use std::collections::BTreeSet;

fn rows(sheet: &str) -> (Answer, String) {
    lent(|words, out| calls::rows(&text(sheet), words, out))
}

/// Four rows, a definition that reads row 2, and a rule for each way to see one: in a
/// part that is not run, through the definition, by `collect`, and none.
const SHEET: &str = "C 0 -|C 1 -|A 0 0 1 Int|A 1 0 2 #1|A 2 1 3 Int|A 3 1 4 Int|O 0 0|O 1 1|\
    D 0 1 Int|N 0 self|N 1 attr 0 3|R 0 0|N 0 false|N 1 self|N 2 attr 1 1|N 3 int 7|N 4 if 0 2 3|\
    R 1 0|N 0 self|N 1 attr 0 2|N 2 call 1 0|R 2 0|N 0 all 1|N 1 collect 0 4|R 3 0|N 0 true";

#[test]
fn each_rule_has_a_line() {
    assert_eq!(rows(SHEET), answer(0, 0, 0, "0 0\n1 1 2\n2 3\n3\n"));
    assert_eq!(rows("C 0 -|O 0 0"), answer(0, 0, 0, ""));
}

#[test]
fn what_reading_refuses_is_refused() {
    let untyped = format!("{SHEET}|R 4 0|N 0 var 1");
    assert_eq!(rows(&untyped), answer(9, 0, 28, ""));
    for refused in ["C 0 -|C 1 1", "C 0 -|R 0 0|X 1 +", &untyped] {
        assert_eq!(rows(refused), read(refused), "{refused}");
        assert_ne!(rows(refused).0.number, 0, "{refused}");
    }
}

#[test]
fn lines_may_fill_the_output_but_not_exceed_it() {
    // 64 rules that see 64 rows each: there can be no more.
    let vectors = row_vectors().unwrap();
    let most = vectors.iter().find(|vector| vector.name == "most").unwrap();
    let printed = String::from_utf8(most.printed.clone()).unwrap();
    assert_eq!(printed.len(), 11_830);
    let call = |room| {
        lent_with([8_192; 3], room, |words, out| {
            calls::rows(&most.text, words, out)
        })
    };
    assert_eq!(call(11_830), answer(0, 0, 0, &printed));
    assert_eq!(call(11_829), answer(18, 0, 0, ""));
    assert_eq!(call(2_560), answer(18, 0, 0, ""));
}

#[test]
fn a_rule_reads_no_row_that_it_does_not_see() {
    let mut unread = 0;
    for seed in 0..1_500 {
        let Ok((sheet, _)) = accepted(&generate::sheet(seed)) else {
            continue;
        };
        for rule in &sheet.rules {
            let seen = rows_seen(&sheet, rule);
            let bits = seen.iter().fold(0, |bits, row| bits | 1 << row);
            for object in sheet.model.objects_of(rule.context).take(3) {
                let run: u64 = rows_run(&sheet, rule, object);
                assert_eq!(run & !bits, 0, "{seed}");
                unread += u64::from(run != bits);
            }
        }
    }
    assert!(unread > 100, "{unread}");
}

/// The lines of a text but for the V lines of rows that are not among these.
fn lines_but<'t>(seen: &BTreeSet<u8>, text: &'t [u8]) -> Vec<&'t [u8]> {
    let lines = text.split(|byte| *byte == b'\n');
    let kept = lines.filter(|line| {
        let fields: Vec<&[u8]> = line.split(|byte| *byte == b'\t').collect();
        let is_seen = |row: &[u8]| {
            let mut rows = seen.iter();
            rows.any(|seen| seen.to_string().as_bytes() == row)
        };
        fields[0] != b"V" || is_seen(fields[2])
    });
    kept.collect()
}

#[test]
fn a_pair_differs_only_in_what_the_rule_does_not_see() {
    let mut pairs = 0;
    for seed in 0..1_500 {
        let text = generate::sheet(seed);
        let Some(pair) = pair(&mut Random::new(seed), &text) else {
            continue;
        };
        let other = pair.other();
        let [first, second] = [&text, &other].map(|text| {
            let (sheet, _) = accepted(text).unwrap();
            rows_seen(&sheet, &sheet.rules[pair.rule])
        });
        assert_eq!(first, second, "{seed}");
        assert_ne!(text, other, "{seed}");
        assert_eq!(
            lines_but(&first, &text),
            lines_but(&first, &other),
            "{seed}"
        );
        pairs += 1;
    }
    assert!(pairs > 300, "{pairs}");
}

#[test]
fn every_oversight_is_found() {
    let mut left = Oversight::ALL.to_vec();
    for seed in 0..1_000 {
        let text = about(&mut Random::new(seed)).into_bytes();
        let mut asks = generate::asks(seed, &text);
        asks.retain(|ask| ask.call == generate::Call::Rows);
        left.retain(|oversight| {
            run::sheet(oversight, &text, seed, &asks, &mut Tally::default()).is_ok()
        });
    }
    assert!(left.is_empty(), "{left:?}");
}

#[test]
fn every_peek_is_found() {
    let mut left = Peek::ALL.to_vec();
    for seed in 0..300 {
        let text = about(&mut Random::new(seed)).into_bytes();
        left.retain(|peek| run::paired(peek, &text, seed, &mut Tally::default()).is_ok());
    }
    assert!(left.is_empty(), "{left:?}");
}

#[test]
fn two_sheets_of_a_difference_are_short() {
    let rules = "R 0 0|N 0 self|N 1 attr 0 1|R 1 0|N 0 self|N 1 attr 0 2";
    let sheet = format!("C 0 -|A 0 0 1 Int|A 1 0 2 Int|O 0 0|O 1 0|V 0 0 1|V 0 1 2|{rules}");
    let shown = (0..100).find_map(|seed| {
        run::paired(
            &Peek::Everything,
            &text(&sheet),
            seed,
            &mut Tally::default(),
        )
        .err()
    });
    let shown = shown.unwrap();
    let Differs::Rule { other } = shown.differs else {
        panic!("a rule differs on two sheets");
    };
    assert_ne!(shown.text, other);
    for text in [&shown.text, &other] {
        let letters = text.split(|byte| *byte == b'\n').map(|line| line.first());
        let letters: Vec<u8> = letters.flatten().copied().collect();
        let objects = letters.iter().filter(|letter| **letter == b'O').count();
        let rules = letters.iter().filter(|letter| **letter == b'R').count();
        assert!(
            objects <= 2 && rules <= 2 && letters.len() <= 12,
            "{letters:?}"
        );
    }
    assert!(shown.how.contains("on the other"), "{}", shown.how);
}

/// The example of document 01, and a row beside it that its rule does not see.
#[test]
fn a_row_that_is_not_seen_changes_nothing() {
    let sheet = |values: &str| {
        format!(
            "C 0 -|C 1 0|A 0 0 5 Int|A 1 1 5 Int|O 0 1|O 1 0|{values}R 0 0|N 0 self|N 1 attr 0 5|\
            N 2 int 12|N 3 less 1 2"
        )
    };
    for values in ["V 0 0 9|", "V 0 0 9|V 0 1 13|", "V 0 0 9|V 0 1 14|"] {
        assert_eq!(rows(&sheet(values)), answer(0, 0, 0, "0 0\n"));
        assert_eq!(evaluate_on(&sheet(values), 0, 0), answer(0, 4, 0, "t"));
        assert_eq!(evaluate_on(&sheet(values), 0, 1), answer(0, 3, 0, "u"));
    }
    assert_eq!(evaluate_on(&sheet("V 0 0 13|"), 0, 0), answer(0, 4, 0, "f"));
}
