//! The free-numbering profile (F-12), what the call answers that holds a sheet to it,
//! and that rules in it say the same with the objects numbered anew.

mod common;

use common::{answer, evaluate_on, lent, read, text};
use second_evaluator::calls::{self, accepted, Answer};
use second_evaluator::generate;
use second_evaluator::generate::numberings::numbering;
use second_evaluator::generate::profile::about;
use second_evaluator::generate::random::Random;
use second_evaluator::harness::run::{self, Differs};
use second_evaluator::harness::slack::{Favour, Slack};
use second_evaluator::harness::tally::Tally;
use second_evaluator::renumber;

fn held(sheet: &str) -> (Answer, String) {
    lent(|words, out| calls::read_free_numbering(&text(sheet), words, out))
}

const ROWS: &str = "C 0 -|A 0 0 1 Int|A 1 0 2 Q(#0)|A 2 0 3 C(#0)|O 0 0";

/// The answer for a rule whose nodes begin in line 7.
fn rule(nodes: &str) -> (Answer, String) {
    held(&format!("{ROWS}|R 0 0|{nodes}"))
}

#[test]
fn each_form_outside_is_22_at_its_line() {
    for (nodes, line) in [
        ("N 0 all 0|N 1 int 0|N 2 var 2|N 3 iter 0 1 2 Int 1 2", 10),
        ("N 0 all 0|N 1 asSequence 0", 8),
        ("N 0 coll Q|N 1 asSequence 0", 8),
        ("N 0 self|N 1 attr 0 2|N 2 self|N 3 including 1 2", 10),
        ("N 0 coll Q|N 1 self|N 2 including 0 1", 9),
        ("N 0 coll Q|N 1 coll Q|N 2 union 0 1", 9),
        ("N 0 self|N 1 attr 0 2|N 2 collect 1 1", 9),
        ("X self.a2->collect(a1)->size()", 7),
    ] {
        let nodes = nodes.replace("X ", "X\t");
        let sheet = format!("{ROWS}|R 0 0|").replace(' ', "\t") + &nodes;
        let sheet = if nodes.contains('X') {
            sheet
        } else {
            sheet.replace(' ', "\t")
        };
        let sheet = sheet.replace('|', "\n") + "\n";
        let got = lent(|words, out| calls::read_free_numbering(sheet.as_bytes(), words, out));
        assert_eq!(got, answer(22, 0, line, ""), "{nodes}");
    }
}

#[test]
fn what_is_like_it_is_taken() {
    for (nodes, ty) in [
        ("N 0 all 0|N 1 self|N 2 including 0 1", "S(#0)"),
        ("N 0 coll B|N 1 coll B|N 2 union 0 1", "B(Void)"),
        ("N 0 all 0|N 1 collect 0 1", "B(Int)"),
        ("N 0 self|N 1 attr 0 3|N 2 collect 1 1", "B(Int)"),
        ("N 0 self|N 1 attr 0 2", "Q(#0)"),
        ("N 0 self|N 1 coll Q 0|N 2 asSet 1", "S(#0)"),
        ("N 0 self|N 1 attr 0 2|N 2 true|N 3 forAll 1 1 2", "Bool"),
    ] {
        assert_eq!(rule(nodes), answer(0, 0, 0, &format!("{ty}\n")), "{nodes}");
    }
}

/// A definition with a node outside in line 4.
const DEFINED: &str = "C 0 -|D 0 0 Int|N 0 all 0|N 1 asSequence 0|N 2 size 1";

#[test]
fn definitions_count_where_a_rule_reaches_them() {
    let through = format!("{DEFINED}|D 1 0 Int|N 0 self|N 1 call 0 0");
    let called = format!("{DEFINED}|R 0 0|N 0 self|N 1 call 0 0");
    assert_eq!(held(&called), answer(22, 0, 4, ""));
    let called = format!("{through}|R 0 0|N 0 self|N 1 call 0 1");
    assert_eq!(held(&called), answer(22, 0, 4, ""));
    let unreached = format!("{through}|R 0 0|N 0 true");
    assert_eq!(held(&unreached), answer(0, 0, 0, "Bool\n"));
    // An earlier rule has a node outside further down.
    let lower = format!("{DEFINED}|R 0 0|N 0 all 0|N 1 asSequence 0|R 1 0|N 0 self|N 1 call 0 0");
    assert_eq!(held(&lower), answer(22, 0, 4, ""));
}

#[test]
fn what_reading_refuses_goes_first() {
    let outside = "C 0 -|R 0 0|N 0 all 0|N 1 asSequence 0";
    let deep = "N 0 coll S|N 1 coll S 0|N 2 coll S 1|N 3 coll S 2";
    for refused in [
        format!("{outside}|R 1 0|{deep}"),
        format!("{outside}|R 1 0|N 0 var 1"),
        format!("{outside}|C 1 -"),
    ] {
        assert_eq!(held(&refused), read(&refused), "{refused}");
        assert_ne!(held(&refused).0.number, 22, "{refused}");
    }
}

/// The sheet of document 02's reading: lines, and members of Sets, are put back in order.
#[test]
fn a_sheet_is_numbered_anew() {
    let sheet = text(
        "C 0 -|C 1 0|A 0 0 5 S(#0)|A 1 0 6 Q(#0)|O 0 1|O 1 0|O 2 0|V 0 0 S(@0,@1)|\
        V 0 1 Q(@1,@0)|V 2 0 S()|R 0 0|N 0 self|N 1 attr 0 5",
    );
    let new = text(
        "C 0 -|C 1 0|A 0 0 5 S(#0)|A 1 0 6 Q(#0)|O 0 0|O 1 0|O 2 1|V 1 0 S()|\
        V 2 0 S(@0,@2)|V 2 1 Q(@0,@2)|R 0 0|N 0 self|N 1 attr 0 5",
    );
    let model = accepted(&sheet).unwrap().0.model;
    assert_eq!(renumber::sheet(&sheet, &model, &[2, 0, 1]), new);
    assert!(renumber::is_permutation(&[2, 0, 1]) && renumber::is_permutation(&[]));
    assert!(!renumber::is_permutation(&[1, 2]) && !renumber::is_permutation(&[0, 0]));
}

#[test]
fn numbered_anew_and_back_a_sheet_is_the_same() {
    let mut sheets = 0;
    for seed in 0..1_500 {
        let text = generate::sheet(seed);
        let Some((other, to)) =
            numbering(&mut Random::new(seed), &text).and_then(|numbering| numbering.other())
        else {
            continue;
        };
        if other.len() > calls::LONGEST_SHEET {
            continue;
        }
        let mut back = vec![0; to.len()];
        for (old, new) in to.iter().enumerate() {
            back[usize::from(*new)] = old as u8;
        }
        let model = accepted(&other).unwrap().0.model;
        assert_eq!(renumber::sheet(&other, &model, &back), text, "{seed}");
        sheets += usize::from(other != text);
    }
    assert!(sheets > 200, "{sheets}");
}

/// With `iter` a Sequence of all objects follows their numbers; with a quantifier
/// nothing does, though one value is missing.
#[test]
fn numbers_decide_outside_the_profile_only() {
    let sheet = |values: &str| {
        format!(
            "C 0 -|A 0 0 1 Int|O 0 0|O 1 0|O 2 0|{values}|R 0 0|N 0 all 0|N 1 coll Q|N 2 var 2|\
            N 3 var 1|N 4 attr 3 1|N 5 isUndef 4|N 6 including 2 5|N 7 iter 0 1 2 Q(Bool) 1 6|\
            R 1 0|N 0 all 0|N 1 var 1|N 2 attr 1 1|N 3 int 5|N 4 less 2 3|N 5 forAll 0 1 4"
        )
    };
    let (first, second) = (sheet("V 0 0 1|V 1 0 9"), sheet("V 1 0 9|V 2 0 1"));
    assert_eq!(evaluate_on(&first, 0, 0).1, "Q(f,f,t)");
    assert_eq!(evaluate_on(&second, 0, 0).1, "Q(t,f,f)");
    for sheet in [first, second] {
        assert_eq!(evaluate_on(&sheet, 1, 0).1, "f");
    }
}

#[test]
fn every_slack_is_found() {
    let mut left = Slack::ALL.to_vec();
    for seed in 0..2_000 {
        let text = about(&mut Random::new(seed)).into_bytes();
        let mut asks = generate::asks(seed, &text);
        asks.retain(|ask| ask.call == generate::Call::FreeNumbering);
        left.retain(|slack| run::sheet(slack, &text, seed, &asks, &mut Tally::default()).is_ok());
    }
    assert!(left.is_empty(), "{left:?}");
}

#[test]
fn every_favour_is_found() {
    let mut left = Favour::ALL.to_vec();
    for seed in 0..500 {
        let text = about(&mut Random::new(seed)).into_bytes();
        left.retain(|favour| run::renumbered(favour, &text, seed, &mut Tally::default()).is_ok());
    }
    assert!(left.is_empty(), "{left:?}");
}

#[test]
fn a_difference_with_other_numbers_is_short() {
    let sheet = "C 0 -|A 0 0 1 Int|O 0 0|O 1 0|O 2 0|V 0 0 1|V 1 0 2|V 2 0 3|R 0 0|N 0 true|\
        R 1 0|N 0 all 0|N 1 size 0";
    let shown = (0..20).find_map(|seed| {
        run::renumbered(&Favour::Truth, &text(sheet), seed, &mut Tally::default()).err()
    });
    let shown = shown.unwrap();
    let Differs::Numbering { other } = shown.differs else {
        panic!("numbers differ");
    };
    assert_eq!(shown.text, text("C 0 -|O 0 0|O 1 0|R 0 0|N 0 true"));
    assert_eq!(other, shown.text);
    assert!(shown.how.contains("on the other"), "{}", shown.how);
}
