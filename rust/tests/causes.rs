//! What ./explain leads to: the lines of a sheet that a verdict came from, and comparisons that
//! are never true.

#[path = "common/told.rs"]
mod told;

use second_evaluator::explain::refused;
use told::{explanation, says, sheet};

const SHEET: &str =
    "C 0 -|C 1 -|A 0 0 10 S(Int)|A 1 1 7 Int|A 2 0 4 #1|A 3 0 11 Int|O 0 0|O 1 1|O 2 0|\
    V 0 0 S(1,3,16)|V 0 2 @1|V 0 3 10|V 1 1 0|V 2 3 20|\
    D 0 0 Int|N 0 self|N 1 attr 0 11|N 2 self|N 3 attr 2 4|N 4 attr 3 7|N 5 div 1 4|R 0 0|X ";

/// Rules, and what is said of them.
const CAUSES: [(&str, &[&str]); 10] = [
    (
        "self.a10->forAll(v1 ¦ v1 < 16)",
        &["look at  line 10: V 0 0 S(1,3,16).\n"],
    ),
    (
        "self.a10->iter(v1; v2 : Int = 0 ¦ v2 + v1) < 3",
        &["`self.a10` is S(1,3,16), by line 10", "look at  line 10"],
    ),
    (
        "#0.allInstances()->collect(a11)->includes(3)",
        &["is B(10,20), by line 12 and line 14\n", "look at  line 12 and line 14.\n"],
    ),
    (
        "self.d0() = 3",
        &["the divisor, `self.a4.a7`, self being @0, by line 13: V 1 1 0.\n"],
    ),
    (
        "#1.allInstances()->exists(v1 ¦ self.a11 div v1.a7 < 3)",
        &["the divisor, `v1.a7`, v1 being @1, by line 13: V 1 1 0.\n"],
    ),
    (
        "#0.allInstances()->collect(a10)->size() = 1",
        &["the V lines, none of which gives @2 a value in row 0.\n"],
    ),
    (
        "self.a11 = undef",
        &[
            "it says `undef`, and whether something is undefined is asked by `isUndef()`",
            "Never true: `self.a11 = undef`, line 23: whether something is undefined is asked",
        ],
    ),
    (
        "not (self.a11 = self)",
        &["Never true: `self.a11 = self`, line 23, as `self.a11` is of type Int and `self` of type #0.\n"],
    ),
    (
        "self.a10->includes(true)",
        &["Never true: `self.a10->includes(true)`, line 23"],
    ),
    ("Set{1} = Sequence{1}", &["Never true: `Set{1} = Sequence{1}`"]),
];

#[test]
fn verdicts_lead_to_their_lines() {
    for (rule, expected) in CAUSES {
        says(&format!("{SHEET}{rule}"), expected);
    }
}

#[test]
fn what_may_be_true_is_not_said_to_be_never_true() {
    for rule in [
        "self.a11 = 10",
        "self.a10 = Set{}",
        "Set{true} = self.a10",
        "self.a11 = r3ff8000000000000 + 0",
        "self = self",
    ] {
        let words = explanation(&sheet(&format!("{SHEET}{rule}")));
        assert!(!words.contains("Never true"), "{words}");
    }
}

#[test]
fn a_sheet_without_a_rule_is_not_checked() {
    says(
        "C 0 -|O 0 0",
        &["The sheet has no rule: nothing was checked.\n0 verdicts"],
    );
}

#[test]
fn a_stop_is_no_refusal() {
    for number in [16, 17, 19] {
        assert!(refused(b"", number, 0).starts_with("Stopped: "));
    }
}

#[test]
fn a_long_line_number_stands_apart() {
    let text = b"\n".repeat(1_200);
    let words = refused(&text, 3, 1_120);
    assert!(words.contains("\n  line 1120 \n"), "{words}");
}
