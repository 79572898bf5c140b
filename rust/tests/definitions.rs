//! What the calls answer for sheets with named definitions.

mod common;

use common::{answer, evaluate_on, read};

const DEFINED: &str = "C 0 -|C 1 0|A 0 0 5 Int|O 0 0|O 1 1|V 1 0 9|\
    D 0 0 Int|N 0 self|N 1 attr 0 5|D 1 0 Any|N 0 self|N 1 call 0 0|N 2 int 1|N 3 plus 1 2";

#[test]
fn definitions_have_no_line_and_no_number_among_rules() {
    let rules = "|R 0 1|N 0 self|N 1 call 0 0|R 1 0|N 0 self|N 1 call 0 1";
    let sheet = DEFINED.to_string() + rules;
    // A call has the type that is declared, not the body's.
    assert_eq!(read(&sheet), answer(0, 0, 0, "Int\nAny\n"));
    assert_eq!(read(DEFINED), answer(0, 0, 0, ""));
    assert_eq!(evaluate_on(&sheet, 0, 1), answer(0, 4, 0, "9"));
    assert_eq!(evaluate_on(&sheet, 1, 0), answer(0, 7, 0, "u"));
    assert_eq!(evaluate_on(&sheet, 1, 1), answer(0, 8, 0, "10"));
    assert_eq!(evaluate_on(&sheet, 2, 0), answer(14, 0, 0, ""));
    assert_eq!(evaluate_on(DEFINED, 0, 0), answer(14, 0, 0, ""));
}

#[test]
fn definitions_are_typed_before_rules_and_before_14() {
    // Unused, and behind it a rule that does not type either.
    let untyped = DEFINED.to_string() + "|D 2 0 Bool|N 0 int 1|R 0 0|N 0 var 1";
    assert_eq!(read(&untyped), answer(11, 0, 16, ""));
    for (rule, object) in [(0, 0), (1, 0), (0, 9), (u64::MAX, u64::MAX)] {
        assert_eq!(evaluate_on(&untyped, rule, object), answer(11, 0, 16, ""));
    }
    // What the root is refused for comes before what the body is not below.
    let root = DEFINED.to_string() + "|D 2 0 Bool|N 0 self|N 1 attr 0 6";
    assert_eq!(read(&root), answer(12, 0, 17, ""));
    // Variables of a caller are not seen.
    let hidden =
        "C 0 -|O 0 0|D 0 0 Int|N 0 var 1|R 0 0|N 0 int 1|N 1 self|N 2 call 1 0|N 3 let 1 0 2";
    assert_eq!(read(hidden), answer(9, 0, 4, ""));
}

#[test]
fn calls_upward_and_of_unknown_definitions() {
    for number in [2, 3, 31] {
        let upward = format!("{DEFINED}|D 2 0 Int|N 0 self|N 1 call 0 {number}");
        assert_eq!(read(&upward), answer(23, 0, 17, ""), "{number}");
        let unknown = format!("{DEFINED}|R 0 0|N 0 self|N 1 call 0 {number}");
        assert_eq!(read(&unknown), answer(24, 0, 17, ""), "{number}");
    }
    // 4 and 5 before them, 8 behind.
    assert_eq!(read("C 0 -|D 0 0 Int|N 1 call 9 32"), answer(4, 0, 3, ""));
    assert_eq!(read("C 0 -|D 0 0 Int|N 1 call 9 0"), answer(5, 0, 3, ""));
    assert_eq!(read("C 0 -|D 0 0 Int|N 0 call 9 0"), answer(23, 0, 3, ""));
    assert_eq!(read("C 0 -|R 0 0|N 0 call 9 0"), answer(24, 0, 3, ""));
}
