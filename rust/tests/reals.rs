//! What the calls answer for sheets with Reals.

mod common;

use common::{answer, evaluate_on, lent_with, read, text};
use second_evaluator::calls;

/// A rule of these nodes, for the one object of its class.
fn rule(nodes: &str) -> String {
    let lines = nodes.split(';').enumerate();
    let lines: String = lines
        .map(|(node, words)| format!("|N {node} {words}"))
        .collect();
    format!("C 0 -|A 0 0 5 Real|O 0 0|R 0 0{lines}")
}

#[test]
fn types_of_numbers() {
    let half = "real r3fe0000000000000";
    let cases = [
        (half.to_string(), "Real"),
        (format!("int 1;{half};plus 0 1"), "Real"),
        (format!("undef;{half};minus 0 1"), "Real"),
        ("int 1;int 2;times 0 1".to_string(), "Int"),
        ("undef;int 2;times 0 1".to_string(), "Int"),
        ("undef;undef;plus 0 1".to_string(), "Int"),
        ("int 4;int 2;over 0 1".to_string(), "Real"),
        ("undef;undef;over 0 1".to_string(), "Real"),
        (format!("int 1;{half};less 0 1"), "Bool"),
        (format!("true;int 1;{half};if 0 1 2"), "Real"),
        (format!("true;{half};coll Q 0 1"), "Q(Any)"),
        (format!("self;{half};coll Q 0 1"), "Q(Any)"),
        (format!("int 1;{half};coll S 0 1"), "S(Real)"),
        (
            format!("int 1;coll S 0;{half};coll Q 2;true;if 4 1 3"),
            "C(Real)",
        ),
        (format!("int 1;coll S 0;{half};including 1 2"), "S(Real)"),
        ("self;attr 0 5".to_string(), "Real"),
        (format!("{half};int 1;eq 0 1"), "Bool"),
    ];
    for (nodes, ty) in cases {
        let types = format!("{ty}\n");
        assert_eq!(read(&rule(&nodes)), answer(0, 0, 0, &types), "{nodes}");
    }
}

#[test]
fn values_of_numbers() {
    let sum = rule("real r3fb999999999999a;real r3fc999999999999a;plus 0 1");
    assert_eq!(
        evaluate_on(&sum, 0, 0),
        answer(0, 3, 0, "r3fd3333333333334")
    );
    let whole = rule("int 3;int 2;over 0 1;int 2;times 2 3");
    assert_eq!(evaluate_on(&whole, 0, 0), answer(0, 5, 0, "3"));
    let infinite = rule("real r7fefffffffffffff;int 2;times 0 1;isUndef 2");
    assert_eq!(evaluate_on(&infinite, 0, 0), answer(19, 4, 0, ""));
    let by_zero = rule("int 0;int 0;over 0 1");
    assert_eq!(evaluate_on(&by_zero, 0, 0), answer(0, 3, 0, "u"));
}

#[test]
fn what_is_no_number() {
    assert_eq!(read(&rule("real r3ff0000000000000")), answer(3, 0, 5, ""));
    assert_eq!(read(&rule("real r7ff0000000000000")), answer(4, 0, 5, ""));
    assert_eq!(
        read(&rule("real r3ff8000000000000;int 2;div 0 1")),
        answer(11, 0, 7, "")
    );
    assert_eq!(
        read(&rule("real r3ff8000000000000;as 0 0")),
        answer(11, 0, 6, "")
    );
}

#[test]
fn the_longest_value_and_the_least_output() {
    let members = ["rffefffffffffffff"; 127].join(",");
    let value = format!("Q({members})");
    assert_eq!(value.len(), 2_288);
    let sheet = format!("C 0 -|A 0 0 5 Q(Real)|O 0 0|V 0 0 {value}|R 0 0|N 0 self|N 1 attr 0 5");
    assert_eq!(evaluate_on(&sheet, 0, 0), answer(0, 2, 0, &value));
    let sheet = text(&sheet);
    for room in [2_048, 2_288, 2_559] {
        let short = lent_with([8_192; 3], room, |words, out| {
            calls::evaluate_rule(&sheet, 0, 0, words, out)
        });
        assert_eq!(short, answer(1, 0, 0, ""), "{room}");
    }
}
