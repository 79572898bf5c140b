//! What the calls answer, beyond what a report can show.

mod common;

use common::{answer, evaluate_on, lent, lent_with, read, text};
use second_evaluator::calls::{self, Answer, Words};

const SHEET: &str = "C 0 -|C 1 0|C 2 -|A 0 0 5 Int|O 0 1|O 1 0|O 2 2|V 0 0 9|\
    R 0 0|N 0 self|N 1 attr 0 5|N 2 int 12|N 3 less 1 2|\
    R 1 1|N 0 self|N 1 coll Q 0|\
    R 2 0|N 0 all 0|N 1 int 1|N 2 including 0 1";
/// Behind it, two rules that do not type: an unbound variable, and no attribute.
const UNTYPED: &str = "|R 3 0|N 0 var 1|R 4 0|N 0 self|N 1 attr 0 6";

fn evaluate(rule: u64, object: u64) -> (Answer, String) {
    evaluate_on(SHEET, rule, object)
}

#[test]
fn reading_writes_a_line_for_each_rule() {
    assert_eq!(read(SHEET), answer(0, 0, 0, "Bool\nQ(#1)\nS(Any)\n"));
    assert_eq!(read("C 0 -|O 0 0"), answer(0, 0, 0, ""));
    let empty = lent(|words, out| calls::read_types(b"", words, out));
    assert_eq!(empty, answer(0, 0, 0, ""));
}

#[test]
fn reading_writes_nothing_where_it_refuses() {
    assert_eq!(read("C 0 -|C 1 1"), answer(6, 0, 2, ""));
    // Three rules type; of the two that do not, the first is to blame.
    let untyped = SHEET.to_string() + UNTYPED;
    assert_eq!(read(&untyped), answer(9, 0, 22, ""));
    let swapped = SHEET.to_string() + "|R 3 0|N 0 self|N 1 attr 0 6|R 4 0|N 0 var 1";
    assert_eq!(read(&swapped), answer(12, 0, 23, ""));
    // What a later line is refused for comes before all typing.
    assert_eq!(read(&(untyped + "|Y 0")), answer(3, 0, 26, ""));
}

#[test]
fn the_types_of_64_rules_fit_in_the_least_output() {
    // The longest spelling, 13 bytes, and a line feed each.
    let nodes = "N 0 coll S|N 1 coll Q 0|N 2 coll B 1";
    let rules: String = (0..64).map(|rule| format!("|R {rule} 0|{nodes}")).collect();
    let types = "B(Q(S(Void)))\n".repeat(64);
    assert_eq!(types.len(), 896);
    assert_eq!(read(&format!("C 0 -{rules}")), answer(0, 0, 0, &types));
    let too_many = format!("C 0 -{rules}|R 64 0|N 0 true");
    assert_eq!(read(&too_many), answer(4, 0, 258, ""));
}

#[test]
fn reading_spells_every_kind_of_type() {
    let cases = [
        ("undef", "Void"),
        ("true", "Bool"),
        ("int 1", "Int"),
        ("self", "#1"),
        ("all 0", "S(#0)"),
        ("coll B", "B(Void)"),
        // P10 and P11.
        ("self;int 1;coll S 0 1", "S(Any)"),
        ("true;self;int 1;if 0 1 2", "Any"),
        ("int 1;coll S 0;int 1;coll Q 2;true;if 4 1 3", "C(Int)"),
        ("coll S;coll B 0;coll Q 1", "Q(B(S(Void)))"),
        ("coll S;coll Q;coll B 0 1;coll S 2", "S(B(C(Void)))"),
        // Below #1, and beside it in no class at all.
        ("self;all 0;coll S 0;union 1 2", "S(#0)"),
        ("all 2;all 1;union 0 1", "S(Any)"),
        ("self;attr 0 5", "Int"),
        ("self;as 0 0", "#0"),
        (
            "coll S;undef;undef;iter 0 1 2 C(C(C(Any))) 1 2",
            "C(C(C(Any)))",
        ),
        ("int 1;var 1;let 1 0 1", "Int"),
        ("coll Q;int 1;including 0 1", "Q(Int)"),
        ("all 1;asSequence 0", "Q(#1)"),
    ];
    for (nodes, ty) in cases {
        let nodes = nodes.split(';').enumerate();
        let nodes: String = nodes
            .map(|(node, words)| format!("|N {node} {words}"))
            .collect();
        let sheet = format!("C 0 -|C 1 0|C 2 -|A 0 0 5 Int|R 0 1{nodes}");
        assert_eq!(read(&sheet), answer(0, 0, 0, &format!("{ty}\n")), "{nodes}");
    }
}

#[test]
fn evaluating_writes_the_value_and_counts_steps() {
    assert_eq!(evaluate(0, 0), answer(0, 4, 0, "t"));
    assert_eq!(evaluate(0, 1), answer(0, 3, 0, "u"));
    assert_eq!(evaluate(1, 0), answer(0, 2, 0, "Q(@0)"));
    assert_eq!(evaluate(2, 0), answer(0, 3, 0, "S(1,@0,@1)"));
}

#[test]
fn evaluating_refuses_14_then_15() {
    for off in [3, 64, 256, 1 << 32, u64::MAX] {
        assert_eq!(evaluate(off, 0), answer(14, 0, 0, ""), "{off}");
        assert_eq!(evaluate(0, off), answer(14, 0, 0, ""), "{off}");
    }
    // An absent rule or object comes before one of another class.
    assert_eq!(evaluate(3, 2), answer(14, 0, 0, ""));
    assert_eq!(evaluate(1, 3), answer(14, 0, 0, ""));
    assert_eq!(evaluate(1, 1), answer(15, 0, 0, ""));
    assert_eq!(evaluate(0, 2), answer(15, 0, 0, ""));
}

#[test]
fn evaluating_refuses_what_reading_refuses_before_14_and_15() {
    let untyped = SHEET.to_string() + UNTYPED;
    // The rule asked for types, or does not, or is not there; so is the object,
    // or it is of another class.
    for rule in [0, 1, 2, 3, 4, 5, u64::MAX] {
        for object in [0, 1, 2, 3, u64::MAX] {
            let refused = evaluate_on(&untyped, rule, object);
            assert_eq!(refused, answer(9, 0, 22, ""), "{rule} {object}");
        }
    }
    // Earlier than the rule asked for, too.
    let earlier = "C 0 -|O 0 0|R 0 0|N 0 var 1|R 1 0|N 0 true";
    assert_eq!(evaluate_on(earlier, 1, 0), answer(9, 0, 4, ""));
    assert_eq!(evaluate_on("C 0 -|C 1 1", 0, 0), answer(6, 0, 2, ""));
}

/// What reading and evaluating answer was worked out by hand from document 02.
#[test]
fn one_call_for_reading_and_typing() {
    let start = "C 0 -|C 1 0|A 0 0 5 Int|O 0 0|O 1 1|R 0 0|N 0 true|R 1 1|N 0 self";
    let typed = format!("{start}|N 1 attr 0 5|R 2 0|N 0 coll S");
    assert_eq!(read(&typed), answer(0, 0, 0, "Bool\nInt\nS(Void)\n"));
    assert_eq!(evaluate_on(&typed, 1, 1), answer(0, 2, 0, "u"));
    // Of two rules that do not type the first is refused, before 14.
    let untyped = format!("{start}|N 1 attr 0 9|R 2 0|N 0 int 1|N 1 not 0");
    assert_eq!(read(&untyped), answer(12, 0, 10, ""));
    assert_eq!(evaluate_on(&untyped, 0, 0), answer(12, 0, 10, ""));
    assert_eq!(evaluate_on(&untyped, 9, 0), answer(12, 0, 10, ""));
    let collected = "C 0 -|C 1 -|C 2 1|A 0 1 5 Int|A 1 2 5 Bool|O 0 0|O 1 1|O 2 2|\
        V 1 0 4|V 2 0 3|V 2 1 t|R 0 0|N 0 all 1|N 1 collect 0 5";
    assert_eq!(read(collected), answer(0, 0, 0, "B(Int)\n"));
}

#[test]
fn a_stop_has_steps_and_no_place() {
    let members = (0..127)
        .map(|n| n.to_string())
        .collect::<Vec<_>>()
        .join(",");
    let start =
        format!("C 0 -|A 0 0 0 Q(Int)|O 0 0|V 0 0 Q({members})|R 0 0|N 0 self|N 1 attr 0 0");
    let size = text(&(start.clone() + "|N 2 coll Q 1|N 3 isUndef 2"));
    let stop = lent(|words, out| calls::evaluate_rule(&size, 0, 0, words, out));
    assert_eq!(stop, answer(17, 4, 0, ""));
    let nest = "|N 2 self|N 3 attr 2 0|N 4 self|N 5 attr 4 0|N 6 true|\
        N 7 forAll 5 3 6|N 8 forAll 3 2 7|N 9 forAll 1 1 8";
    let steps = text(&(start + nest));
    let stop = lent(|words, out| calls::evaluate_rule(&steps, 0, 0, words, out));
    assert_eq!(stop, answer(16, 1_000_000, 0, ""));
    let range = text("C 0 -|O 0 0|R 0 0|N 0 int 2147483647|N 1 int 1|N 2 plus 0 1|N 3 isUndef 2");
    let stop = lent(|words, out| calls::evaluate_rule(&range, 0, 0, words, out));
    assert_eq!(stop, answer(19, 4, 0, ""));
    let body = "C 0 -|O 0 0|D 0 0 Int|N 0 int 2147483647|N 1 int 1|N 2 plus 0 1|\
        R 0 0|N 0 self|N 1 call 0 0|N 2 isUndef 1";
    assert_eq!(evaluate_on(body, 0, 0), answer(19, 6, 0, ""));
}

/// A call about a text alone.
type Call = fn(&[u8], Words, &mut [u8]) -> Answer;

/// The calls that take a text and nothing else.
const CALLS: [Call; 5] = [
    calls::read_types,
    calls::read_free_numbering,
    calls::report,
    calls::rows,
    calls::undefined,
];

#[test]
fn a_short_slice_goes_before_all_and_leaves_all_untouched() {
    let long = vec![b'\n'; 49_153];
    for call in CALLS {
        for slice in 0..3 {
            for length in [0, 1, 8_191] {
                let mut lengths = [8_192; 3];
                lengths[slice] = length;
                let short = lent_with(lengths, 2_560, |words, out| call(&long, words, out));
                assert_eq!(short, answer(1, 0, 0, ""));
            }
        }
        for room in [0, 2_559] {
            // Though the lines of a sheet without rules need no room.
            for text in [&long[..], b""] {
                let short = lent_with([8_192; 3], room, |words, out| call(text, words, out));
                assert_eq!(short, answer(1, 0, 0, ""));
            }
        }
        let long = lent(|words, out| call(&long, words, out));
        assert_eq!(long, answer(2, 0, 0, ""));
        assert_eq!(
            lent(|words, out| call(b"", words, out)),
            answer(0, 0, 0, "")
        );
    }
}

#[test]
fn a_report_may_fill_the_output_but_not_exceed_it() {
    // 96 lines, those of objects from 10 on a byte longer.
    let objects: String = (0..96).map(|n| format!("O {n} 0|")).collect();
    let value = i32::MIN;
    let sheet = text(&format!(
        "C 0 -|{objects}R 0 0|N 0 int {value}|N 1 int {value}|N 2 int 0|N 3 coll B 0 1 2"
    ));
    let line = "0 0 B(-2147483648,-2147483648,0) 4\n".len();
    let length = 96 * line + 86;
    let fits = lent_with([8_192; 3], length, |words, out| {
        calls::report(&sheet, words, out)
    });
    assert_eq!(fits.0.length as usize, length);
    assert_eq!(fits.0.number, 0);
    let short = lent_with([8_192; 3], length - 1, |words, out| {
        calls::report(&sheet, words, out)
    });
    assert_eq!(short, answer(18, 0, 0, ""));
}

#[test]
fn a_report_types_all_rules_before_it_is_too_long() {
    let objects: String = (0..96).map(|n| format!("O {n} 0|")).collect();
    let sheet = text(&format!(
        "C 0 -|{objects}R 0 0|N 0 int -1000000000|N 1 int 1000000000|N 2 coll B 0 1|R 1 0|N 0 var 1"
    ));
    let refused = lent(|words, out| calls::report(&sheet, words, out));
    assert_eq!(refused, answer(9, 0, 103, ""));
}
