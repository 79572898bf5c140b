//! What ./explain says: every form at which undefined arises, what decides, every sheet.

#[path = "common/told.rs"]
mod told;

use second_evaluator::explain::{explained, Kind, Printed};
use second_evaluator::generate;
use second_evaluator::generate::origins::about;
use second_evaluator::generate::random::Random;
use second_evaluator::harness::vectors::{origin_vectors, vectors};
use told::{printed, says, sheet};

const SHEET: &str = "C 0 -|C 1 0|A 0 0 5 Int|A 1 0 6 Any|O 0 0|O 1 0|V 0 0 9|V 0 1 7|R 0 0|";

/// Rules that are undefined at each form, and what is said of them.
const BLANK: [(&str, &[&str]); 8] = [
    (
        "X undef",
        &["at `undef`, step 1 of 1: that is what is written there"],
    ),
    (
        "X self.a5 < 12",
        &[
            "Rule 0 is undefined for @1, of class #0.\n",
            "  rule     self.a5 < 12\n",
            "  line 10  X self.a5 < 12\n",
            "  arose    at `self.a5`, step 2 of 3: @1 has no value in row 0, name 5.\n",
            "  look at  line 3: A 0 0 5 Int; and the V lines, none of which gives @1 a value in row 0.\n",
            "2 verdicts: 1 true, 0 false, 1 undefined, 0 stopped, 0 other values.\n",
        ],
    ),
    (
        "X #0.allInstances()->collect(a5)->size()",
        &["at `#0.allInstances()->collect(a5)`, step 2 of 3: @1 has no value in row 0"],
    ),
    (
        "X self.oclAsType(#1)",
        &[
            "@0 is of class #0, which is not #1 or below",
            "look at  line 5: O 0 0; and `self`",
        ],
    ),
    (
        "X self.a6.oclAsType(#1)",
        &["7 is no object", "look at  the values of `self.a6`"],
    ),
    (
        "X 7 div (2 - 2)",
        &["7 is divided by 0", "look at  the divisor, `2 - 2`"],
    ),
    (
        "N 0 int -7|N 1 int 0|N 2 mod 0 1",
        &[
            "at `-7 mod 0`",
            "-7 is divided by 0",
            "line 12  N 2 mod 0 1",
        ],
    ),
    (
        "X r3ff8000000000000 / 0",
        &["r3ff8000000000000 (1.5) is divided by 0"],
    ),
];

#[test]
fn each_form_is_explained() {
    for (rule, expected) in BLANK {
        says(&format!("{SHEET}{rule}"), expected);
    }
}

#[test]
fn a_definition_is_named() {
    says(
        "C 0 -|A 0 0 5 Int|O 0 0|D 0 0 Int|N 0 self|N 1 attr 0 5|R 0 0|X 1 + self.d0()",
        &[
            "  line 6   N 1 attr 0 5, below line 4: D 0 0 Int\n",
            "step 5 of 6",
        ],
    );
}

/// Rules that are false, and the parts that are shown.
const FALSE: [(&str, &[&str]); 10] = [
    (
        "X self.a5 < 9",
        &[
            "Rule 0 is false for @0, of class #0.\n",
            "  parts    that decided, of 4 steps:\n",
            "    step 1  the rule is f\n",
            "    step 2    `self.a5` is 9, by line 7: V 0 0 9\n",
            "  look at  line 7: V 0 0 9.\n",
        ],
    ),
    (
        "X true and (false and true)",
        &["step 3    `false and true` is f\n", "the rule itself"],
    ),
    (
        "X 1 = 2 or 1 < 0",
        &["step 2    `1 = 2` is f\n", "step 5    `1 < 0` is f\n"],
    ),
    (
        "X undef and not (1 = 1)",
        &[
            "step 3    `not (1 = 1)` is f\n",
            "step 4      `1 = 1` is t\n",
        ],
    ),
    (
        "X Sequence{3, 1, 2}->forAll(v1 ¦ 1 < v1)",
        &[
            "the rule is f, by member 2 of 3\n",
            "`1 < v1` is f, v1 being 1\n",
        ],
    ),
    (
        "X Sequence{1, 2}->exists(v1 ¦ 5 < v1)",
        &[
            "the rule is f, by none of its members (2)\n",
            "`5 < v1` is f, v1 being 2\n",
        ],
    ),
    (
        "X let v1 = 2 in if v1 = 2 then false else true endif",
        &["is f, v1 being 2\n", "`v1 = 2` is t\n"],
    ),
    (
        "X not self.a5.isUndef() and false",
        &[
            "Rule 0 is false for @1",
            "step 4        `self.a5` is u: @1 has no value in row 0, name 5\n",
        ],
    ),
    (
        "X Sequence{1, 2, 3}->iter(v1; v2 : Int = 0 ¦ v2 + v1) < 6",
        &[
            "is 6, in 3 turns\n",
            "`v2 + v1` is 3, v1 being 2 and v2 1\n",
        ],
    ),
    (
        "X 2 < r3ff8000000000000 + 0",
        &["`r3ff8000000000000 + 0` is r3ff8000000000000 (1.5)\n"],
    ),
];

#[test]
fn false_verdicts_have_their_parts() {
    for (rule, expected) in FALSE {
        says(&format!("{SHEET}{rule}"), expected);
    }
    says(
        "C 0 -|O 0 0|D 0 0 Bool|N 0 self|N 1 self|N 2 eq 0 1|N 3 not 2|R 0 0|X self.d0()",
        &[
            "the rule is f, by definition 0, line 3: D 0 0 Bool\n",
            "step 3    `not (self = self)` is f, self being @0\n",
        ],
    );
}

#[test]
fn one_verdict_is_traced() {
    let text = sheet(&format!("{SHEET}X self.a5 < 12"));
    let explained = explained(&text, &printed(&text)).unwrap();
    let (told, mut trace) = (explained.told().unwrap(), Vec::new());
    told.trace(&explained.verdicts[1], &mut trace).unwrap();
    let expected = "  trace    all 3 steps:\n    step 1 line 10   `self.a5 < 12` is u\n    \
        step 2 line 10     `self.a5` is u\n    step 3 line 10       `self` is @1\n";
    assert_eq!(String::from_utf8_lossy(&trace), expected);
}

#[test]
fn stops_are_explained() {
    says(
        "C 0 -|A 0 0 5 Int|O 0 0|V 0 0 2147483647|R 0 0|X self.a5 + 1 = 1",
        &[
            "Rule 0 was stopped, over the range (19), after 5 steps, for @0",
            "  stopped  in `self.a5 + 1`.\n  there    `self.a5` is 2147483647, by line 4: V 0 0 2147483647.\n  look at",
            "0 undefined, 1 stopped",
        ],
    );
}

/// A verdict of so many steps at most is traced here, and one of so many is told: more take
/// their time.
const MOST_TRACED: usize = 300;
const MOST_TOLD: usize = 100_000;

/// Each verdict that is undefined or false has its words, and each step of a trace its line.
fn explained_whole(name: &str, text: &[u8]) {
    let printed = printed(text);
    let told = explained(text, &printed).unwrap_or_else(|how| panic!("{name}: {how}"));
    let is_refused = |lines: &Option<Vec<u8>>| lines.as_ref().unwrap().starts_with(b"! ");
    assert_eq!(
        told.refusal.is_some(),
        is_refused(&printed.report),
        "{name}"
    );
    if told
        .verdicts
        .iter()
        .any(|verdict| verdict.steps > MOST_TOLD)
    {
        return;
    }
    let words = told.words();
    let count = |kind: Kind| {
        told.verdicts
            .iter()
            .filter(|verdict| verdict.kind() == kind)
            .count()
    };
    let arose = words.matches("\n  arose    at ").count();
    assert_eq!(arose, count(Kind::Undefined), "{name}");
    let parts = words.matches("\n  parts    that decided, of ").count();
    assert_eq!(parts, count(Kind::False), "{name}");
    for verdict in told
        .verdicts
        .iter()
        .filter(|verdict| verdict.steps <= MOST_TRACED)
    {
        let mut trace = Vec::new();
        told.told().unwrap().trace(verdict, &mut trace).unwrap();
        let steps = String::from_utf8_lossy(&trace).lines().count() - 1;
        assert_eq!(steps, verdict.steps, "{name}: {verdict:?}");
    }
}

#[test]
fn every_sheet_is_explained() {
    let vectors = vectors()
        .unwrap()
        .into_iter()
        .chain(origin_vectors().unwrap());
    let texts = vectors.map(|vector| (vector.name, vector.text));
    let any = (0..150).map(|seed| (seed.to_string(), generate::sheet(seed)));
    let own = (0..100).map(|seed| (seed.to_string(), about(&mut Random::new(seed))));
    for (name, text) in texts.chain(any).chain(own) {
        explained_whole(&name, &text);
    }
}

#[test]
fn a_difference_is_not_explained() {
    let text = sheet(&format!("{SHEET}X self.a5 < 12"));
    let right = printed(&text);
    let (report, undefined) = (right.report.unwrap(), right.undefined.unwrap());
    let others: [(&[u8], &[u8]); 9] = [
        (b"", b""),
        (b"0 0 t 4\n", b""),
        (&report, b""),
        (&report, b"0 1 10 3\n"),
        (&report, b"0 1 9 2\n"),
        (&report, b"0 0 10 2\n"),
        (&report, b"0 1 10 2\n0 1 10 2\n"),
        (b"! 3 1\n", &undefined),
        (b"0 0 t 4\n0 1 u 4\n", &undefined),
    ];
    for (report, undefined) in others {
        let printed = Printed {
            report: Some(report.to_vec()),
            undefined: Some(undefined.to_vec()),
        };
        assert!(explained(&text, &printed).is_err());
    }
    let printed = Printed {
        report: Some(b"0 0 t 4\n0 1 u 4\n".to_vec()),
        undefined: None,
    };
    let how = explained(&text, &printed).err().unwrap();
    let expected = "Line 2 of ocl_report is `0 1 u 4` by the one and `0 1 u 3` by the other";
    assert!(how.contains(expected), "{how}");
}

#[test]
fn it_says_whose_words_they_are() {
    let text = sheet(&format!("{SHEET}X self.a5 < 12"));
    let Printed { report, undefined } = printed(&text);
    let said = |report, undefined| {
        let printed = Printed { report, undefined };
        explained(&text, &printed).unwrap().whose()
    };
    let both = said(report.clone(), undefined);
    assert!(both.contains("proved programs ocl_report and ocl_undefined"));
    let one = said(report, None);
    assert!(one.contains("proved program ocl_report, and the second evaluator came to the same"));
    let none = said(None, None);
    assert!(none.contains("no proved program was at hand"));
}
