//! Refusals in words: every number, and what is seen of a line.

#[path = "common/told.rs"]
mod told;

use second_evaluator::calls;
use second_evaluator::explain::advice::{advice, NUMBERS};
use second_evaluator::explain::{explained, refused};
use second_evaluator::harness::vectors::board_vectors;
use second_evaluator::load;
use std::fs;
use std::path::Path;
use told::{explanation, printed, says, sheet};

#[test]
fn every_number_has_words() {
    let mut seen = Vec::new();
    for number in NUMBERS {
        let advice = advice(number).unwrap();
        for words in [advice.word, advice.meaning, advice.look] {
            assert!(!words.is_empty() && !words.ends_with('.'), "{number}");
            assert!(!seen.contains(&words), "{number}: {words}");
            seen.push(words);
        }
    }
    assert!(advice(0).is_none() && advice(26).is_none());
}

/// A smallest sheet that gets a number.
fn refusal(number: u64) -> Vec<u8> {
    let folder = Path::new(env!("CARGO_MANIFEST_DIR")).join("../examples/refusals");
    fs::read(folder.join(format!("{number:02}.sheet"))).unwrap()
}

/// A call with so many words lent.
fn lent(words: usize, call: impl Fn(calls::Words, &mut [u8]) -> calls::Answer) -> calls::Answer {
    let mut slices = [vec![0; words], vec![0; words], vec![0; words]];
    let mut out = vec![0; calls::LEAST_OUTPUT];
    call(slices.each_mut().map(Vec::as_mut_slice), &mut out)
}

/// A case of a number that only callers get, or only a run of stitch lengths: the sheet, and
/// what is returned for it.
fn case(number: u64) -> (Vec<u8>, u64, usize) {
    let text = match number {
        15 => sheet("C 0 -|C 1 -|O 0 1|R 0 0|X true"),
        22 => refusal(22),
        _ => sheet("C 0 -|R 0 0|X true"),
    };
    let full =
        |words: &dyn Fn(calls::Words, &mut [u8]) -> calls::Answer| lent(calls::LEAST_WORDS, words);
    let answer = match number {
        1 => lent(calls::LEAST_WORDS - 1, |words, out| {
            calls::report(&text, words, out)
        }),
        14 | 15 => full(&|words, out| calls::evaluate_rule(&text, 0, 0, words, out)),
        22 => full(&|words, out| calls::read_free_numbering(&text, words, out)),
        21 => {
            let all = board_vectors().unwrap().into_iter();
            let mut full = all.filter(|vector| vector.name == "full-of-values");
            let answers = calls::board_program(&full.next().unwrap().text);
            let answers = String::from_utf8_lossy(&answers).into_owned();
            let is_full = answers.lines().any(|line| line == "21 0 1 0");
            calls::Answer {
                number: if is_full { 21 } else { 0 },
                ..calls::Answer::default()
            }
        }
        25 => calls::Answer {
            number: if load::program(b"3\n1\n") == "! 25 0\n" {
                25
            } else {
                0
            },
            ..calls::Answer::default()
        },
        _ => panic!("{number} is a sheet's"),
    };
    (text, answer.number, answer.place as usize)
}

#[test]
fn each_number_has_a_case() {
    for number in NUMBERS {
        let advice = advice(number).unwrap();
        let words = if matches!(number, 1 | 14 | 15 | 21 | 22 | 25) {
            let (text, returned, place) = case(number);
            assert_eq!(returned, number);
            refused(&text, returned, place)
        } else {
            explanation(&refusal(number))
        };
        let named = format!("{} ({number})", advice.word);
        for part in [&named, advice.meaning, advice.look] {
            assert!(words.contains(part), "{number}: {words}");
        }
    }
}

#[test]
fn a_number_outside_has_none() {
    assert_eq!(
        refused(b"", 26, 0),
        "Refused with 26, which no document names.\n"
    );
}

/// Lines of a sheet that is refused, and what is said of it.
const SEEN: [(&str, &[&str]); 24] = [
    (
        "C 0",
        &[
            "Refused: bad line (3) at line 1.",
            "line 1   C <tab> 0",
            "it has 2 fields, and should have 3",
        ],
    ),
    ("C 0 -\r", &["carriage return", "C <tab> 0 <tab> -\\r"]),
    ("Z 1", &["no line begins so"]),
    ("C 0 -||O 0 0", &["at line 2", "the line is empty"]),
    (
        "C 0 -|R 0 0|X (1 + 2",
        &[
            "not a sentence (20) at line 3",
            "it ends too early, behind `(1 + 2`",
            "below    line 2: R 0 0",
        ],
    ),
    (
        "C 0 -|R 0 0|X if true then 1 else 2",
        &["it ends too early, behind `if true then 1 else 2`"],
    ),
    (
        "C 0 -|C 1 0|A 0 1 7 Int|R 0 0|X self.a7",
        &[
            "no such mark (12)",
            "rule     self.a7",
            "the name 7 is declared by #1",
        ],
    ),
    (
        "C 0 -|R 0 0|N 0 self|N 1 not 0|N 2 not 1",
        &[
            "rule     not not self",
            "part     not self",
            "line 4   N 1 not 0",
        ],
    ),
    ("5\n6", &["a run of stitch lengths is for ./load"]),
    ("C 00 -", &["`00` has a zero in front"]),
    ("C 0 -|R 0 0|N 0 foo", &["there is no form `foo`"]),
    (
        "C 0 -|R 0 0|N 0 self|N 1 not",
        &["it has 3 fields, and should have 4"],
    ),
    ("C 0 -|C 1 -|O 96 0", &["96 is too much: objects go to 95"]),
    ("C 0 -|C 2 -", &["the next C line has the number 1, not 2"]),
    ("C 0 -|O 0 0|C 1 -", &["C lines come before line 2: O 0 0"]),
    (
        "C 0 -|A 0 0 5 Int|A 1 0 5 Bool",
        &["the class has that name already, line 2: A 0 0 5 Int"],
    ),
    (
        "C 0 -|A 0 0 5 Int|O 0 0|O 1 0|V 1 0 3|V 0 0 3",
        &["before it stands line 5: V 1 0 3"],
    ),
    (
        "C 0 -|O 0 1",
        &["by then the sheet has 1 class, number 0; no row"],
    ),
    (
        "C 0 -|A 0 0 5 Int|O 0 0|V 0 0 t",
        &["the object is line 3: O 0 0; the row is line 2: A 0 0 5 Int"],
    ),
    ("C 0 -|R 0 0", &["the rule has no X line and no N line"]),
    (
        "C 0 -|R 0 0|X Set{1}->forAll(v1 ¦ v2 < 3)",
        &["part     v2\n", "v2 is bound nowhere around it"],
    ),
    (
        "C 0 -|R 0 0|X true and 1 = Set{2}",
        &[
            "part     1 = Set{2}\n",
            "`1` is of type Int, and `Set{2}` is of type S(Int)",
        ],
    ),
    (
        "C 0 -|R 0 0|X Set{1}->foo() = 2",
        &["it can't be read on behind `Set{1}->`, where `foo` stands"],
    ),
    (
        "C 0 -|D 0 0 Bool|N 0 self|N 1 call 0 0",
        &["call upward (23) at line 4", "below    line 2: D 0 0 Bool"],
    ),
];

#[test]
fn refusals_say_what_can_be_seen() {
    for (lines, expected) in SEEN {
        says(lines, expected);
    }
    let text = b"C\t0\t-";
    let told = explained(text, &printed(text)).unwrap();
    assert_eq!(told.refusal, Some((3, 1)));
    assert!(told.words().contains("the last line has no line feed"));
}

#[test]
fn a_number_without_a_sheet_has_no_line() {
    for number in NUMBERS {
        let words = refused(b"", number, 0);
        assert!(!words.contains("  here "), "{words}");
    }
}
