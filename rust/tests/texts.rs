//! Rules in text: what is written is read back, in as few brackets as can be; and the
//! comparison finds every misreading of a stand-in.

mod common;

use common::{answer, evaluate_on, lent, read as types};
use second_evaluator::calls;
use second_evaluator::generate::random::Random;
use second_evaluator::generate::texts::{retold, scattered};
use second_evaluator::generate::trees::grown;
use second_evaluator::harness::misreadings::MISREADINGS;
use second_evaluator::harness::run;
use second_evaluator::harness::tally::Tally;
use second_evaluator::harness::text_cases::TextCase;
use second_evaluator::harness::texts::Texts;
use second_evaluator::read::read;
use second_evaluator::read::sentences::sentence;
use second_evaluator::read::tokens::tokens;
use second_evaluator::tree::Node;
use second_evaluator::wording::{in_text, spaced, text, worded};
use second_evaluator::{generate, harness};
use std::ffi::OsStr;
use std::fs;
use std::path::Path;

/// A sheet of one rule in this text, read: the number and place of its refusal.
fn refused(text: &str) -> Option<(u64, usize)> {
    let sheet = format!("C\t0\t-\nO\t0\t0\nR\t0\t0\nX\t{text}\n");
    let refused = read(sheet.as_bytes()).err()?;
    Some((refused.refusal as u64, refused.place))
}

/// The rules of sheets that are read, by seed.
fn rules(seeds: std::ops::Range<u64>) -> impl Iterator<Item = Node> {
    seeds.flat_map(|seed| {
        let sheet = read(&grown(&mut Random::new(seed)));
        let rules = sheet.map_or(Vec::new(), |sheet| sheet.rules);
        rules.into_iter().map(|rule| rule.root)
    })
}

/// The node lines that a tree has, operands first and left to right.
fn lines(node: &Node) -> Vec<String> {
    fn put(node: &Node, lines: &mut Vec<String>) -> usize {
        let operands: Vec<usize> = (node.operands.iter())
            .map(|operand| put(operand, lines))
            .collect();
        lines.push(format!("{:?} {operands:?}", node.form));
        lines.len() - 1
    }
    let mut lines = Vec::new();
    put(node, &mut lines);
    lines
}

/// The node lines of a text, as it is read.
fn lines_of(text: &str) -> Option<Vec<String>> {
    let sentence = sentence(&tokens(text.as_bytes()))?;
    let shapes = sentence.shapes.iter();
    let spelt = shapes.map(|shape| format!("{:?} {:?}", shape.form, shape.operands));
    Some(spelt.collect())
}

#[test]
fn nodes_become_a_text_of_the_same_nodes() {
    let mut random = Random::new(7);
    let mut told = 0;
    for root in rules(0..1_200) {
        let Some(short) = text(&root) else { continue };
        told += 1;
        assert_eq!(lines_of(&short), Some(lines(&root)), "{short}");
        // With brackets and spaces in all places it is another text of the same nodes.
        let mut more = || random.below(3);
        let tokens = worded(&root, &mut more).unwrap();
        let long = scattered(&mut random, &tokens, 3);
        assert_eq!(lines_of(&long), Some(lines(&root)), "{long}");
        assert_eq!(lines_of(&spaced(&tokens)), Some(lines(&root)), "{long}");
    }
    assert!(told > 1_000, "{told}");
}

#[test]
fn texts_become_nodes_and_the_same_text() {
    let mut told = 0;
    for seed in 0..1_200 {
        let mut random = Random::new(seed);
        let sheet = grown(&mut random);
        let Some(sheet) = retold(&mut random, &sheet) else {
            continue;
        };
        let Ok((short, _)) = in_text(&sheet) else {
            continue;
        };
        let trees = |sheet: &[u8]| -> Vec<Vec<String>> {
            let rules = read(sheet).map_or(Vec::new(), |sheet| sheet.rules);
            rules.iter().map(|rule| lines(&rule.root)).collect()
        };
        assert_eq!(trees(&short), trees(&sheet), "{seed}");
        assert_eq!(in_text(&short).unwrap().0, short, "{seed}");
        // What is printed for them is the same too.
        let printed = calls::program(&sheet);
        if !printed.starts_with(b"! ") {
            assert_eq!(calls::program(&short), printed, "{seed}");
            told += 1;
        }
    }
    assert!(told > 300, "{told}");
}

#[test]
fn no_bracket_can_be_left_out() {
    let mut tried = 0;
    for root in rules(0..400) {
        let Some(tokens) = worded(&root, &mut || 0) else {
            continue;
        };
        let mut open = Vec::new();
        for (close, token) in tokens.iter().enumerate() {
            match token.as_str() {
                "(" => open.push(close),
                ")" => {
                    let mut fewer = tokens.clone();
                    fewer.remove(close);
                    fewer.remove(open.pop().unwrap());
                    let fewer = spaced(&fewer);
                    assert_ne!(lines_of(&fewer), Some(lines(&root)), "{fewer}");
                    tried += 1;
                }
                _ => {}
            }
        }
    }
    assert!(tried > 1_000, "{tried}");
}

/// Where undefined came from, but for the line: rule, object and step.
fn steps_of(sheet: &[u8]) -> Vec<[String; 3]> {
    let lines = String::from_utf8(calls::undefined_program(sheet)).unwrap();
    let fields = lines.lines().map(|line| {
        let fields: Vec<String> = line.split(' ').map(str::to_string).collect();
        [0, 1, 3].map(|field| fields[field].clone())
    });
    fields.collect()
}

#[test]
fn the_examples_stand_in_both_forms() {
    let examples = Path::new(env!("CARGO_MANIFEST_DIR")).join("../examples");
    let mut count = 0;
    for entry in fs::read_dir(examples.join("nodes")).unwrap() {
        let path = entry.unwrap().path();
        if path.extension() != Some(OsStr::new("sheet")) {
            continue;
        }
        let name = path.file_name().unwrap();
        let nodes = fs::read(&path).unwrap();
        let told = fs::read(examples.join(name)).unwrap();
        let report = examples.join(name).with_extension("report");
        assert_eq!(in_text(&nodes), Ok((told.clone(), Vec::new())), "{name:?}");
        let report = fs::read(report).unwrap();
        assert_eq!(calls::program(&nodes), report, "{name:?}");
        assert_eq!(calls::program(&told), report, "{name:?}");
        assert_eq!(steps_of(&nodes), steps_of(&told), "{name:?}");
        count += 1;
    }
    assert_eq!(count, 9);
}

#[test]
fn an_integer_below_zero_stays_in_nodes() {
    let sheet = b"C\t0\t-\nR\t0\t0\nN\t0\tint\t-1\nR\t1\t0\nN\t0\ttrue\n";
    let (told, left) = in_text(sheet).unwrap();
    assert_eq!(told, b"C\t0\t-\nR\t0\t0\nN\t0\tint\t-1\nR\t1\t0\nX\ttrue\n");
    assert_eq!(left, [0]);
}

#[test]
fn every_misreading_is_found() {
    let mut left = MISREADINGS.to_vec();
    for seed in 0..3_000 {
        let sheet = generate::sheet(seed);
        let Some(texts) = Texts::of(&sheet) else {
            continue;
        };
        let asks = generate::asks(seed, &sheet);
        let met: Vec<TextCase> = (asks.iter())
            .flat_map(|ask| texts.met(ask.call, harness::answer(&sheet, *ask)))
            .collect();
        left.retain(|misreading| {
            let mut tally = Tally::default();
            !met.contains(&misreading.case)
                || run::sheet(misreading, &sheet, seed, &asks, &mut tally).is_ok()
        });
    }
    assert!(left.is_empty(), "{left:?}");
}

#[test]
fn chains_as_long_as_a_sheet() {
    assert_eq!(refused(&("not ".repeat(12_000) + "true")), Some((4, 4)));
    assert_eq!(refused(&"not ".repeat(12_000)), Some((20, 4)));
    assert_eq!(refused(&"let v1=".repeat(7_000)), Some((20, 4)));
    let nested = "let v1=".repeat(4_000) + "1" + &" in 1".repeat(4_000);
    assert_eq!(refused(&nested), Some((4, 4)));
    assert_eq!(refused(&(nested + " in 1")), Some((20, 4)));
    assert_eq!(
        refused(&("1".to_string() + &"+1".repeat(24_000))),
        Some((4, 4))
    );
    assert_eq!(refused(&"(".repeat(49_000)), Some((4, 4)));
}

#[test]
fn the_order_of_refusals_on_one_line() {
    let ranked = [
        (&"(".repeat(65), 4),
        (&"v16 + #9 +".to_string(), 20),
        (&"Set{v16, #9.allInstances()}".to_string(), 4),
        (
            &"Set{Set{}->iter(v1; v1 : #9 = 0 | 1), self.d0()}".to_string(),
            5,
        ),
        (&"Set{self.d0(), #9.allInstances()}".to_string(), 6),
        (&"self.d0()".to_string(), 24),
        (&("not ".repeat(19) + "true"), 8),
    ];
    for (text, number) in ranked {
        assert_eq!(refused(text), Some((number, 4)), "{text}");
    }
    assert_eq!(refused("self.d0()\t1"), Some((3, 4)));
}

#[test]
fn the_calls_take_texts() {
    let sheet = b"C\t0\t-\nA\t0\t0\t5\tInt\nO\t0\t0\nV\t0\t0\t9\nR\t0\t0\nX\tself.a5 < 12\n";
    let read = lent(|words, out| calls::read_types(sheet, words, out));
    assert_eq!(read, answer(0, 0, 0, "Bool\n"));
    let value = lent(|words, out| calls::evaluate_rule(sheet, 0, 0, words, out));
    assert_eq!(value, answer(0, 4, 0, "t"));
    assert_eq!(types("C 0 -|R 0 0|X Set{1}"), answer(0, 0, 0, "S(Int)\n"));
    assert_eq!(
        evaluate_on("C 0 -|O 0 0|R 0 0|X 1+", 0, 0),
        answer(20, 0, 4, "")
    );
}
