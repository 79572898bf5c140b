//! Sheets for running boards: most are about which rules see a row, some about long
//! verdicts, some are as full as a board may be, or nearly as long as a sheet may be.

use super::limits::sequence;
use super::random::Random;
use super::rows::{self, numbered};
use super::trees::grown;
use super::world::{any_real, spelt_real};
use crate::calls::{accepted, LONGEST_SHEET};
use std::iter;

/// Nodes for an object of class 0, whose names are 0 `Int`, 1 `Q(Int)`, 2 `S(Int)`, 3 its
/// class, 4 `Real` and 5 `Q(Q(Int))`.
const RULES: [&str; 16] = [
    "self|attr 0 1",
    "self|attr 0 1",
    "self|attr 0 2",
    "self|attr 0 5",
    "self|attr 0 3|attr 1 1",
    "self|attr 0 3|attr 1 0",
    "self|attr 0 0|self|attr 2 4|over 1 3",
    "self|attr 0 0|int 2147483647|plus 1 2",
    "self|attr 0 1|coll Q 1",
    "all 0|collect 0 0",
    "all 0|collect 0 0|size 1",
    "all 0|var 1|attr 1 0|int 3|less 2 3|forAll 0 1 4",
    "self|attr 0 1|self|attr 2 1|self|attr 4 1|true|forAll 5 3 6|forAll 3 2 7|forAll 1 1 8",
    "self|call 0 0",
    "self|call 0 1",
    "true",
];

/// A sheet of which a board can mostly be made. Few of them have rules that take long.
pub fn sheet(random: &mut Random) -> Vec<u8> {
    loop {
        let text = any(random);
        let is_long = text.windows(LONG.len()).any(|part| part == LONG);
        if !is_long || random.one_in(4) {
            return text;
        }
    }
}

/// The last node of the rules that take long: three quantifiers in one another.
const LONG: &[u8] = b"forAll\t1\t1\t8";

fn any(random: &mut Random) -> Vec<u8> {
    match random.below(16) {
        0 => grown(random),
        1..=6 => {
            // With the largest values spelt out, where the sheet has them.
            let text = rows::about(random);
            let rules = text.lines().filter(|line| line.starts_with('R')).count();
            let spelt = format!(
                "{text}R\t{rules}\t1\n{}",
                numbered(random, "self|attr 0 9", 1)
            );
            let is_sheet = random.one_in(2) && accepted(spelt.as_bytes()).is_ok();
            if is_sheet { spelt } else { text }.into_bytes()
        }
        7 | 8 => many_values(random).into_bytes(),
        9 | 10 => large_values(random).into_bytes(),
        11 => long(random).into_bytes(),
        _ => spelt_out(random).into_bytes(),
    }
}

/// Up to six rules in random order, two definitions, and values of all lengths.
fn spelt_out(random: &mut Random) -> String {
    let mut text =
        "C\t0\t-\nC\t1\t0\nA\t0\t0\t0\tInt\nA\t1\t0\t1\tQ(Int)\nA\t2\t0\t2\tS(Int)\n".to_string();
    text += "A\t3\t0\t3\t#0\nA\t4\t0\t4\tReal\nA\t5\t0\t5\tQ(Q(Int))\nA\t6\t1\t0\tInt\n";
    let objects = random.between(1, 6);
    for object in 0..objects {
        text += &format!("O\t{object}\t{}\n", random.below(2));
    }
    let long = random.one_in(2);
    for object in 0..objects {
        let most = if long { 127 } else { 9 };
        let values = [
            random.below(6).to_string(),
            sequence(random.between(most / 2, most)),
            sequence(random.below(9)).replacen('Q', "S", 1),
            format!("@{}", random.below(objects)),
            spelt_real(any_real(random)),
            format!("Q({})", sequence(random.below(9))),
        ];
        for (row, value) in values.iter().enumerate() {
            if !random.one_in(4) {
                text += &format!("V\t{object}\t{row}\t{value}\n");
            }
        }
    }
    text += "D\t0\t0\tInt\nN\t0\tself\nN\t1\tattr\t0\t0\n";
    text += "D\t1\t0\tReal\nN\t0\tself\nN\t1\tcall\t0\t0\nN\t2\tself\nN\t3\tattr\t2\t4\nN\t4\tplus\t1\t3\n";
    with_rules(random, text, &RULES, 6)
}

/// The text and some of the rules, each for class 0.
fn with_rules(random: &mut Random, mut text: String, rules: &[&str], most: usize) -> String {
    for number in 0..random.below(most + 1) {
        let nodes = *random.pick(rules);
        text += &format!("R\t{number}\t0\n{}", numbered(random, nodes, 1));
    }
    text
}

/// 1,024 values, or some fewer: 60 Integers and an empty Sequence of each object, but for
/// the last.
fn many_values(random: &mut Random) -> String {
    let mut text = "C\t0\t-\n".to_string();
    for row in 0..60 {
        text += &format!("A\t{row}\t0\t{row}\tInt\n");
    }
    text += "A\t60\t0\t60\tQ(Int)\n";
    let lines = 1_024 - random.below(4);
    text.extend((0..18).map(|object| format!("O\t{object}\t0\n")));
    let cells = (0..18).flat_map(|object| (0..61).map(move |row| (object, row)));
    for (object, row) in cells.take(lines) {
        let value = if row == 60 { "Q()" } else { "7" };
        text += &format!("V\t{object}\t{row}\t{value}\n");
    }
    let rules = [
        "self|attr 0 0",
        "self|attr 0 60|size 1",
        "all 0|collect 0 59",
    ];
    with_rules(random, text, &rules, 3)
}

/// Sizes of 2,048 together, or some fewer: a Sequence of 127 Integers of each of 15 objects,
/// and shorter ones of two others.
fn large_values(random: &mut Random) -> String {
    let mut text = "C\t0\t-\nA\t0\t0\t0\tInt\nA\t1\t0\t1\tQ(Int)\n".to_string();
    text.extend((0..17).map(|object| format!("O\t{object}\t0\n")));
    let fewer = random.below(4);
    for object in 0..17 {
        let members = match object {
            9 => 26 - fewer,
            12 => 100,
            _ => 127,
        };
        text += &format!("V\t{object}\t1\t{}\n", sequence(members));
    }
    let rules = ["self|attr 0 1", "self|attr 0 0", "self|attr 0 1|size 1"];
    with_rules(random, text, &rules, 3)
}

/// A sheet that is longer than a sheet may be as soon as values are some bytes longer: the
/// last rule is a text with as many spaces as there is room for.
fn long(random: &mut Random) -> String {
    let mut text = "C\t0\t-\nA\t0\t0\t0\tQ(Real)\n".to_string();
    text.extend((0..6).map(|object| format!("O\t{object}\t0\n")));
    for object in 0..5 {
        let value = match object {
            0 => reals(random),
            _ => sequence(random.between(1, 9)),
        };
        text += &format!("V\t{object}\t0\t{value}\n");
    }
    text += "R\t0\t0\nN\t0\tself\nN\t1\tattr\t0\t0\nR\t1\t0\nX\ttrue";
    let spaces = LONGEST_SHEET - text.len() - 1 - random.below(20);
    text + &" ".repeat(spaces) + "\n"
}

/// A Sequence of as many Reals as there can be.
pub fn reals(random: &mut Random) -> String {
    let reals = iter::repeat_with(|| spelt_real(any_real(random)));
    format!("Q({})", reals.take(127).collect::<Vec<_>>().join(","))
}
