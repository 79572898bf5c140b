//! A day's work with named definitions: sheets of everyday size.

use super::{numbered, sheet};
use crate::generate::random::Random;

/// Where a block is, its stitches, and its neighbour: attributes 0 to 5.
const ROWS: &str = "A 0 1 0 Int|A 1 1 1 Int|A 2 1 2 Int|A 3 1 3 Int|A 4 1 4 Int|A 5 1 5 #1|";

/// A block's width, height and area, and whether it is not too dense.
const DEFINITIONS: [(&str, &str); 4] = [
    ("Int", "self|attr 0 2|self|attr 2 0|minus 1 3"),
    ("Int", "self|attr 0 3|self|attr 2 1|minus 1 3"),
    ("Int", "self|call 0 0|self|call 2 1|times 1 3"),
    (
        "Bool",
        "int 4|self|call 1 2|times 0 2|self|attr 4 4|less 3 5|not 6",
    ),
];

/// The rules, each with its class: the areas, the density, that of all blocks, the
/// area of all blocks, blocks larger than their neighbour, and narrow columns.
const RULES: [(u8, &str); 6] = [
    (1, "self|call 0 2"),
    (1, "self|call 0 3"),
    (0, "all 1|var 1|call 1 3|forAll 0 1 2"),
    (
        0,
        "all 1|int 0|var 2|var 1|call 3 2|plus 2 4|iter 0 1 2 Int 1 5",
    ),
    (1, "self|attr 0 5|call 1 2|self|call 3 2|less 2 4"),
    (2, "int 12|self|call 1 1|less 0 2|not 3"),
];

/// A sheet of a job with blocks, some of them satin, and rules that call what is
/// defined of a block.
pub fn areas(seed: u64) -> Vec<u8> {
    let mut random = Random::new(seed);
    let blocks = random.between(12, 24);
    let mut text = format!("C 0 -|C 1 -|C 2 1|{ROWS}O 0 0|");
    for block in 1..=blocks {
        text += &format!("O {block} {}|", if block % 3 == 0 { 2 } else { 1 });
    }
    for block in 1..=blocks {
        let (left, bottom) = (random.below(900), random.below(300));
        let (right, top) = (left + random.below(90), bottom + random.below(40));
        let stitches = random.below(9_000);
        let neighbour = 1 + random.below(blocks);
        for (row, value) in [left, bottom, right, top, stitches].iter().enumerate() {
            text += &format!("V {block} {row} {value}|");
        }
        text += &format!("V {block} 5 @{neighbour}|");
    }
    for (number, (ty, nodes)) in DEFINITIONS.iter().enumerate() {
        text += &format!("D {number} 1 {ty}|{}", numbered(nodes));
    }
    for (number, (class, nodes)) in RULES.iter().enumerate() {
        text += &format!("R {number} {class}|{}", numbered(nodes));
    }
    sheet(text)
}
