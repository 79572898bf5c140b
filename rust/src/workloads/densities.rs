//! A day's work with densities: sheets of everyday size whose numbers are Reals.

use super::{numbered, sheet};
use crate::generate::random::Random;

/// The job's limit, and a block's stitches, area and spacings: attributes 0 to 3.
const ROWS: &str = "A 0 0 0 Real|A 1 1 1 Int|A 2 1 2 Real|A 3 1 3 Q(Real)|";

/// A block's density.
const DENSITY: &str = "self|attr 0 1|self|attr 2 2|over 1 3";

/// The rules, each with its class: the densities, that none is over the limit, the
/// sum of the areas, the mean spacing, the densities as a Set, and a spacing that is
/// too wide for the area.
const RULES: [(u8, &str); 6] = [
    (1, "self|call 0 0"),
    (
        0,
        "all 1|self|attr 1 0|var 1|call 3 0|less 2 4|not 5|forAll 0 1 6",
    ),
    (
        0,
        "all 1|int 0|var 2|var 1|attr 3 2|plus 2 4|iter 0 1 2 Real 1 5",
    ),
    (
        1,
        "self|attr 0 3|int 0|var 2|var 1|plus 3 4|iter 1 1 2 Real 2 5|self|attr 7 3|size 8|over 6 9",
    ),
    (
        0,
        "all 1|coll S|var 2|var 1|call 3 0|including 2 4|iter 0 1 2 S(Real) 1 5",
    ),
    (
        1,
        "self|attr 0 3|var 1|var 1|times 2 3|self|attr 5 2|less 6 4|exists 1 1 7",
    ),
];

/// A sheet of a job with blocks, their areas and spacings in quarters and tenths.
pub fn densities(seed: u64) -> Vec<u8> {
    let mut random = Random::new(seed);
    let blocks = random.between(12, 24);
    let mut text = format!("C 0 -|C 1 -|{ROWS}O 0 0|");
    for block in 1..=blocks {
        text += &format!("O {block} 1|");
    }
    text += "V 0 0 r4012000000000000|";
    for block in 1..=blocks {
        let stitches = random.below(9_000);
        let area = spelt(f64::from(random.below(4_000) as u32 + 1) / 4.0);
        let spacings: Vec<String> = (0..random.between(3, 12))
            .map(|_| spelt(f64::from(random.below(90) as u32 + 3) / 10.0))
            .collect();
        text += &format!("V {block} 1 {stitches}|V {block} 2 {area}|");
        text += &format!("V {block} 3 Q({})|", spacings.join(","));
    }
    text += &format!("D 0 1 Real|{}", numbered(DENSITY));
    for (number, (class, nodes)) in RULES.iter().enumerate() {
        text += &format!("R {number} {class}|{}", numbered(nodes));
    }
    sheet(text)
}

/// A number as a sheet spells it.
fn spelt(number: f64) -> String {
    if f64::from(number as i32) == number {
        return (number as i32).to_string();
    }
    format!("r{:016x}", number.to_bits())
}
