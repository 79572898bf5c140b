//! A day's work: sheets of everyday size.

use super::sheet;
use crate::generate::limits::sequence;
use crate::generate::random::Random;

/// A sheet of everyday size: caps with needles and threads, and ten rules.
pub fn cap(seed: u64) -> Vec<u8> {
    let mut random = Random::new(seed);
    // 0 part, 1 cap, 2 needle, 3 thread, 4 fast thread.
    let mut text = "C 0 -|C 1 0|C 2 0|C 3 0|C 4 3|".to_string();
    text += "A 0 0 0 Int|A 1 1 1 S(#2)|A 2 1 2 Q(Int)|A 3 2 3 #3|A 4 3 4 Int|A 5 4 5 Bool|";
    let objects = random.between(16, 30);
    let class = |object: usize| [1, 2, 3, 2, 4, 3][object % 6];
    for object in 0..objects {
        text += &format!("O {object} {}|", class(object));
    }
    let like = |wanted: &[usize]| -> Vec<usize> {
        (0..objects)
            .filter(|object| wanted.contains(&class(*object)))
            .collect()
    };
    let (needles, threads) = (like(&[2]), like(&[3, 4]));
    for object in 0..objects {
        text += &format!("V {object} 0 {}|", random.below(900));
        match class(object) {
            1 => {
                let few: Vec<String> = (needles.iter().filter(|_| random.one_in(2)))
                    .map(|needle| format!("@{needle}"))
                    .collect();
                text += &format!("V {object} 1 S({})|", few.join(","));
                text += &format!("V {object} 2 {}|", sequence(random.between(3, 12)));
            }
            2 => text += &format!("V {object} 3 @{}|", random.pick(&threads)),
            _ => text += &format!("V {object} 4 {}|", random.below(40)),
        }
    }
    for (number, (class, nodes)) in RULES.iter().enumerate() {
        text += &format!("R {number} {class}|");
        for (node, words) in nodes.split('|').enumerate() {
            text += &format!("N {node} {words}|");
        }
    }
    sheet(text)
}

/// The rules of a cap sheet, each with its class.
const RULES: [(u8, &str); 10] = [
    (0, "self|attr 0 0|int 800|less 1 2"),
    (1, "self|attr 0 1|size 1|int 0|less 3 2"),
    (
        1,
        "self|attr 0 1|var 1|attr 2 3|isUndef 3|not 4|forAll 1 1 5",
    ),
    (
        1,
        "self|attr 0 1|var 1|attr 2 3|attr 3 4|int 30|less 4 5|exists 1 1 6",
    ),
    (
        1,
        "self|attr 0 2|int 0|var 1|var 2|plus 3 4|iter 1 1 2 Int 2 5|int 40|less 6 7",
    ),
    (
        1,
        "self|attr 0 2|asSet 1|size 2|self|attr 4 2|size 5|eq 3 6",
    ),
    (
        2,
        "self|attr 0 3|as 1 4|isUndef 2|not 3|self|attr 5 0|int 450|less 6 7|or 4 8",
    ),
    (
        3,
        "all 1|var 1|attr 1 1|var 2|attr 3 3|self|eq 4 5|exists 2 2 6|exists 0 1 7",
    ),
    (
        4,
        "self|attr 0 5|isUndef 1|self|attr 3 4|int 10|less 4 5|true|if 2 6 7",
    ),
    (
        1,
        "self|attr 0 1|coll B|var 1|attr 3 3|attr 4 4|var 2|including 6 5|iter 1 1 2 B(Int) 2 7",
    ),
];
