//! Texts that nest or go on: brackets, nodes and depth at their limits, and chains as
//! long as a sheet.

use super::random::Random;
use super::sentences::{rule, START};

/// So many brackets and `if`s that open, and what closes them.
fn brackets(random: &mut Random, count: usize) -> [String; 2] {
    const WAYS: [[&str; 2]; 5] = [
        ["(", ")"],
        ["Set{", "}->size()"],
        ["if true then ", " else 1 endif"],
        ["if 1 < 2 then 3 else ", " endif"],
        ["Set{1}->iter(v1; v2 : Int = ", " | v2)"],
    ];
    let mut before = String::new();
    let mut after = String::new();
    let mut others = 0;
    for _ in 0..count {
        // Too many that are no brackets would make the rule too deep.
        let way = if others < 8 && random.one_in(6) {
            others += 1;
            WAYS[random.between(1, 4)]
        } else {
            WAYS[0]
        };
        before += way[0];
        after = way[1].to_string() + &after;
    }
    [before, after]
}

/// So many brackets and `if`s open together: closed again, or not, and with closing
/// ones in front, or with words that only look like `if`.
pub fn opened(random: &mut Random, count: usize) -> String {
    // The brackets of a type count too, and are four with the iteration's.
    const TYPED: &str = "Set{1}->iter(v1; v2 : S(S(S(Int))) = Set{} | v2)->size()";
    let typed = random.one_in(6);
    let [before, after] = brackets(random, count - 4 * usize::from(typed));
    let middle = if typed { TYPED } else { "1" };
    match random.below(8) {
        0 => before,
        1 => format!("{}{before}", ")".repeat(random.between(1, 70))),
        2 => format!("{}1 {before}", "endif ".repeat(random.between(1, 9))),
        3 | 4 => format!("{before} {}", "iff ".repeat(random.between(1, 9))),
        _ => format!("{before}{middle}{after}"),
    }
}

/// A tree of so many leaves, as shallow as can be.
pub fn spread(leaves: usize, leaf: &str, sign: &str) -> String {
    match leaves {
        1 => leaf.to_string(),
        _ => {
            let left = spread(leaves / 2, leaf, sign);
            let right = spread(leaves - leaves / 2, leaf, sign);
            format!("({left} {sign} {right})")
        }
    }
}

/// So many nodes in all: in one text, or in a text and in a rule of nodes or of text.
pub fn nodes(random: &mut Random, count: usize) -> String {
    // The definition has two, and a last node makes the number even.
    let text = |count: usize| match count % 2 {
        0 => format!("not {}", spread(count / 2, "true", "and")),
        _ => spread(count.div_ceil(2), "true", "or"),
    };
    let count = count - 2;
    match random.below(3) {
        0 => rule(&text(count)),
        1 => {
            let part = random.between(1, count - 2);
            let other = text(count - part);
            format!("{START}R\t0\t0\nX\t{}\nR\t1\t0\nX\t{other}\n", text(part))
        }
        _ => {
            let other = "N\t0\ttrue\nN\t1\tnot\t0\n";
            if random.one_in(2) {
                return format!("{START}R\t0\t0\n{other}R\t1\t0\nX\t{}\n", text(count - 2));
            }
            format!("{START}R\t0\t0\nX\t{}\nR\t1\t0\n{other}", text(count - 2))
        }
    }
}

/// A text so many levels deep, of type Bool.
pub fn deep(random: &mut Random, depth: usize) -> String {
    const WAYS: [[&str; 2]; 9] = [
        ["not ", ""],
        ["(", ").isUndef()"],
        ["false or (", ")"],
        ["let v1 = ", " in v1"],
        ["let v1 = 1 in ", ""],
        ["if true then true else ", " endif"],
        ["Set{1}->exists(v1 | ", ")"],
        ["Set{true}->includes(", ")"],
        ["Set{1}->iter(v1; v2 : Bool = true | ", ")"],
    ];
    let same = *random.pick(&WAYS);
    let mixed = random.one_in(2);
    let mut text = "true".to_string();
    for _ in 1..depth {
        let [before, after] = if mixed { *random.pick(&WAYS) } else { same };
        // What is not a prefix stands in brackets wherever it is mixed.
        text = if mixed {
            format!("({before}{text}{after})")
        } else {
            format!("{before}{text}{after}")
        };
    }
    text
}

/// A chain of hundreds or thousands, whole or cut short.
pub fn long(random: &mut Random) -> String {
    const CHAINS: [[&str; 3]; 11] = [
        ["not ", "true", ""],
        ["not ", "true", ""],
        ["let v1=", "1", " in 1"],
        ["let v1=", "1", " in 1"],
        ["let v1=1 in ", "1", ""],
        ["let v1=let v2=2 in v2 in ", "1", ""],
        ["", "1", "+1"],
        ["", "true", " or true"],
        ["", "self", ".a5"],
        ["", "Set{}", "->asSet()"],
        ["", "1", "-1*1"],
    ];
    let [before, middle, after] = *random.pick(&CHAINS);
    let room = 48_000 / (before.len() + after.len());
    let most = *random.pick(&[30, 800, room, room]);
    let count = random.between(most / 2, most);
    let cut = if random.one_in(4) { count - 1 } else { count };
    let middle = if random.one_in(5) { "" } else { middle };
    before.repeat(count) + middle + &after.repeat(cut)
}
