//! Sheets about where undefined came from: rules in which it arises in each way, and is
//! handed on through each form.

use super::blanks::{tree, Gives, ALL};
use super::draft::Draft;
use super::limits::steps;
use super::random::Random;

/// Rows of class 0: an Integer, an object, a Set, a truth value, anything. Class 1 is
/// below it.
const ROWS: [(u8, &str); 5] = [
    (5, "Int"),
    (6, "#0"),
    (7, "S(Int)"),
    (8, "Bool"),
    (9, "Any"),
];

/// A sheet of rules and definitions that are often undefined; or one of many steps, of
/// many lines, or of many nodes.
pub fn about(random: &mut Random) -> Vec<u8> {
    match random.below(12) {
        0 => return late(random),
        1 => return many(random),
        2 => return far(random),
        _ => {}
    }
    let mut text = "C\t0\t-\nC\t1\t0\n".to_string();
    for (row, (name, ty)) in ROWS.iter().enumerate() {
        text += &format!("A\t{row}\t0\t{name}\t{ty}\n");
    }
    let objects = random.between(1, 4);
    for object in 0..objects {
        text += &format!("O\t{object}\t{}\n", random.below(2));
    }
    for object in 0..objects {
        for row in 0..ROWS.len() {
            if random.one_in(2) {
                text += &format!("V\t{object}\t{row}\t{}\n", value(random, row, objects));
            }
        }
    }
    let mut defined = Vec::new();
    for number in 0..random.below(4) {
        let gives = any(random);
        text += &format!("D\t{number}\t0\t{}\n", gives.ty());
        text += &tree(random, &defined, gives, 2);
        defined.push(gives);
    }
    for number in 0..random.between(1, 6) {
        let gives = any(random);
        let depth = random.between(0, 4);
        let nodes = tree(random, &defined, gives, depth);
        text += &format!("R\t{number}\t{}\n{nodes}", random.below(2));
    }
    text.into_bytes()
}

/// What a tree gives, mostly a truth value or a number.
fn any(random: &mut Random) -> Gives {
    match random.below(3) {
        0 => Gives::Truth,
        1 => Gives::Number,
        _ => *random.pick(&ALL),
    }
}

fn value(random: &mut Random, row: usize, objects: usize) -> String {
    let number = random.below(3);
    match row {
        0 => number.to_string(),
        1 => format!("@{}", random.below(objects)),
        2 => random
            .pick(&["S()", "S(0)", "S(1,2)", "S(0,1,2)"])
            .to_string(),
        3 => random.pick(&["t", "f"]).to_string(),
        _ => match random.below(3) {
            0 => format!("@{}", random.below(objects)),
            1 => "t".to_string(),
            _ => number.to_string(),
        },
    }
}

/// Undefined at the last step that there can be, or one step too late; at a node with
/// operands, or at one without.
fn late(random: &mut Random) -> Vec<u8> {
    let over = usize::from(random.one_in(3));
    let leaf = random.one_in(2);
    let text = steps(random, if leaf { 999_998 } else { 999_996 } + over);
    let first = text.matches("\nN\t").count();
    let (top, next) = (first - 1, first + 1);
    let tail = if leaf {
        format!("N\t{first}\tundef\nN\t{next}\teq\t{top}\t{first}\n")
    } else {
        // The division begins two steps before the last one.
        let (division, root) = (first + 2, first + 3);
        format!("N\t{first}\tint\t1\nN\t{next}\tint\t0\nN\t{division}\tdiv\t{first}\t{next}\n")
            + &format!("N\t{root}\tlet\t9\t{top}\t{division}\n")
    };
    (text + &tail).into_bytes()
}

/// As many lines as 64 rules and 96 objects have, or some fewer: the program's output
/// holds most of them, and few that are longer.
fn many(random: &mut Random) -> Vec<u8> {
    let objects = *random.pick(&[30, 60, 96]);
    let rules = *random.pick(&[20, 50, 64]);
    let mut text = "C\t0\t-\nA\t0\t0\t5\tInt\n".to_string();
    for object in 0..objects {
        text += &format!("O\t{object}\t0\n");
    }
    // The verdicts of objects without a value are undefined: most of them, or a few.
    let (every, few) = (random.between(2, 40), random.one_in(2));
    for object in (0..objects).filter(|object| (object % every == 1) != few) {
        text += &format!("V\t{object}\t0\t3\n");
    }
    let in_text = random.one_in(2);
    for rule in 0..rules {
        text += &format!("R\t{rule}\t0\n");
        text += if in_text {
            "X\t1 + self.a5\n"
        } else {
            "N\t0\tint\t1\nN\t1\tself\nN\t2\tattr\t1\t5\nN\t3\tplus\t0\t2\n"
        };
    }
    text.into_bytes()
}

/// Undefined somewhere among as many nodes as there can be, behind many other lines.
fn far(random: &mut Random) -> Vec<u8> {
    let mut text = "C\t0\t-\n".to_string();
    for row in 0..64 {
        text += &format!("A\t{row}\t0\t{row}\tInt\n");
    }
    for object in 0..17 {
        text += &format!("O\t{object}\t0\n");
    }
    for value in 0..random.between(900, 1_024) {
        text += &format!("V\t{}\t{}\t{value}\n", value / 64, value % 64);
    }
    let mut draft = Draft::default();
    let mut tops: Vec<usize> = (0..380).map(|_| draft.line("false", &[])).collect();
    let own = draft.line("self", &[]);
    let value = draft.line("attr % 63", &[own]);
    let two = draft.line("int 2", &[]);
    let blank = draft.line("less % %", &[value, two]);
    let place = random.below(tops.len());
    tops.insert(place, blank);
    while tops.len() > 1 {
        let pairs = tops.chunks(2).map(|pair| match pair {
            [left, right] => draft.line("or % %", &[*left, *right]),
            _ => pair[0],
        });
        tops = pairs.collect();
    }
    format!("{text}R\t0\t0\n{}", draft.spell(random)).into_bytes()
}
