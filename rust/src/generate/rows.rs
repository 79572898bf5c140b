//! Sheets about the rows that rules see.

use super::full::joined;
use super::limits::sequence;
use super::random::Random;

/// Names of Integers that class 0 declares, and class 1 below it again.
const NAMES: usize = 3;
/// The name of a Sequence that is as large as can be.
const LARGE: usize = 9;

/// Nodes for an object of class 1: `#` is one of the names, `%` a definition, which
/// gives an Integer.
const RULES: [&str; 22] = [
    "true",
    "all 1",
    "self|attr 0 #",
    "self|attr 0 #|self|attr 2 #|plus 1 3",
    "self|as 0 0|attr 1 #",
    "all 1|collect 0 #",
    "all 0|asSequence 0|collect 1 #",
    "all 1|self|including 0 1|collect 2 #|size 3",
    "self|call 0 %",
    "self|call 0 %|self|attr 2 #|eq 1 3",
    "all 1|var 1|call 1 %|isUndef 2|exists 0 1 3",
    // Parts that are not run.
    "false|self|attr 1 #|int 7|if 0 2 3",
    "true|int 7|self|attr 2 #|if 0 1 3",
    "false|self|attr 1 #|isUndef 2|and 0 3",
    "true|all 1|collect 1 #|isUndef 2|or 0 3",
    "undef|self|attr 1 #|let 1 0 2",
    "coll S|var 1|self|attr 2 #|eq 1 3|forAll 0 1 4",
    "false|self|call 1 %|int 7|if 0 2 3",
    "undef|self|call 1 %|plus 0 2",
    // Stops.
    "self|attr 0 9|self|attr 2 9|self|attr 4 9|true|forAll 5 3 6|forAll 3 2 7|forAll 1 1 8",
    "self|attr 0 9|coll Q 1",
    "int 2147483647|self|attr 1 #|int 1|plus 0 3|plus 2 4",
];

/// A sheet of rules that see rows in all ways; or one of many rules with many rows.
pub fn about(random: &mut Random) -> String {
    if random.one_in(4) {
        return many(random);
    }
    let mut text = model(random);
    let definitions = random.between(1, 4);
    for number in 0..definitions {
        let nodes = match random.below(3) {
            0 if number > 0 => format!("self|call 0 {}", random.below(number)),
            1 if number > 0 => format!("self|attr 0 #|self|call 2 {}|plus 1 3", number - 1),
            _ => "self|attr 0 #".to_string(),
        };
        let class = random.below(2);
        text += &format!("D\t{number}\t{class}\tInt\n");
        text += &numbered(random, &nodes, definitions);
    }
    for number in 0..random.between(1, 5) {
        let nodes = *random.pick(&RULES);
        text += &format!("R\t{number}\t1\n{}", numbered(random, nodes, definitions));
    }
    text
}

/// Classes, attributes, objects and values.
fn model(random: &mut Random) -> String {
    let mut text = "C\t0\t-\nC\t1\t0\n".to_string();
    let mut rows = Vec::new();
    for name in 0..NAMES {
        for class in 0..2 {
            if random.one_in(2) || class == 0 {
                text += &format!("A\t{}\t{class}\t{name}\tInt\n", rows.len());
                rows.push(class);
            }
        }
    }
    text += &format!("A\t{}\t0\t{LARGE}\tQ(Int)\n", rows.len());
    let classes: Vec<usize> = (0..random.between(1, 4)).map(|_| random.below(2)).collect();
    for (object, class) in classes.iter().enumerate() {
        text += &format!("O\t{object}\t{class}\n");
    }
    for (object, class) in classes.iter().enumerate() {
        for (row, owner) in rows.iter().enumerate() {
            if owner <= class && !random.one_in(4) {
                text += &format!("V\t{object}\t{row}\t{}\n", random.below(20));
            }
        }
        text += &format!("V\t{object}\t{}\t{}\n", rows.len(), sequence(127));
    }
    text
}

/// N lines of nodes that a bar parts, names and definitions put in.
pub fn numbered(random: &mut Random, nodes: &str, definitions: usize) -> String {
    let mut lines = String::new();
    for (node, words) in nodes.split('|').enumerate() {
        let words = words.replace('#', &random.below(NAMES).to_string());
        let words = words.replace('%', &random.below(definitions).to_string());
        lines += &format!("N {node} {words}\n").replace(' ', "\t");
    }
    lines
}

/// As many rows and rules as a sheet can have, or some fewer: a rule sees those of a
/// definition, all or some, or a few of its own.
fn many(random: &mut Random) -> String {
    let few = random.one_in(3);
    let rows = if few { random.between(1, 64) } else { 64 };
    let rules = if few { random.between(1, 64) } else { 64 };
    let all = !few && random.one_in(2);
    let mut text = "C\t0\t-\n".to_string();
    for row in 0..rows {
        // Names go down as rows go up.
        text += &format!("A\t{row}\t0\t{}\tInt\n", rows - 1 - row);
    }
    text += "O\t0\t0\nV\t0\t0\t5\n";
    for number in 0..2 {
        let names: Vec<usize> = (0..rows)
            .filter(|_| number == 0 || random.one_in(3))
            .collect();
        text += &format!("D\t{number}\t0\tBool\n{}", missing(&names));
    }
    for rule in 0..rules {
        text += &format!("R\t{rule}\t0\n");
        text += &match random.below(4) {
            0 if !all => missing(&[random.below(rows), random.below(rows)]),
            1 if !all => "N\t0\tself\nN\t1\tcall\t0\t1\n".to_string(),
            _ => "N\t0\tself\nN\t1\tcall\t0\t0\n".to_string(),
        };
    }
    text
}

/// N lines that ask whether a value is missing in one of the rows with these names.
pub fn missing(names: &[usize]) -> String {
    if names.is_empty() {
        return "N\t0\tfalse\n".to_string();
    }
    let mut text = String::new();
    let mut tops = Vec::new();
    for (at, name) in names.iter().enumerate() {
        let node = 3 * at;
        let (attr, top) = (node + 1, node + 2);
        text += &format!("N\t{node}\tself\nN\t{attr}\tattr\t{node}\t{name}\n");
        text += &format!("N\t{top}\tisUndef\t{attr}\n");
        tops.push(top);
    }
    text + &joined("or", 3 * names.len(), tops)
}
