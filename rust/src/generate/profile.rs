//! Sheets about the free-numbering profile.

use super::random::Random;
use crate::calls::LONGEST_SHEET;

/// The types of class 0's attributes, with names from 1 on.
const TYPES: [&str; 8] = [
    "Int", "#0", "Q(#0)", "S(#0)", "C(#0)", "B(Int)", "S(Q(#0))", "Q(Int)",
];

/// Nodes of an Integer for an object of class 0, not all of them in the profile; `%` is
/// a definition.
const INTEGERS: [&str; 17] = [
    "int 4",
    "self|attr 0 1",
    "all 0|size 0",
    "self|attr 0 3|size 1",
    "self|call 0 %",
    "self|attr 0 2|call 1 %",
    "self|attr 0 4|self|including 1 2|size 3",
    "self|attr 0 6|self|attr 2 6|union 1 3|size 4",
    "self|attr 0 5|collect 1 1|size 2",
    "self|attr 0 3|asSequence 1|size 2",
    "coll Q|self|including 0 1|size 2",
    "coll Q|coll Q|union 0 1|size 2",
    "self|attr 0 3|collect 1 1|size 2",
    "all 0|int 0|var 2|iter 0 1 2 Int 1 3",
    "self|attr 0 8|int 0|var 2|int 1|plus 3 4|iter 1 1 2 Int 2 5",
    "false|all 0|asSequence 1|size 2|int 7|if 0 3 4",
    "true|int 7|self|call 2 %|if 0 1 3",
];

/// Nodes in the profile.
const INSIDE: [&str; 27] = [
    "self",
    "self|attr 0 2",
    "all 1",
    "all 0|self|including 0 1",
    "all 0|all 1|union 0 1",
    "self|attr 0 4|self|attr 2 4|union 1 3",
    "self|attr 0 6|int 3|including 1 2",
    "all 0|collect 0 2",
    "self|attr 0 4|collect 1 1",
    "self|attr 0 5|collect 1 2",
    "all 0|asBag 0|collect 1 2|asSet 2",
    "self|attr 0 3",
    "self|attr 0 3|asSet 1",
    "self|attr 0 3|asBag 1|self|including 2 3",
    "self|self|attr 1 2|coll Q 0 2",
    "all 0|all 1|coll S 0 1",
    "self|attr 0 3|self|coll Q 2|coll B 1 3",
    "self|attr 0 7",
    "self|attr 0 3|var 1|attr 2 1|int 5|less 3 4|forAll 1 1 5",
    "all 0|var 1|attr 1 1|int 5|less 2 3|exists 0 1 4",
    "self|attr 0 3|self|includes 1 2",
    "self|attr 0 3|self|attr 2 3|eq 1 3",
    "all 0|var 1|call 1 %|isUndef 2|forAll 0 1 3",
    // A stop or what decides, whichever comes first.
    "all 0|var 1|attr 1 1|int 2147483640|plus 2 3|int 0|less 4 5|forAll 0 1 6",
    "all 0|var 1|attr 1 1|int 2147483640|plus 2 3|int 0|less 5 4|exists 0 1 6",
    "self|attr 0 4|var 1|attr 2 1|int 2147483640|plus 3 4|int 0|less 5 6|forAll 1 1 7",
    "all 0|self|attr 1 2|includes 0 2",
];

/// Nodes outside of it, several in some of them.
const OUTSIDE: [&str; 12] = [
    "all 0|asSequence 0",
    "self|attr 0 3|self|including 1 2",
    "self|attr 0 3|self|attr 2 3|union 1 3",
    "self|attr 0 3|collect 1 2",
    "self|attr 0 3|asSequence 1",
    "self|attr 0 8|int 5|including 1 2",
    "self|attr 0 3|var 1|collect 2 1|let 1 1 3",
    "self|attr 0 7|var 1|self|including 2 3|size 4|int 9|less 5 6|forAll 1 1 7",
    "all 0|coll Q|var 2|var 1|including 2 3|iter 0 1 2 Q(#0) 1 4",
    "all 0|asSequence 0|all 1|asSequence 2|union 1 3",
    // The node that is met first has the higher line.
    "all 0|asSequence 0|coll Q|self|including 2 3|union 4 1",
    "all 0|asSequence 0|size 1|self|call 3 %|less 4 2",
];

/// Nodes without a type: 13, and what else goes before 22.
const UNTYPED: [&str; 4] = [
    "coll S|coll S 0|coll S 1|coll S 2",
    "self|attr 0 7|coll Q 1|asSequence 2|coll B 3",
    "var 1",
    "self|attr 0 9",
];

/// A sheet of rules and definitions in the profile and outside of it; or one that other
/// numbers make too long.
pub fn about(random: &mut Random) -> String {
    if random.one_in(16) {
        return longest(random);
    }
    let mut text = model(random);
    let definitions = random.below(4);
    for number in 0..definitions {
        let nodes = *random.pick(&INTEGERS);
        text += &format!("D\t{number}\t0\tInt\n{}", numbered(random, nodes, number));
    }
    text + &rules(random, definitions)
}

/// Classes, attributes, objects and values.
fn model(random: &mut Random) -> String {
    let mut text = "C\t0\t-\nC\t1\t0\n".to_string();
    for (row, ty) in TYPES.iter().enumerate() {
        text += &format!("A\t{row}\t0\t{}\t{ty}\n", row + 1);
    }
    let objects = if random.one_in(5) {
        random.between(10, 13)
    } else {
        random.between(1, 5)
    };
    for object in 0..objects {
        text += &format!("O\t{object}\t{}\n", random.below(2));
    }
    for object in 0..objects {
        for row in 0..TYPES.len() {
            if !random.one_in(4) {
                let value = value(random, row, objects);
                text += &format!("V\t{object}\t{row}\t{value}\n");
            }
        }
    }
    text
}

fn rules(random: &mut Random, definitions: usize) -> String {
    let mut text = String::new();
    let only_inside = random.one_in(3);
    for number in 0..random.between(1, 4) {
        let nodes: &[&str] = match random.below(10) {
            0..=4 => &INSIDE,
            5 | 6 => &INTEGERS,
            _ if only_inside => &INSIDE,
            9 if random.one_in(3) => &UNTYPED,
            _ => &OUTSIDE,
        };
        let nodes = *random.pick(nodes);
        let class = random.below(2);
        let nodes = numbered(random, nodes, definitions);
        text += &format!("R\t{number}\t{class}\n{nodes}");
    }
    text
}

/// N lines of nodes that a bar parts, one of so many definitions put in; an Integer
/// where there is none.
fn numbered(random: &mut Random, nodes: &str, definitions: usize) -> String {
    if nodes.contains('%') && definitions == 0 {
        return "N\t0\tint\t4\n".to_string();
    }
    let mut lines = String::new();
    for (node, words) in nodes.split('|').enumerate() {
        let called = random.below(definitions.max(1)).to_string();
        let words = words.replace('%', &called);
        lines += &format!("N {node} {words}\n").replace(' ', "\t");
    }
    lines
}

/// A value of the row, one of so many objects in it.
fn value(random: &mut Random, row: usize, objects: usize) -> String {
    let mut some: Vec<usize> = (0..objects).filter(|_| random.one_in(2)).collect();
    some.truncate(6);
    let spelled = |members: &[usize]| {
        let members: Vec<String> = members.iter().map(|object| format!("@{object}")).collect();
        members.join(",")
    };
    match TYPES[row] {
        "Int" => random.below(12).to_string(),
        "#0" => format!("@{}", random.below(objects)),
        "S(#0)" => format!("S({})", spelled(&some)),
        "C(#0)" => format!("{}({})", random.pick(&["S", "Q", "B"]), spelled(&some)),
        "B(Int)" => "B(2,3,3)".to_string(),
        "S(Q(#0))" => {
            let last = random.below(objects);
            format!("S(Q(),Q(@{last}),Q({},@{last}))", spelled(&[0]))
        }
        "Q(Int)" => "Q(3,1,3)".to_string(),
        _ => {
            random.shuffle(&mut some);
            format!("Q({})", spelled(&some))
        }
    }
}

/// As long as a sheet may be, with an object that is named many times: with a number of
/// another length in its place the sheet is too long, or shorter.
fn longest(random: &mut Random) -> String {
    let mut text = "C\t0\t-\nA\t0\t0\t1\tQ(#0)\n".to_string();
    for object in 0..11 {
        text += &format!("O\t{object}\t0\n");
    }
    let named = vec![format!("@{}", random.below(11)); 60].join(",");
    text += &format!("V\t0\t0\tQ({named})\nR\t0\t0\nX\t");
    let rule = "self.a1->exists(v1 | v1 = self)\n";
    text += &" ".repeat(LONGEST_SHEET - text.len() - rule.len());
    text + rule
}
