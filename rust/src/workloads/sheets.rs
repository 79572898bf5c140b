//! Sheets that are all about one thing: reading, typing, steps or values.

use super::sheet;
use crate::generate::full::{collections, joined};
use crate::generate::limits::sequence;
use crate::generate::rows::missing;

/// Objects with a Sequence of 60 Integers each, and with single Integers.
pub fn values(objects: usize, integers: usize) -> Vec<u8> {
    let mut text = "C 0 -|C 1 -|A 0 0 0 Q(Int)|".to_string();
    for row in 1..=integers {
        text += &format!("A {row} 0 {row} Int|");
    }
    for object in 0..objects {
        text += &format!("O {object} 0|");
    }
    let long = ["-2147483648"; 60].join(",");
    for object in 0..objects {
        text += &format!("V {object} 0 Q({long})|");
        for row in 1..=integers {
            text += &format!("V {object} {row} -2147483648|");
        }
    }
    sheet(text)
}

/// A sheet of one rule: this many collections of four Integers, joined.
pub fn nodes(groups: usize) -> Vec<u8> {
    [sheet("C 0 -|O 0 0|".to_string()), nodes_of(groups, 0)].concat()
}

/// The rule alone, its class given.
pub fn nodes_of(groups: usize, class: usize) -> Vec<u8> {
    let nodes = collections(groups, "-2147483648");
    sheet(format!("R 0 {class}|{nodes}"))
}

/// Attributes found far up a long chain of classes, compared in this many pairs.
pub fn types(pairs: usize) -> Vec<u8> {
    let mut text = "C 0 -|".to_string();
    for class in 1..64 {
        text += &format!("C {class} {}|", class - 1);
    }
    for row in 0..64 {
        text += &format!("A {row} 0 {row} #{}|", 63 - row);
    }
    text += "O 0 63|R 0 63|";
    let mut tops = Vec::new();
    let mut node = 0;
    for pair in 0..pairs {
        for side in 0..2 {
            let class = 63 - (pair + side) % 8;
            let name = (pair * 7 + side * 31) % 64;
            text += &format!("N {node} self|N {} as {node} {class}|", node + 1);
            text += &format!("N {} attr {} {name}|", node + 2, node + 1);
            node += 3;
        }
        text += &format!("N {node} eq {} {}|", node - 4, node - 1);
        tops.push(node);
        node += 1;
    }
    text += &joined("and", node, tops);
    sheet(text)
}

/// This many rules that see 64 rows through five definitions, all but the first of
/// which call the one before them twice.
pub fn rows(rules: usize) -> Vec<u8> {
    let names: Vec<usize> = (0..64).collect();
    let declared = names.iter().map(|name| format!("A {name} 0 {name} Int|"));
    let mut text = "C 0 -|".to_string() + &declared.collect::<String>();
    text += &format!("D 0 0 Bool|{}", missing(&names));
    for called in 0..4 {
        text += &format!("D {} 0 Bool|N 0 self|N 1 call 0 {called}|", called + 1);
        text += &format!("N 2 self|N 3 call 2 {called}|N 4 or 1 3|");
    }
    for rule in 0..rules {
        text += &format!("R {rule} 0|N 0 self|N 1 call 0 4|");
    }
    sheet(text)
}

/// This many rules that are undefined for each of 50 objects, by the last of them.
pub fn blank(rules: usize) -> Vec<u8> {
    let lines = (0..50).map(|object| format!("O {object} 0|"));
    let values = (0..49).map(|object| format!("V {object} 0 2|"));
    let mut text = "C 0 -|A 0 0 0 Int|".to_string();
    text.extend(lines.chain(values));
    for rule in 0..rules {
        text += &format!("R {rule} 0|N 0 all 0|N 1 var 1|N 2 attr 1 0|N 3 int 3|");
        text += "N 4 less 2 3|N 5 forAll 0 1 4|";
    }
    sheet(text)
}

fn objects(count: usize) -> String {
    let lines = (0..count).map(|object| format!("O {object} {}|", usize::from(object > 0)));
    "C 1 0|".to_string() + &lines.collect::<String>()
}

/// Three quantifiers inside each other over this many objects.
pub fn quantifiers(count: usize) -> Vec<u8> {
    let nodes = "N 0 all 0|N 1 all 0|N 2 all 0|N 3 true|\
        N 4 forAll 2 3 3|N 5 forAll 1 2 4|N 6 forAll 0 1 5|";
    sheet(format!("C 0 -|{}R 0 0|{nodes}", objects(count)))
}

/// Three iterations inside each other over this many objects, counting them.
pub fn iterations(count: usize) -> Vec<u8> {
    sums(count, "Int", "int 1")
}

/// The same with a tenth for each, so that every sum is of Reals.
pub fn real_iterations(count: usize) -> Vec<u8> {
    sums(count, "Real", "real r3fb999999999999a")
}

fn sums(count: usize, ty: &str, one: &str) -> Vec<u8> {
    let nodes = format!(
        "N 0 all 0|N 1 int 0|N 2 all 0|N 3 int 0|N 4 all 0|N 5 int 0|\
        N 6 var 6|N 7 {one}|N 8 plus 6 7|N 9 iter 4 5 6 {ty} 5 8|\
        N 10 var 4|N 11 plus 10 9|N 12 iter 2 3 4 {ty} 3 11|\
        N 13 var 2|N 14 plus 13 12|N 15 iter 0 1 2 {ty} 1 14|"
    );
    sheet(format!("C 0 -|{}R 0 0|{nodes}", objects(count)))
}

/// A hundred times a hundred unions and inclusions in a Set of this many members.
pub fn sets(members: usize) -> Vec<u8> {
    let full = sequence(members).replacen('Q', "S", 1);
    repeated(
        "S",
        &full,
        "N 4 var 2|N 5 self|N 6 attr 5 1|N 7 union 4 6|N 8 var 1|N 9 including 7 8|",
    )
}

/// A hundred times a hundred unions and conversions of a Bag of this many members.
pub fn bags(members: usize) -> Vec<u8> {
    let full = sequence(members).replacen('Q', "B", 1);
    repeated(
        "B",
        &full,
        "N 4 var 2|N 5 self|N 6 attr 5 1|N 7 union 4 6|N 8 asSet 7|N 9 asBag 8|",
    )
}

/// A hundred times a hundred times, the attribute of all members of a Sequence of this many objects.
pub fn collected(members: usize) -> Vec<u8> {
    let nodes = "N 0 self|N 1 attr 0 1|N 2 self|N 3 attr 2 1|N 4 int 0|N 5 self|N 6 attr 5 2|\
        N 7 collect 6 0|N 8 size 7|N 9 less 4 8|N 10 forAll 3 1 9|N 11 forAll 1 2 10|";
    sheet(format!(
        "C 0 -|A 0 0 0 Int|A 1 0 1 Q(Int)|A 2 0 2 Q(#0)|O 0 0|V 0 0 7|V 0 1 Q({})|V 0 2 Q({})|R 0 0|{nodes}",
        ["1"; 100].join(","),
        vec!["@0"; members].join(",")
    ))
}

/// A body, its root node 9, run in an iteration inside a quantifier.
fn repeated(letter: &str, full: &str, body: &str) -> Vec<u8> {
    let times: Vec<String> = (0..100).map(|n| (n % 10).to_string()).collect();
    sheet(format!(
        "C 0 -|A 0 0 0 Q(Int)|A 1 0 1 {letter}(Int)|O 0 0|V 0 0 Q({})|V 0 1 {full}|R 0 0|\
        N 0 self|N 1 attr 0 0|N 2 self|N 3 attr 2 1|{body}\
        N 10 iter 1 1 2 {letter}(Int) 3 9|N 11 size 10|N 12 int 0|N 13 less 12 11|\
        N 14 self|N 15 attr 14 0|N 16 forAll 15 3 13|",
        times.join(",")
    ))
}
