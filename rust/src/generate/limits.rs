//! Sheets at a limit, or over it by one.

use super::definitions::{deep, defined, many, redeclared, shared_nodes, MOST_DEFINITIONS};
use super::draft::Draft;
use super::full::full;
use super::random::Random;
use super::reals;
use crate::tree::DEEPEST_RULE;

pub const KINDS: usize = 27;
/// The kinds whose sheets have rules that are about values, steps or depth.
pub const OF_RULES: [usize; 9] = [5, 8, 10, 11, 14, 15, 21, 22, 23];
/// The kinds that are about definitions.
pub const OF_DEFINITIONS: [usize; 5] = [16, 17, 18, 19, 20];
/// The kinds that are about Reals, those that can go in most ways more often.
pub const OF_REALS: [usize; 11] = [21, 21, 21, 22, 22, 23, 24, 24, 24, 25, 25];

/// A sheet at the limit of the kind, or one over it.
pub fn limit(random: &mut Random, kind: usize) -> Vec<u8> {
    let over = usize::from(random.one_in(2));
    let text = match kind {
        0 => lines(64 + over, |n| format!("C\t{n}\t-")),
        1 => "C\t0\t-\n".to_string() + &lines(64 + over, |n| format!("A\t{n}\t0\t{n}\tInt")),
        2 => "C\t0\t-\n".to_string() + &lines(96 + over, |n| format!("O\t{n}\t0")),
        3 => many_values(1_024 + over),
        4 => value_sizes(over),
        5 => {
            let size = random.between(126, 127) + over;
            one_value("Q(Int)", &sequence(size)) + "R\t0\t0\nN\t0\tself\nN\t1\tattr\t0\t0\n"
        }
        6 => rules(64) + if over == 1 { "N\t12\tnot\t11\n" } else { "" },
        7 => short_rules(random, 64 + over),
        8 => deep_rule(random, DEEPEST_RULE + over),
        9 => return full(49_152 + over, 128),
        10 => steps(random, 1_000_000 + over),
        11 => formed_size(random, over),
        12 => nested(random, 3 + over),
        13 => long_report(random),
        14 => range_end(random, over == 1),
        15 => collected_size(random, over),
        16 => many(random, MOST_DEFINITIONS + over),
        17 => deep(random, DEEPEST_RULE + over),
        18 => shared_nodes() + if over == 1 { "N\t12\tnot\t11\n" } else { "" },
        19 => {
            // The rule that calls takes two steps of its own, or more.
            let text = steps(random, 999_998 + over).into_bytes();
            return defined(random, &text).unwrap_or(text);
        }
        20 => redeclared(random),
        21..=25 => reals::about(random, kind - 21, over),
        _ => members(random, 4 + over),
    };
    text.into_bytes()
}

/// A collection of so many members.
fn members(random: &mut Random, count: usize) -> String {
    let operands: String = (0..count).map(|n| format!("\t{n}")).collect();
    let ints = lines(count, |n| format!("N\t{n}\tint\t{n}"));
    let kind = random.pick(&["S", "Q", "B"]);
    format!("C\t0\t-\nO\t0\t0\nR\t0\t0\n{ints}N\t{count}\tcoll\t{kind}{operands}\n")
}

/// Two values that `collect` makes a collection of 128 cells of, or 129; a
/// third object may have none, which goes before the size.
fn collected_size(random: &mut Random, over: usize) -> String {
    let first = random.between(1, 126);
    let second = 125 + over - (first - 1);
    let third = if random.one_in(3) { "O\t2\t0\n" } else { "" };
    let change = random.pick(&["asBag", "asSequence"]);
    "C\t0\t-\nA\t0\t0\t0\tQ(Int)\nO\t0\t0\nO\t1\t0\n".to_string()
        + third
        + &format!("V\t0\t0\t{}\n", sequence(first - 1))
        + &format!("V\t1\t0\t{}\n", sequence(second))
        + &format!("R\t0\t0\nN\t0\tall\t0\nN\t1\t{change}\t0\nN\t2\tcollect\t1\t0\n")
}

fn lines(count: usize, line: impl Fn(usize) -> String) -> String {
    (0..count).map(|n| line(n) + "\n").collect()
}

pub fn sequence(count: usize) -> String {
    let members: Vec<String> = (0..count).map(|n| n.to_string()).collect();
    format!("Q({})", members.join(","))
}

/// One class, one row, one object and its value: 4 lines.
pub fn one_value(ty: &str, value: &str) -> String {
    format!("C\t0\t-\nA\t0\t0\t0\t{ty}\nO\t0\t0\nV\t0\t0\t{value}\n")
}

fn many_values(count: usize) -> String {
    "C\t0\t-\n".to_string()
        + &lines(64, |n| format!("A\t{n}\t0\t{n}\tInt"))
        + &lines(17, |n| format!("O\t{n}\t0"))
        + &lines(count, |n| format!("V\t{}\t{}\t{n}", n / 64, n % 64))
}

fn value_sizes(over: usize) -> String {
    let value = sequence(127);
    let last = if over == 1 { "V\t0\t16\tQ()\n" } else { "" };
    "C\t0\t-\n".to_string()
        + &lines(17, |n| format!("A\t{n}\t0\t{n}\tQ(Int)"))
        + "O\t0\t0\n"
        + &lines(16, |n| format!("V\t0\t{n}\t{value}"))
        + last
}

/// N lines of a chain this many nodes deep.
fn chain(depth: usize) -> String {
    "N\t0\ttrue\n".to_string() + &lines(depth - 1, |n| format!("N\t{}\tnot\t{n}", n + 1))
}

/// A rule so many nodes deep, through the last operand of a form.
fn deep_rule(random: &mut Random, depth: usize) -> String {
    // A form, and the leaves that are its other operands.
    const WAYS: [(&str, &[&str]); 7] = [
        ("not %", &[]),
        ("coll Q %", &[]),
        ("or % %", &["false"]),
        ("let 1 % %", &["int 1"]),
        ("if % % %", &["true", "true"]),
        ("forAll % 1 %", &["all 0"]),
        ("iter % 1 2 Bool % %", &["all 0", "false"]),
    ];
    let (form, leaves) = *random.pick(&WAYS);
    let mut draft = Draft::default();
    let mut top = draft.line("true", &[]);
    for _ in 1..depth {
        let mut operands: Vec<usize> = leaves.iter().map(|leaf| draft.line(leaf, &[])).collect();
        operands.push(top);
        top = draft.line(form, &operands);
    }
    format!("C\t0\t-\nO\t0\t0\nR\t0\t0\n{}", draft.spell(random))
}

fn rules(count: usize) -> String {
    let chain = chain(12);
    "C\t0\t-\nO\t0\t0\n".to_string() + &lines(count, |n| format!("R\t{n}\t0\n{}", chain.trim_end()))
}

/// So many short rules of various types, the longest spelling among them; one of
/// the rules may not type.
fn short_rules(random: &mut Random, count: usize) -> String {
    const NODES: [&str; 6] = [
        "N\t0\ttrue\n",
        "N\t0\tundef\n",
        "N\t0\tself\n",
        "N\t0\tall\t0\n",
        "N\t0\tint\t7\nN\t1\tcoll\tQ\t0\n",
        "N\t0\tcoll\tS\nN\t1\tcoll\tQ\t0\nN\t2\tcoll\tB\t1\n",
    ];
    let longest = random.one_in(3);
    let untyped = random.one_in(3).then(|| random.below(count));
    let mut text = "C\t0\t-\nO\t0\t0\n".to_string();
    for rule in 0..count {
        let nodes = match untyped {
            Some(untyped) if untyped == rule => "N\t0\tvar\t1\n",
            _ if longest => NODES[5],
            _ => random.pick(&NODES),
        };
        text += &format!("R\t{rule}\t0\n{nodes}");
    }
    text
}

/// Three quantifiers inside each other and a few nodes around them, so that
/// the rule takes exactly this many steps.
pub fn steps(random: &mut Random, steps: usize) -> String {
    let mut found = Vec::new();
    for wraps in 1..7 {
        for a in 60..128 {
            for b in 60..128 {
                let Some(rest) = (steps - wraps - 3).checked_sub(a * (3 + 3 * b)) else {
                    continue;
                };
                if rest % (a * b) == 0 && (1..128).contains(&(rest / (a * b))) {
                    found.push((wraps, a, b, rest / (a * b)));
                }
            }
        }
    }
    let (wraps, a, b, c) = *random.pick(&found);
    let mut text = "C\t0\t-\n".to_string();
    text += &lines(3, |n| format!("A\t{n}\t0\t{n}\tQ(Int)"));
    text += "O\t0\t0\n";
    for (row, count) in [a, b, c].into_iter().enumerate() {
        text += &format!("V\t0\t{row}\t{}\n", sequence(count));
    }
    let (form, body) = *random.pick(&[("forAll", "true"), ("exists", "false")]);
    text += "R\t0\t0\n";
    for row in 0..3 {
        text += &format!(
            "N\t{}\tself\nN\t{}\tattr\t{}\t{row}\n",
            2 * row,
            2 * row + 1,
            2 * row
        );
    }
    text += &format!("N\t6\t{body}\n");
    text += &format!("N\t7\t{form}\t5\t3\t6\nN\t8\t{form}\t3\t2\t7\nN\t9\t{form}\t1\t1\t8\n");
    text + &lines(wraps, |n| format!("N\t{}\tisUndef\t{}", n + 10, n + 9))
}

/// A value of size 128 or 129 formed by including, a union or a collection.
fn formed_size(random: &mut Random, over: usize) -> String {
    let kind = *random.pick(&["S", "Q", "B"]);
    let form = random.below(3);
    let count = [126, 62, 62][form] + over;
    let value = sequence(count).replacen('Q', kind, 1);
    let tail = match form {
        0 => "N\t2\tint\t1000\nN\t3\tincluding\t1\t2\n".to_string(),
        1 => {
            // 62 members twice and two or three more: 127 or 128, or two over.
            let extra = random.between(0, 1);
            let mut text = String::new();
            let mut node = 2;
            let mut top = 1;
            for n in 0..2 + extra {
                text += &format!("N\t{node}\tint\t{}\n", 2_000 + n);
                text += &format!("N\t{}\tincluding\t{top}\t{node}\n", node + 1);
                top = node + 1;
                node += 2;
            }
            text + &format!("N\t{node}\tself\nN\t{}\tattr\t{node}\t0\n", node + 1)
                + &format!("N\t{}\tunion\t{top}\t{}\n", node + 2, node + 1)
        }
        _ => format!("N\t2\tself\nN\t3\tattr\t2\t0\nN\t4\tcoll\t{kind}\t1\t3\n"),
    };
    one_value(&format!("{kind}(Int)"), &value) + "R\t0\t0\nN\t0\tself\nN\t1\tattr\t0\t0\n" + &tail
}

/// An operation at an end of the range, or over it; in some rules below a form
/// that would hide undefined, or in an operand that may not be run.
fn range_end(random: &mut Random, over: bool) -> String {
    const WITHIN: [[&str; 3]; 8] = [
        ["2147483647", "plus", "0"],
        ["-2147483648", "plus", "0"],
        ["-1", "minus", "2147483647"],
        ["2147483647", "minus", "0"],
        ["65536", "times", "-32768"],
        ["-2147483648", "div", "1"],
        ["-2147483648", "div", "0"],
        ["-2147483648", "mod", "-1"],
    ];
    const OVER: [[&str; 3]; 8] = [
        ["2147483647", "plus", "1"],
        ["-2147483648", "plus", "-1"],
        ["-2", "minus", "2147483647"],
        ["2147483647", "minus", "-1"],
        ["65536", "times", "32768"],
        ["65536", "times", "-32769"],
        ["-46341", "times", "-46341"],
        ["-2147483648", "div", "-1"],
    ];
    let [left, form, right] = *random.pick(if over { &OVER } else { &WITHIN });
    let tails = [
        "",
        "N\t3\tisUndef\t2\n",
        "N\t3\tisUndef\t2\nN\t4\tfalse\nN\t5\tand\t3\t4\n",
        "N\t3\tisUndef\t2\nN\t4\tfalse\nN\t5\tand\t4\t3\n",
        "N\t3\tisUndef\t2\nN\t4\tundef\nN\t5\tor\t4\t3\n",
        "N\t3\ttrue\nN\t4\tint\t1\nN\t5\tif\t3\t4\t2\n",
        "N\t3\tfalse\nN\t4\tint\t1\nN\t5\tif\t3\t4\t2\n",
        "N\t3\tall\t0\nN\t4\tisUndef\t2\nN\t5\texists\t3\t1\t4\n",
        "N\t3\tint\t0\nN\t4\tdiv\t2\t3\n",
    ];
    let tail = random.pick(&tails);
    format!("C\t0\t-\nO\t0\t0\nR\t0\t0\nN\t0\tint\t{left}\nN\t1\tint\t{right}\nN\t2\t{form}\t0\t1\n{tail}")
}

/// A type, a value or collection forms nested this deep.
fn nested(random: &mut Random, deep: usize) -> String {
    let open: String = (0..deep)
        .map(|_| *random.pick(&["S(", "Q(", "B("]))
        .collect();
    let close = ")".repeat(deep);
    match random.below(3) {
        0 => format!("C\t0\t-\nA\t0\t0\t0\t{open}Int{close}\n"),
        1 => one_value("S(S(S(Int)))", &format!("{}1{close}", "S(".repeat(deep))),
        _ => {
            "C\t0\t-\nO\t0\t0\nR\t0\t0\nN\t0\tint\t1\n".to_string()
                + &lines(deep, |n| format!("N\t{}\tcoll\tS\t{n}", n + 1))
        }
    }
}

/// A report near the program's 65,536 output bytes.
fn long_report(random: &mut Random) -> String {
    let value = ["-2147483648"; 127].join(",");
    let objects = random.between(40, 46);
    "C\t0\t-\nC\t1\t-\nA\t0\t0\t0\tQ(Int)\nA\t1\t1\t0\t#0\n".to_string()
        + "O\t0\t0\n"
        + &lines(objects, |n| format!("O\t{}\t1", n + 1))
        + &format!("V\t0\t0\tQ({value})\n")
        + &lines(objects, |n| format!("V\t{}\t1\t@0", n + 1))
        + "R\t0\t1\nN\t0\tself\nN\t1\tattr\t0\t0\nN\t2\tattr\t1\t0\n"
}
