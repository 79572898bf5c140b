//! Sheets about rules in text, each about one thing, within a limit or over it.

use super::chains;
use super::random::Random;
use super::texts::scattered;
use crate::read::tokens::tokens;

/// Two classes, attributes 5 and 6, two objects, a value and a definition.
pub const START: &str = "C\t0\t-\nC\t1\t0\nA\t0\t0\t5\tInt\nA\t1\t0\t6\tQ(#0)\nO\t0\t1\nO\t1\t0\n\
    V\t0\t0\t9\nD\t0\t0\tInt\nN\t0\tself\nN\t1\tattr\t0\t5\n";

/// Behind that, a rule of this text.
pub fn rule(text: &str) -> String {
    format!("{START}R\t0\t0\nX\t{text}\n")
}

pub fn about(random: &mut Random) -> String {
    let over = random.one_in(2);
    let more = usize::from(over);
    match random.below(20) {
        0 | 1 => rule(&chains::opened(random, 64 + more)),
        2..=4 => rule(&numbers(random, over)),
        5 | 6 => places(random, over),
        7..=9 => ranks(random),
        10 => rule(&members(random, 4 + more)),
        11 => chains::nodes(random, 768 + more),
        12 => rule(&chains::deep(random, 19 + more)),
        13..=15 => rule(&chains::long(random)),
        16 | 17 => rule(&signs(random)),
        _ => rule(&words(random, over)),
    }
}

/// A number at its limit, or past it, or with a zero in front.
fn numbers(random: &mut Random, over: bool) -> String {
    const LIMITS: [(&str, &str, &str); 13] = [
        ("%", "2147483647", "2147483648"),
        ("1 - %", "2147483647", "2147483648"),
        ("let v% = 1 in v1", "15", "16"),
        ("Set{1}->exists(v% | true)", "1", "0"),
        ("Set{1}->iter(v%; v2 : Int = 0 | 1)", "15", "16"),
        ("self.a%", "5", "256"),
        ("Set{self}->collect(a%)", "5", "256"),
        ("#%.allInstances()", "0", "64"),
        ("self.oclAsType(#%)", "1", "64"),
        ("self.d%()", "0", "32"),
        ("Set{1}->iter(v1; v2 : #% = self | v2)", "0", "64"),
        ("%", "r3ff8000000000000", "r7ff0000000000000"),
        ("1 / %", "r3ff8000000000000", "rfff8000000000000"),
    ];
    const TYPES: [&str; 2] = ["Q(S(B(Int)))", "Q(C(S(B(Int))))"];
    if random.one_in(10) {
        let ty = TYPES[usize::from(over)];
        return format!("Sequence{{}}->iter(v1; v2 : {ty} = Sequence{{}} | v2)");
    }
    let (text, limit, past) = *random.pick(&LIMITS);
    let number = match random.below(6) {
        _ if !over => limit.to_string(),
        0 if limit.starts_with('r') => "r3ff0000000000000".to_string(),
        1 if limit.starts_with('r') => "rFff0000000000000".to_string(),
        0 => format!("0{limit}"),
        1 => "18446744073709551616".to_string(),
        _ => past.to_string(),
    };
    text.replace('%', &number)
}

/// Where no text may stand, or no nodes.
const OVER: [&str; 9] = [
    "%",
    "%",
    "D\t1\t0\tInt\n%",
    "D\t1\t0\tInt\n%N\t0\tint\t1\n",
    "R\t0\t0\nN\t0\ttrue\n%",
    "R\t0\t0\nX\ttrue\n%",
    "R\t0\t0\n%N\t0\ttrue\n",
    "R\t0\t0\n%N\t1\tnot\t0\n",
    "R\t0\t0\n%X\t1\n",
];

/// A text in its place, or where none may stand, and nodes where none may; the text
/// may have a fault of its own.
fn places(random: &mut Random, over: bool) -> String {
    const WITHIN: [&str; 2] = [
        "R\t0\t0\n%",
        "R\t0\t0\n%R\t1\t1\nX\tself\nR\t2\t0\nN\t0\ttrue\n",
    ];
    const TEXTS: [&str; 7] = [
        "true",
        "self.a5 < 12",
        "1 +",
        "v16",
        "#9.allInstances()",
        "Set{1}->iter(v1; v1 : Int = 0 | 1)",
        "self.d31()",
    ];
    let text = if random.one_in(3) {
        chains::deep(random, 20)
    } else {
        random.pick(&TEXTS).to_string()
    };
    let line = format!("X\t{text}\n");
    let place = *random.pick(if over { &OVER[..] } else { &WITHIN });
    // Before everything, between blocks, or in a definition or behind it.
    let start = match random.below(4) {
        0 if place == "%" => "",
        1 | 2 if place == "%" => START.split_once("D\t").map_or("", |(start, _)| start),
        _ => START,
    };
    format!("{start}{}", place.replacen('%', &line, 1))
}

/// Texts with a fault, by its rank.
const FAULTS: [[&str; 3]; 5] = [
    ["1 +", "r3ff0000000000000", "Bag{1, 2, 3, 4, 5}"],
    ["v16", "2147483648", "r7ff0000000000000"],
    [
        "Set{1}->iter(v1; v1 : Int = 0 | 1)",
        "Set{1}->iter(v1; v1 : #9 = 0 | 1)",
        "Set{1}->iter(v2; v2 : Int = 0 | self.d9())",
    ],
    [
        "#9.allInstances()",
        "self.oclAsType(#63)",
        "#2.allInstances()",
    ],
    ["self.d7()", "self.d1()", "self.d31()"],
];

/// Faults of one or two ranks in a text, or one of its whole line.
fn ranks(random: &mut Random) -> String {
    let first = random.below(FAULTS.len());
    // Mostly of two ranks that follow each other.
    let second = if random.one_in(3) {
        random.below(FAULTS.len())
    } else {
        (first + 1) % FAULTS.len()
    };
    let mut faults = [first, second].map(|rank| *random.pick(&FAULTS[rank]));
    random.shuffle(&mut faults);
    let few = if random.one_in(5) { 1 } else { 2 };
    let mut text = format!("Set{{{}}}", faults[..few].join(", "));
    match random.below(16) {
        0 => text = "(".repeat(65) + &text,
        1 => text = "(".repeat(65) + &text + &")".repeat(65),
        2 => text += "\t1",
        _ => {}
    }
    match random.below(10) {
        0 => format!("{START}X\t{text}\n"),
        1 => format!("{START}R\t0\t0\nN\t0\ttrue\nX\t{text}\n"),
        2 => format!("{START}R\t0\t0\nX\n"),
        _ => rule(&text),
    }
}

fn members(random: &mut Random, count: usize) -> String {
    let kind = *random.pick(&["Set", "Sequence", "Bag"]);
    let other = *random.pick(&["Set{}", "Bag{1}", "(1)", "let v1 = 1 in v1", "1"]);
    let mut members = vec!["1"; count];
    members[random.below(count)] = other;
    let listed = format!("{kind}{{{}}}", members.join(", "));
    match random.below(3) {
        0 => format!("Set{{}}->union({listed})"),
        1 => format!("{listed}->size()"),
        _ => listed,
    }
}

/// Operands and signs of all levels without a bracket.
fn signs(random: &mut Random) -> String {
    const NUMBERS: [&str; 5] = ["7", "2", "3", "self.a5", "r3ff8000000000000"];
    const TRUTHS: [&str; 5] = ["true", "false", "undef", "not true", "not not false"];
    let sum = |random: &mut Random| {
        let mut text = random.pick(&NUMBERS[..4]).to_string();
        for _ in 0..random.between(1, 4) {
            let sign = random.pick(&["+", "-", "-", "*", "div", "mod", "/"]);
            text += &format!(" {sign} {}", random.pick(&NUMBERS));
        }
        text
    };
    if random.one_in(3) {
        return sum(random);
    }
    let mut text = String::new();
    for part in 0..random.between(2, 4) {
        if part > 0 {
            text += *random.pick(&[" and ", " or ", " or ", " = "]);
        }
        text += &match random.below(4) {
            0 => {
                let sign = random.pick(&["<", "="]);
                format!("{} {sign} {}", sum(random), sum(random))
            }
            1 => format!("not {} = {}", random.pick(&TRUTHS), random.pick(&TRUTHS)),
            _ => random.pick(&TRUTHS).to_string(),
        };
    }
    if random.one_in(4) {
        return format!(
            "let v1 = {text} in v1 {} {text}",
            random.pick(&["and", "or"])
        );
    }
    text
}

/// Every primary and every step.
const WHOLE: [&str; 20] = [
    "self.a5.isUndef()",
    "self.oclAsType(#1).a5",
    "self.d0()",
    "undef.isUndef()",
    "#0.allInstances()->size()",
    "Set{1, 2}->asBag()",
    "Sequence{2, 1, 2}->asSet()",
    "Bag{}->asSequence()",
    "Set{1}->includes(1 + 0)",
    "Set{1}->including(2)",
    "Bag{1}->union(Bag{1})",
    "#0.allInstances()->collect(a5)",
    "Set{1, 2}->forAll(v1 | v1 < 3)",
    "Set{1, 2}->exists(v15 | v15 = 2)",
    "Set{1, 2}->iter(v1; v2 : Int = 0 | v1 + v2)",
    "Set{1}->iter(v1; v2 : Q(S(Int)) = Sequence{} | v2->including(Set{v1}))",
    "if self.a5 < 9 then 1 else 2 endif",
    "let v1 = 2 in v1 * v1",
    "(1 + 2) * 3 / 4",
    "not true or false and undef",
];

/// Words that run together or fall apart.
const WRONG: [&str; 19] = [
    "1and true",
    "not1",
    "nottrue",
    "v1x",
    "#1#1.allInstances()",
    "# 1.allInstances()",
    "Set{1} - >size()",
    "self.a 5",
    "1 2",
    "let v1=1 inv1",
    "iff true then 1 else 2 endif",
    "- 1",
    "-1 + 2",
    "1 - -1",
    "",
    "  ",
    "1 < 2 < 3",
    "1 + let v1 = 1 in v1",
    "not let v1 = true in v1",
];

/// Every primary and every step, with spaces anywhere; or a text whose words run
/// together or fall apart.
fn words(random: &mut Random, over: bool) -> String {
    if over && !random.one_in(4) {
        return random.pick(&WRONG).to_string();
    }
    let text = *random.pick(&WHOLE);
    let spelt: Vec<String> = (tokens(text.as_bytes()).into_iter())
        .map(|token| String::from_utf8_lossy(token).into_owned())
        .collect();
    scattered(random, &spelt, if over { 0 } else { 4 })
}
