//! Sheets about Reals: their spelling, their order and what is computed with them.

use super::limits::one_value;
use super::operands::operands;
use super::random::Random;
use super::world::{any_integer, any_real, spelt_real};
use crate::numbers::Number;

/// What may stand above an operation: forms that would hide undefined, or use the
/// number in a way that shows which value it is.
const TAILS: [&str; 9] = [
    "",
    "",
    "N\t3\tisUndef\t2\n",
    "N\t3\tisUndef\t2\nN\t4\tfalse\nN\t5\tand\t3\t4\n",
    "N\t3\tint\t2\nN\t4\ttimes\t2\t3\n",
    "N\t3\tint\t1\nN\t4\teq\t2\t3\n",
    "N\t3\tint\t1\nN\t4\tint\t2\nN\t5\tcoll\tS\t4\t2\t3\n",
    "N\t3\tint\t0\nN\t4\tover\t2\t3\n",
    "N\t3\tself\nN\t4\ttrue\nN\t5\tif\t4\t2\t3\nN\t6\tas\t5\t0\n",
];

/// Operands that one operation tells much about: ties and next to them, ends of the
/// range, results that are whole, too small or infinite.
const PAIRS: [[&str; 3]; 25] = [
    ["real\tr7fefffffffffffff", "plus", "real\tr7fefffffffffffff"],
    ["real\tr7fefffffffffffff", "plus", "real\tr7c90000000000000"],
    ["real\tr7fefffffffffffff", "plus", "real\tr7c8fffffffffffff"],
    ["real\tr7fefffffffffffff", "times", "int\t-2"],
    ["real\tr7fefffffffffffff", "over", "real\tr3fe0000000000000"],
    ["real\tr0000000000000001", "over", "int\t2"],
    ["real\tr8000000000000001", "over", "int\t2"],
    ["real\tr0000000000000003", "over", "int\t2"],
    ["real\tr0010000000000000", "over", "int\t2"],
    ["int\t1", "plus", "real\tr3ca0000000000000"],
    ["real\tr3ff0000000000001", "plus", "real\tr3ca0000000000000"],
    ["real\tr3fefffffffffffff", "plus", "real\tr3ca0000000000000"],
    [
        "real\tr3ff8000000000000",
        "times",
        "real\tr3ff0000000000001",
    ],
    ["real\tr4340000000000000", "plus", "int\t1"],
    ["real\tr4340000000000001", "plus", "int\t1"],
    ["real\tr41e0000000000000", "minus", "int\t1"],
    ["int\t-2147483648", "minus", "real\tr3fe0000000000000"],
    [
        "real\tr3ff8000000000000",
        "minus",
        "real\tr3ff8000000000000",
    ],
    [
        "real\tr41dfffffffe00000",
        "minus",
        "real\tr3fe0000000000000",
    ],
    ["real\trc1e0000000100000", "plus", "real\tr3fe0000000000000"],
    ["real\tr3ff0000000000001", "plus", "real\tr3c9fffffffffffff"],
    [
        "real\tr3fefffffffffffff",
        "times",
        "real\tr3ff0000000000001",
    ],
    ["int\t1", "over", "real\tr3fefffffffffffff"],
    ["int\t6", "over", "int\t-3"],
    ["int\t0", "over", "int\t0"],
];

/// A sheet about one of five things, within a limit or over it.
pub fn about(random: &mut Random, what: usize, over: usize) -> String {
    match what {
        0 => operation(random),
        1 => widened(random),
        2 => longest(random, over),
        3 => spelling(random, over == 1),
        _ => members(random, over == 1),
    }
}

fn leaf(random: &mut Random) -> String {
    if random.one_in(3) {
        format!("int\t{}", any_integer(random))
    } else {
        format!("real\t{}", spelt_real(any_real(random)))
    }
}

/// The leaf of a number that may be minus zero.
fn leaf_of(number: f64) -> String {
    let number = Number::of(number).expect("a finite number");
    let form = if number.integer().is_some() {
        "int"
    } else {
        "real"
    };
    format!("{form}\t{}", spelt_real(number))
}

/// A sheet with one object and no rules yet.
const START: &str = "C\t0\t-\nO\t0\t0\n";

/// One operation, chosen or by chance, and what may be done with its result; or the same
/// two numbers in every operation, each in a rule.
fn operation(random: &mut Random) -> String {
    let (left, form, right) = match random.below(4) {
        0 => {
            let [left, form, right] = *random.pick(&PAIRS);
            (left.to_string(), form, right.to_string())
        }
        1 => {
            let form = *random.pick(&["plus", "minus", "times", "over", "over", "less"]);
            (leaf(random), form, leaf(random))
        }
        _ => {
            let [left, right] = operands(random).map(leaf_of);
            let forms = ["plus", "minus", "times", "over", "less"];
            let rules = forms.iter().enumerate();
            let rules = rules.map(|(number, form)| rule(number, &left, form, &right));
            return START.to_string() + &rules.collect::<String>();
        }
    };
    let tail = if form == "less" {
        ""
    } else {
        *random.pick(&TAILS)
    };
    START.to_string() + &rule(0, &left, form, &right) + tail
}

/// A rule of one operation on two leaves.
fn rule(number: usize, left: &str, form: &str, right: &str) -> String {
    format!("R\t{number}\t0\nN\t0\t{left}\nN\t1\t{right}\nN\t2\t{form}\t0\t1\n")
}

/// An operation whose operands are Integers, one of them typed Real, by its row, by a
/// definition or by the other branch; or typed Int, and so by Integers alone.
fn widened(random: &mut Random) -> String {
    let row = *random.pick(&["Real", "Real", "Int"]);
    // Half of them at the ends of the range, which a result then leaves.
    let [one, other] = [0; 2].map(|_| match random.below(4) {
        0 => i32::MIN,
        1 => i32::MAX,
        _ => any_integer(random),
    });
    let form = *random.pick(&["plus", "minus", "times", "less", "over", "div"]);
    let start = one_value(row, &one.to_string());
    let operand = match random.below(3) {
        0 => "N\t0\tself\nN\t1\tattr\t0\t0\n".to_string(),
        1 => "N\t0\tself\nN\t1\tcall\t0\t0\n".to_string(),
        _ => {
            let real = spelt_real(any_real(random));
            let nodes = format!("N\t0\ttrue\nN\t1\tint\t{one}\nN\t2\treal\t{real}\n");
            let tail = format!("N\t3\tif\t0\t1\t2\nN\t4\tint\t{other}\nN\t5\t{form}\t3\t4\n");
            return format!("{start}R\t0\t0\n{nodes}{tail}");
        }
    };
    let body = "N\t0\tself\nN\t1\tattr\t0\t0\n";
    let operands = if random.one_in(2) { "1\t2" } else { "2\t1" };
    format!("{start}D\t0\t0\t{row}\n{body}R\t0\t0\n{operand}N\t2\tint\t{other}\nN\t3\t{form}\t{operands}\n")
}

/// The longest value there is, or one Real more; in the least output it is written
/// whole, or a report of two is too long.
fn longest(random: &mut Random, over: usize) -> String {
    let reals = ["rbff8000000000000"; 128];
    let value = format!("Q({})", reals[..127 + over].join(","));
    let more = if random.one_in(2) { "O\t1\t0\n" } else { "" };
    let ty = random.pick(&["Q(Real)", "C(Real)", "Q(Any)"]);
    format!(
        "C\t0\t-\nA\t0\t0\t0\t{ty}\nO\t0\t0\n{more}V\t0\t0\t{value}\n\
        R\t0\t0\nN\t0\tall\t0\nN\t1\tself\nN\t2\tattr\t1\t0\n\
        N\t3\tlet\t1\t0\t2\n"
    )
}

/// Reals at an end of what may be spelled.
const WITHIN: [&str; 8] = [
    "r0000000000000001",
    "r8000000000000001",
    "r41e0000000000000",
    "rc1e0000000200000",
    "r41dfffffffe00000",
    "r3ff8000000000000",
    "r7fefffffffffffff",
    "rffefffffffffffff",
];

/// Past it, one fault a row: minus zero, an Integer, an infinity, a NaN, a capital digit, and
/// what is no spelling of 16 digits.
const OVER: [&[&str]; 6] = [
    &["r8000000000000000"],
    &[
        "r0000000000000000",
        "r3ff0000000000000",
        "r41dfffffffc00000",
        "rc1e0000000000000",
    ],
    &["r7ff0000000000000", "rfff0000000000000"],
    &["r7ff8000000000000", "rfff0000000000001"],
    &["r3FF8000000000000", "r7FF0000000000000"],
    &[
        "R3ff8000000000000",
        "r3ff800000000000",
        "r3ff80000000000000",
        "5",
    ],
];

/// A Real in a node or in a value, at an end of what may be spelt, or past it.
fn spelling(random: &mut Random, over: bool) -> String {
    let reals = if over {
        random.pick(&OVER)
    } else {
        &WITHIN[..]
    };
    let real = *random.pick(reals);
    let row = *random.pick(&["Real", "Any", "Int"]);
    match random.below(4) {
        0 => format!("C\t0\t-\nO\t0\t0\nR\t0\t0\nN\t0\treal\t{real}\n"),
        1 => one_value(row, real),
        2 => one_value("Q(Real)", &format!("Q(1,{real})")),
        _ => {
            // Two faults on one line.
            let mut faults = ["r3ff0000000000000", "rfff0000000000001"];
            random.shuffle(&mut faults);
            one_value("Q(Real)", &format!("Q({})", faults.join(",")))
        }
    }
}

/// Numbers of both kinds in order, each once; or two of them exchanged, or one twice.
fn members(random: &mut Random, over: bool) -> String {
    let mut numbers: Vec<_> = (0..random.between(2, 6))
        .map(|_| {
            if random.one_in(2) {
                any_real(random)
            } else {
                any_integer(random).into()
            }
        })
        .collect();
    numbers.sort();
    numbers.dedup();
    if over {
        let place = random.below(numbers.len());
        let next = (place + 1) % numbers.len();
        if random.one_in(2) {
            numbers.swap(place, next);
        } else {
            numbers.insert(place, numbers[place]);
        }
    }
    let members: Vec<String> = numbers.into_iter().map(spelt_real).collect();
    let kind = *random.pick(&["S", "S", "B"]);
    let member = *random.pick(&["Real", "Any"]);
    let value = format!("{kind}({})", members.join(","));
    let read = "R\t0\t0\nN\t0\tself\nN\t1\tattr\t0\t0\nN\t2\tint\t1\nN\t3\tincluding\t1\t2\n";
    one_value(&format!("{kind}({member})"), &value) + read
}
