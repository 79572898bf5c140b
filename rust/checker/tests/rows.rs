//! The rows that a rule sees, and that no other row changes what it answers.

use ocl_checker::calls::{self, Answer};
use ocl_checker::{evaluate_rule, read_types, rows};
use ocl_checker::{Evaluated, Memory, Refusal, Refused, LEAST_OUTPUT, LEAST_WORDS};

fn sheet(lines: &str) -> Vec<u8> {
    let lines = lines.split('|').map(|line| line.replace(' ', "\t") + "\n");
    lines.collect::<String>().into_bytes()
}

/// Four rows, a definition that reads row 2, and a rule for each way to see one: in a
/// part that is not run, through the definition, by `collect`, and none.
const RULES: &str = "D 0 1 Int|N 0 self|N 1 attr 0 3|\
    R 0 0|N 0 false|N 1 self|N 2 attr 1 1|N 3 int 7|N 4 if 0 2 3|\
    R 1 0|N 0 self|N 1 attr 0 2|N 2 call 1 0|R 2 0|N 0 all 1|N 1 collect 0 4|R 3 0|N 0 true";

fn with_values(values: &str) -> Vec<u8> {
    let declared = "C 0 -|C 1 -|A 0 0 1 Int|A 1 0 2 #1|A 2 1 3 Int|A 3 1 4 Int|O 0 0|O 1 1";
    sheet(&format!("{declared}|{values}|{RULES}"))
}

#[test]
fn each_rule_has_a_line() {
    let mut memory = Box::new(Memory::new());
    let mut output = [b'~'; LEAST_OUTPUT];
    let text = with_values("V 0 0 5");
    let lines = "0 0\n1 1 2\n2 3\n3\n";
    assert_eq!(rows(&text, &mut memory, &mut output), Ok(lines));
    assert_eq!(output[lines.len()], b'~');
    assert_eq!(rows(b"", &mut memory, &mut output), Ok(""));
}

#[test]
fn other_rows_change_nothing() {
    let mut memory = Box::new(Memory::new());
    let mut output = [0; LEAST_OUTPUT];
    let mut value = |text: &[u8], rule| {
        let Evaluated { value, steps } =
            evaluate_rule(text, rule, 0, &mut memory, &mut output).unwrap();
        (value.to_string(), steps)
    };
    // For each rule two sheets that differ in the rows that it does not see.
    let cases = [
        (0, "V 0 0 5", "V 0 0 5|V 0 1 @1|V 1 2 8|V 1 3 9", "7"),
        (
            1,
            "V 0 1 @1|V 1 2 8",
            "V 0 0 5|V 0 1 @1|V 1 2 8|V 1 3 9",
            "8",
        ),
        (2, "V 0 1 @1|V 1 3 4", "V 1 2 6|V 1 3 4", "B(4)"),
        (3, "V 0 0 5", "V 1 3 4", "t"),
    ];
    for (rule, values, others, expected) in cases {
        let first = value(&with_values(values), rule);
        assert_eq!(first.0, expected, "{rule}");
        assert_eq!(value(&with_values(others), rule), first, "{rule}");
    }
    // A row that it does see.
    let missing = value(&with_values("V 0 1 @1"), 1);
    assert_eq!(missing, ("u".to_string(), 5));
}

#[test]
fn refusals_are_those_of_reading() {
    let mut memory = Box::new(Memory::new());
    let mut output = [0; LEAST_OUTPUT];
    for refused in [
        "C 0 -|C 1 1",
        "C 0 -|R 0 0|X 1+",
        "C 0 -|R 0 0|N 0 true|R 1 0|N 0 var 1",
    ] {
        let text = sheet(refused);
        let types = read_types(&text, &mut memory, &mut output).unwrap_err();
        assert_eq!(
            rows(&text, &mut memory, &mut output),
            Err(types),
            "{refused}"
        );
    }
    let short = rows(b"", &mut memory, &mut output[1..]).unwrap_err();
    assert_eq!(short.refusal(), Some(Refusal::ShortSlice));
}

/// 64 rules that call a definition which reads 64 rows.
fn widest() -> Vec<u8> {
    let declared: String = (0..64).map(|row| format!("|A {row} 0 {row} Int")).collect();
    let mut nodes = String::new();
    for row in 0..64 {
        let (own, attr) = (2 * row, 2 * row + 1);
        nodes += &format!("|N {own} self|N {attr} attr {own} {row}");
    }
    for group in 0..16 {
        let [a, b, c, d] = [1, 3, 5, 7].map(|attr| 8 * group + attr);
        nodes += &format!("|N {} coll Q {a} {b} {c} {d}", 128 + group);
    }
    // 16 Sequences from node 128 on, joined in pairs.
    for pair in 0..15 {
        nodes += &format!(
            "|N {} union {} {}",
            144 + pair,
            128 + 2 * pair,
            129 + 2 * pair
        );
    }
    let rules: String = (0..64)
        .map(|n| format!("|R {n} 0|N 0 self|N 1 call 0 0"))
        .collect();
    sheet(&format!("C 0 -{declared}|D 0 0 Q(Int){nodes}{rules}"))
}

#[test]
fn lines_may_be_too_long() {
    let text = widest();
    let mut memory = Box::new(Memory::new());
    let mut output = vec![b'~'; 11_830];
    let all: Vec<String> = (0..64).map(|row| row.to_string()).collect();
    let lines = rows(&text, &mut memory, &mut output).unwrap().lines();
    for (rule, line) in lines.enumerate() {
        assert_eq!(line, format!("{rule} {}", all.join(" ")));
    }
    assert_eq!(output.last(), Some(&b'\n'));
    output.fill(b'~');
    let long = rows(&text, &mut memory, &mut output[..11_829]);
    let refused = Refused {
        number: 18,
        steps: 0,
        place: 0,
    };
    assert_eq!(long, Err(refused));
    assert!(output.iter().all(|byte| *byte == b'~'));
    let words = "slip too long (18): what is to be written is longer than the output";
    assert_eq!(refused.to_string(), words);
}

#[test]
fn short_slices_are_left_alone() {
    for call in [calls::rows, calls::read_free_numbering, calls::undefined] {
        for slice in 0..3 {
            let mut lengths = [LEAST_WORDS; 3];
            lengths[slice] -= 1;
            let mut slices = lengths.map(|length| vec![7; length]);
            let mut output = [b'~'; LEAST_OUTPUT];
            let words = slices.each_mut().map(Vec::as_mut_slice);
            let Answer { number, length, .. } = call(b"", words, &mut output);
            assert_eq!((number, length), (1, 0));
            assert!(slices.iter().flatten().all(|word| *word == 7));
            assert!(output.iter().all(|byte| *byte == b'~'));
        }
    }
}
