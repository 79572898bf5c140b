//! Where undefined came from, as the crate tells it.

use ocl_checker::{evaluate_rule, read_types, report, undefined};
use ocl_checker::{Evaluated, Memory, Refusal, Refused, LEAST_OUTPUT};

/// Lines that a bar parts; in a text of an X line it is a `!`.
fn sheet(lines: &str) -> Vec<u8> {
    let lines = lines.split('|').map(|line| match line.strip_prefix("X ") {
        Some(text) => format!("X\t{}\n", text.replace('!', "|")),
        None => line.replace(' ', "\t") + "\n",
    });
    lines.collect::<String>().into_bytes()
}

fn told(lines: &str) -> String {
    let mut memory = Box::new(Memory::new());
    let mut output = [0; LEAST_OUTPUT];
    let lines = undefined(&sheet(lines), &mut memory, &mut output);
    lines.unwrap().to_string()
}

/// Object 1 has no value; a definition reads it.
const SHEET: &str = "C 0 -|A 0 0 5 Int|O 0 0|O 1 0|V 0 0 9|D 0 0 Int|N 0 self|N 1 attr 0 5|R 0 0|";

#[test]
fn each_undefined_verdict_has_a_line() {
    let mut memory = Box::new(Memory::new());
    let mut output = [b'~'; LEAST_OUTPUT];
    let text = sheet(&format!(
        "{SHEET}X self.a5 < 12|R 1 0|X true and 2 < self.d0()"
    ));
    let lines = "0 1 10 2\n1 1 8 7\n";
    assert_eq!(undefined(&text, &mut memory, &mut output), Ok(lines));
    assert_eq!(output[lines.len()], b'~');
    // Its steps are evaluate's.
    let evaluated = evaluate_rule(&text, 1, 1, &mut memory, &mut output);
    let (value, steps) = ("u", 8);
    assert_eq!(evaluated, Ok(Evaluated { value, steps }));
    assert_eq!(undefined(b"", &mut memory, &mut output), Ok(""));
}

#[test]
fn it_is_followed_to_where_it_arose() {
    let cases = [
        ("X undef", "0 0 10 1\n0 1 10 1\n"),
        ("X undef or 1 div 0 = 1", "0 0 10 2\n0 1 10 2\n"),
        ("X true and undef", "0 0 10 3\n0 1 10 3\n"),
        ("X undef and false", ""),
        ("X (1 div 0).isUndef()", ""),
        ("X 2147483647 + 1 = 1 div 0", ""),
        ("X let v1 = undef in v1", "0 0 10 2\n0 1 10 2\n"),
        (
            "X #0.allInstances()->forAll(v1 ! v1.a5 < 12)",
            "0 0 10 8\n0 1 10 8\n",
        ),
        ("X #0.allInstances()->exists(v1 ! v1.a5 < 12)", ""),
        (
            "X #0.allInstances()->collect(a5)->size()",
            "0 0 10 2\n0 1 10 2\n",
        ),
        (
            "X Sequence{1, 0}->iter(v1; v2 : Int = 9 ! v2 div v1)",
            "0 0 10 9\n0 1 10 9\n",
        ),
    ];
    for (rule, lines) in cases {
        assert_eq!(told(&format!("{SHEET}{rule}")), lines, "{rule}");
    }
}

#[test]
fn refusals_are_those_of_reading() {
    let mut memory = Box::new(Memory::new());
    let mut output = [0; LEAST_OUTPUT];
    for refused in [
        "C 0 -|C 1 1",
        "C 0 -|R 0 0|X 1+",
        "C 0 -|O 0 0|R 0 0|N 0 undef|R 1 0|N 0 var 1",
    ] {
        let text = sheet(refused);
        let types = read_types(&text, &mut memory, &mut output).unwrap_err();
        let lines = undefined(&text, &mut memory, &mut output);
        assert_eq!(lines, Err(types), "{refused}");
    }
    let short = undefined(b"", &mut memory, &mut output[1..]).unwrap_err();
    assert_eq!(short.refusal(), Some(Refusal::ShortSlice));
}

#[test]
fn lines_may_be_too_long_apart_from_the_report() {
    let objects: String = (0..40).map(|n| format!("|O {n} 0")).collect();
    let rules = |text: &str| -> Vec<u8> {
        let rules: String = (0..40).map(|n| format!("|R {n} 0|X {text}")).collect();
        sheet(&format!("C 0 -{objects}{rules}"))
    };
    let mut memory = Box::new(Memory::new());
    let mut output = vec![b'~'; 65_536];
    let refused = Refused {
        number: 18,
        steps: 0,
        place: 0,
    };
    // 1,600 lines of 9 to 12 bytes: one byte less than they have is too little.
    let text = rules("undef");
    let lines = undefined(&text, &mut memory, &mut output).unwrap();
    assert_eq!(lines.lines().count(), 1_600);
    assert!(lines.starts_with("0 0 43 1\n") && lines.ends_with("39 39 121 1\n"));
    let length = lines.len();
    output.fill(b'~');
    let long = undefined(&text, &mut memory, &mut output[..length - 1]);
    assert_eq!(long, Err(refused));
    assert!(output.iter().all(|byte| *byte == b'~'));
    // No verdict is undefined, and the report would be too long.
    let text = rules("true");
    assert_eq!(
        report(&text, &mut memory, &mut output[..LEAST_OUTPUT]),
        Err(refused)
    );
    assert_eq!(
        undefined(&text, &mut memory, &mut output[..LEAST_OUTPUT]),
        Ok("")
    );
}
