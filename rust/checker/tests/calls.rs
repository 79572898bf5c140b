//! What the crate adds to the calls: lent memory, results and words.

use ocl_checker::calls::{self, Answer, Words};
use ocl_checker::{evaluate_rule, read_types, report};
use ocl_checker::{Evaluated, Memory, Refusal, Refused, LEAST_OUTPUT, LEAST_WORDS};

fn sheet(lines: &str) -> Vec<u8> {
    let lines = lines.split('|').map(|line| line.replace(' ', "\t") + "\n");
    lines.collect::<String>().into_bytes()
}

fn small() -> Vec<u8> {
    sheet("C 0 -|C 1 0|O 0 0|O 1 1|R 0 1|N 0 self|N 1 coll Q 0|R 1 0|N 0 int 5")
}

fn refused(refusal: Refusal, steps: u64, place: u64) -> Refused {
    Refused {
        number: refusal.number(),
        steps,
        place,
    }
}

#[test]
fn answers_are_ok() {
    let (text, mut memory) = (small(), Box::new(Memory::new()));
    let mut output = [b'~'; LEAST_OUTPUT];
    let types = read_types(&text, &mut memory, &mut output).unwrap();
    assert_eq!(types.collect::<Vec<_>>(), ["Q(#1)", "Int"]);
    assert_eq!(&output[..11], b"Q(#1)\nInt\n~");
    let evaluated = evaluate_rule(&text, 0, 1, &mut memory, &mut output);
    assert_eq!(
        evaluated,
        Ok(Evaluated {
            value: "Q(@1)",
            steps: 2
        })
    );
    let lines = report(&text, &mut memory, &mut output);
    assert_eq!(lines, Ok("0 1 Q(@1) 2\n1 0 5 1\n1 1 5 1\n"));
    assert_eq!(output[35], b'~');
    // One memory serves all calls; the empty sheet has no types and an empty
    // report.
    assert_eq!(report(b"", &mut memory, &mut output), Ok(""));
    let mut none = read_types(b"", &mut memory, &mut output).unwrap();
    assert_eq!(none.next(), None);
}

#[test]
fn refusals_are_errors() {
    let (text, mut memory) = (small(), Box::new(Memory::default()));
    let mut output = [0; LEAST_OUTPUT];
    let off = evaluate_rule(&text, 2, 0, &mut memory, &mut output);
    assert_eq!(off, Err(refused(Refusal::NotFound, 0, 0)));
    let stranger = evaluate_rule(&text, 0, 0, &mut memory, &mut output);
    assert_eq!(stranger, Err(refused(Refusal::OtherClass, 0, 0)));
    // Every call refuses a sheet with a rule that has no type.
    let unbound = sheet("C 0 -|O 0 0|R 0 0|N 0 true|R 1 0|N 0 var 1");
    let loose = refused(Refusal::UnboundVariable, 0, 6);
    let types = read_types(&unbound, &mut memory, &mut output);
    assert_eq!(types.unwrap_err(), loose);
    let value = evaluate_rule(&unbound, 0, 0, &mut memory, &mut output);
    assert_eq!(value, Err(loose));
    let lines = report(&unbound, &mut memory, &mut output);
    assert_eq!(lines, Err(loose));
    let short = report(&text, &mut memory, &mut output[1..]);
    assert_eq!(short, Err(refused(Refusal::ShortSlice, 0, 0)));
}

#[test]
fn reading_types_every_rule() {
    let mut memory = Box::new(Memory::new());
    let mut output = [0; LEAST_OUTPUT];
    let start = "C 0 -|C 1 0|A 0 0 5 Int|O 0 0|O 1 1|R 0 0|N 0 true|R 1 1|N 0 self";
    let text = sheet(&format!("{start}|N 1 attr 0 5|R 2 0|N 0 coll S"));
    let types = read_types(&text, &mut memory, &mut output).unwrap();
    assert_eq!(types.collect::<Vec<_>>(), ["Bool", "Int", "S(Void)"]);
    let value = evaluate_rule(&text, 1, 1, &mut memory, &mut output).unwrap();
    assert_eq!((value.value, value.steps), ("u", 2));
    // Of two rules that do not type the first is refused, before an absent rule.
    let text = sheet(&format!("{start}|N 1 attr 0 9|R 2 0|N 0 int 1|N 1 not 0"));
    let none = refused(Refusal::NoAttribute, 0, 10);
    let types = read_types(&text, &mut memory, &mut output);
    assert_eq!(types.unwrap_err(), none);
    for (rule, object) in [(0, 0), (9, 0), (0, 9), (1, 0)] {
        let value = evaluate_rule(&text, rule, object, &mut memory, &mut output);
        assert_eq!(value, Err(none), "{rule} {object}");
    }
    // 64 rules with the longest spelling of a type.
    let nodes = "N 0 coll S|N 1 coll Q 0|N 2 coll B 1";
    let rules: String = (0..64).map(|rule| format!("|R {rule} 0|{nodes}")).collect();
    let types = read_types(&sheet(&format!("C 0 -{rules}")), &mut memory, &mut output).unwrap();
    assert_eq!(types.collect::<Vec<_>>(), ["B(Q(S(Void)))"; 64]);
    assert_eq!((output[895], output[896]), (b'\n', 0));
}

#[test]
fn numbers_may_be_reals() {
    let mut memory = Box::new(Memory::new());
    let mut output = [0; LEAST_OUTPUT];
    // 3 over 2, that times 2, and the largest number twice.
    let quotient = "N 0 int 3|N 1 int 2|N 2 over 0 1";
    let infinite = "N 0 real r7fefffffffffffff|N 1 int 2|N 2 times 0 1";
    let rules =
        format!("R 0 0|{quotient}|R 1 0|{quotient}|N 3 int 2|N 4 times 2 3|R 2 0|{infinite}");
    let text = sheet(&format!("C 0 -|O 0 0|{rules}"));
    let types = read_types(&text, &mut memory, &mut output).unwrap();
    assert_eq!(types.collect::<Vec<_>>(), ["Real", "Real", "Real"]);
    let half = evaluate_rule(&text, 0, 0, &mut memory, &mut output).unwrap();
    assert_eq!((half.value, half.steps), ("r3ff8000000000000", 3));
    assert_eq!(f64::from_bits(0x3ff8_0000_0000_0000), 1.5);
    let whole = evaluate_rule(&text, 1, 0, &mut memory, &mut output).unwrap();
    assert_eq!((whole.value, whole.steps), ("3", 5));
    let stop = evaluate_rule(&text, 2, 0, &mut memory, &mut output);
    assert_eq!(stop, Err(refused(Refusal::OverRange, 3, 0)));
    // The longest value fits in the least output.
    let longest = ["r3ff8000000000000"; 127].join(",");
    let text = sheet(&format!(
        "C 0 -|A 0 0 5 Q(Real)|O 0 0|V 0 0 Q({longest})|R 0 0|N 0 self|N 1 attr 0 5"
    ));
    let value = evaluate_rule(&text, 0, 0, &mut memory, &mut output).unwrap();
    assert_eq!((value.value.len(), value.steps), (2_288, 2));
    for short in [2_048, 2_288, LEAST_OUTPUT - 1] {
        let value = evaluate_rule(&text, 0, 0, &mut memory, &mut output[..short]);
        assert_eq!(value, Err(refused(Refusal::ShortSlice, 0, 0)), "{short}");
    }
}

/// Lines behind two classes and a definition, the refusal and its place.
const UNCALLED: [(&str, Refusal, u64); 6] = [
    ("D 1 0 Int|N 0 self|N 1 call 0 1", Refusal::CallUpward, 12),
    ("D 1 0 Int|N 0 self|N 1 call 0 2", Refusal::CallUpward, 12),
    (
        "R 0 0|N 0 self|N 1 call 0 1",
        Refusal::UnknownDefinition,
        12,
    ),
    ("D 1 0 Bool|N 0 int 1", Refusal::WrongOperandType, 11),
    ("D 1 0 Int|N 0 var 1", Refusal::UnboundVariable, 11),
    (
        "R 0 0|N 0 undef|N 1 call 0 0",
        Refusal::WrongOperandType,
        12,
    ),
];

#[test]
fn definitions_are_called() {
    let mut memory = Box::new(Memory::new());
    let mut output = [0; LEAST_OUTPUT];
    // The object's own number, and one more: two definitions, a rule for each.
    let start = "C 0 -|C 1 0|A 0 0 5 Int|O 0 0|O 1 1|V 1 0 9|D 0 0 Int|N 0 self|N 1 attr 0 5";
    let second = "D 1 0 Any|N 0 self|N 1 call 0 0|N 2 int 1|N 3 plus 1 2";
    let rules = "R 0 1|N 0 self|N 1 call 0 0|R 1 0|N 0 self|N 1 call 0 1";
    let text = sheet(&format!("{start}|{second}|{rules}"));
    // A definition has no line of its own, and a call the type that is declared.
    let types = read_types(&text, &mut memory, &mut output).unwrap();
    assert_eq!(types.collect::<Vec<_>>(), ["Int", "Any"]);
    let value = evaluate_rule(&text, 1, 1, &mut memory, &mut output).unwrap();
    assert_eq!((value.value, value.steps), ("10", 8));
    let lines = report(&text, &mut memory, &mut output);
    assert_eq!(lines, Ok("0 1 9 4\n1 0 u 7\n1 1 10 8\n"));
    for (lines, refusal, place) in UNCALLED {
        let text = sheet(&format!("{start}|{lines}"));
        let refused = refused(refusal, 0, place);
        let types = read_types(&text, &mut memory, &mut output);
        assert_eq!(types.unwrap_err(), refused, "{lines}");
        let value = evaluate_rule(&text, 9, 9, &mut memory, &mut output);
        assert_eq!(value, Err(refused), "{lines}");
        assert_eq!(report(&text, &mut memory, &mut output), Err(refused));
    }
}

#[test]
fn rules_may_be_texts() {
    let mut memory = Box::new(Memory::new());
    let mut output = [0; LEAST_OUTPUT];
    let start = "C\t0\t-\nA\t0\t0\t5\tInt\nO\t0\t0\nO\t1\t0\nV\t0\t0\t9\nR\t0\t0\n";
    let text = format!("{start}X\tself.a5 < 12\n");
    let types = read_types(text.as_bytes(), &mut memory, &mut output).unwrap();
    assert_eq!(types.collect::<Vec<_>>(), ["Bool"]);
    let lines = report(text.as_bytes(), &mut memory, &mut output);
    assert_eq!(lines, Ok("0 0 t 4\n0 1 u 3\n"));
    let open = "(".repeat(65);
    let cases = [
        ("self.a5 <", Refusal::NotASentence, 7),
        (open.as_str(), Refusal::OutOfLimits, 7),
        ("true\nX\ttrue", Refusal::OutOfOrder, 8),
        ("#9.allInstances()", Refusal::UnknownReference, 7),
        ("self.d0()", Refusal::UnknownDefinition, 7),
        ("v1", Refusal::UnboundVariable, 7),
    ];
    for (rule, refusal, place) in cases {
        let text = format!("{start}X\t{rule}\n");
        let types = read_types(text.as_bytes(), &mut memory, &mut output);
        assert_eq!(types.unwrap_err(), refused(refusal, 0, place), "{rule}");
    }
    let line = refused(Refusal::NotASentence, 0, 7).to_string();
    let words = "line 7: not a sentence (20): the text of the rule is no sentence";
    assert_eq!(line, words);
}

#[test]
fn a_stop_has_its_steps() {
    let members = vec!["7"; 127].join(",");
    let text = sheet(&format!(
        "C 0 -|A 0 0 0 Q(Int)|O 0 0|V 0 0 Q({members})|R 0 0|N 0 self|N 1 attr 0 0|N 2 coll Q 1"
    ));
    let mut memory = Box::new(Memory::new());
    let stop = evaluate_rule(&text, 0, 0, &mut memory, &mut [0; LEAST_OUTPUT]).unwrap_err();
    assert_eq!(stop, refused(Refusal::SizeStop, 3, 0));
    assert_eq!(
        stop.to_string(),
        "size stop (17) after 3 steps: a value of a size over 128 would be formed"
    );
    let text = sheet("C 0 -|O 0 0|R 0 0|N 0 int 2147483647|N 1 int 1|N 2 plus 0 1|N 3 isUndef 2");
    let stop = evaluate_rule(&text, 0, 0, &mut memory, &mut [0; LEAST_OUTPUT]).unwrap_err();
    assert_eq!(stop, refused(Refusal::OverRange, 4, 0));
    assert_eq!(
        stop.to_string(),
        "over the range (19) after 4 steps: a result of Integers leaves their range, or one of Reals is infinite"
    );
}

#[test]
fn refusals_have_numbers_and_words() {
    for number in 1..=24 {
        let refusal = Refusal::of(number).unwrap();
        assert_eq!(refusal.number(), number);
    }
    for number in [0, 25, 100, u64::MAX] {
        assert_eq!(Refusal::of(number), None);
    }
    assert_eq!(Refusal::MalformedTree.word(), "broken tree");
    let line = refused(Refusal::BadLine, 0, 2).to_string();
    assert_eq!(line, "line 2: bad line (3): the line is misspelled");
    let line = refused(Refusal::CallUpward, 0, 4).to_string();
    assert_eq!(
        line,
        "line 4: call upward (23): the definition calls itself or a larger one"
    );
}

/// A call with short slices: 1, and nothing touched.
fn misused(lengths: [usize; 3], room: usize, call: impl Fn(Words, &mut [u8]) -> Answer) {
    let mut slices = lengths.map(|length| vec![7; length]);
    let mut output = vec![b'~'; room];
    let answer = call(slices.each_mut().map(Vec::as_mut_slice), &mut output);
    let short = Answer {
        number: 1,
        steps: 0,
        place: 0,
        length: 0,
    };
    assert_eq!(answer, short);
    assert!(slices.iter().flatten().all(|word| *word == 7));
    assert!(output.iter().all(|byte| *byte == b'~'));
}

#[test]
fn short_slices_are_left_alone() {
    let text = small();
    let mut lent = vec![([LEAST_WORDS; 3], 0), ([LEAST_WORDS; 3], LEAST_OUTPUT - 1)];
    for (slice, length) in [(0, 0), (0, 8_191), (1, 8_191), (2, 0), (2, 8_191)] {
        let mut lengths = [LEAST_WORDS; 3];
        lengths[slice] = length;
        lent.push((lengths, LEAST_OUTPUT));
    }
    for (lengths, room) in lent {
        misused(lengths, room, |words, output| {
            calls::read_types(&text, words, output)
        });
        misused(lengths, room, |words, output| {
            calls::evaluate_rule(&text, 0, 1, words, output)
        });
        misused(lengths, room, |words, output| {
            calls::report(&text, words, output)
        });
    }
}

#[test]
fn threads_share_a_text() {
    let text = small();
    std::thread::scope(|scope| {
        for _ in 0..4 {
            scope.spawn(|| {
                let mut memory = Box::new(Memory::new());
                let mut output = [0; LEAST_OUTPUT];
                for _ in 0..200 {
                    let lines = report(&text, &mut memory, &mut output);
                    assert_eq!(lines, Ok("0 1 Q(@1) 2\n1 0 5 1\n1 1 5 1\n"));
                }
            });
        }
    });
}
