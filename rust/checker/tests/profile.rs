//! Sheets held to the free-numbering profile, and other numbers for their objects.

use ocl_checker::{evaluate_rule, read_free_numbering, read_types};
use ocl_checker::{Memory, Refusal, Refused, LEAST_OUTPUT};

fn sheet(lines: &str) -> Vec<u8> {
    let lines = lines.split('|').map(|line| line.replace(' ', "\t") + "\n");
    lines.collect::<String>().into_bytes()
}

fn outside(place: u64) -> Refused {
    Refused {
        number: Refusal::OutsideProfile.number(),
        steps: 0,
        place,
    }
}

#[test]
fn a_sheet_in_the_profile_has_its_types() {
    let mut memory = Box::new(Memory::new());
    let mut output = [b'~'; LEAST_OUTPUT];
    // Sets and Bags by every form, a Sequence that is only asked, and a definition outside
    // that no rule reaches.
    let text = sheet(
        "C 0 -|A 0 0 1 Int|A 1 0 2 Q(#0)|D 0 0 Int|N 0 all 0|N 1 asSequence 0|N 2 size 1|\
        R 0 0|N 0 all 0|N 1 self|N 2 including 0 1|N 3 collect 2 1|N 4 coll B|N 5 union 3 4|\
        R 1 0|N 0 self|N 1 attr 0 2|N 2 size 1",
    );
    let types = read_free_numbering(&text, &mut memory, &mut output).unwrap();
    assert_eq!(types.collect::<Vec<_>>(), ["B(Int)", "Int"]);
    assert_eq!(&output[..12], b"B(Int)\nInt\n~");
    let none = read_free_numbering(b"", &mut memory, &mut output);
    assert_eq!(none.unwrap().count(), 0);
}

#[test]
fn each_form_outside_is_refused() {
    let mut memory = Box::new(Memory::new());
    let mut output = [b'~'; LEAST_OUTPUT];
    let start = "C 0 -|A 0 0 1 Int|R 0 0|N 0 self|N 1 coll Q 0";
    for (nodes, place) in [
        ("N 2 int 0|N 3 var 2|N 4 iter 1 1 2 Int 2 3", 8),
        ("N 2 asSequence 1", 6),
        ("N 2 self|N 3 including 1 2", 7),
        ("N 2 coll Q|N 3 union 1 2", 7),
        ("N 2 collect 1 1", 6),
        ("N 2 asSequence 1|N 3 asSequence 2", 6),
    ] {
        let text = sheet(&format!("{start}|{nodes}"));
        let refused = read_free_numbering(&text, &mut memory, &mut output);
        assert_eq!(refused.unwrap_err(), outside(place), "{nodes}");
        assert!(output.iter().all(|byte| *byte == b'~'));
        assert!(read_types(&text, &mut memory, &mut [0; LEAST_OUTPUT]).is_ok());
    }
    let words =
        "line 8: outside the profile (22): what the rule says may follow the objects' numbers";
    assert_eq!(outside(8).to_string(), words);
}

#[test]
fn what_reading_refuses_goes_first() {
    let mut memory = Box::new(Memory::new());
    let mut output = [0; LEAST_OUTPUT];
    let start = "C 0 -|R 0 0|N 0 all 0|N 1 asSequence 0";
    for refused in [
        "C 1 1",
        "R 1 0|N 0 var 1",
        "R 1 0|N 0 coll S|N 1 coll S 0|N 2 coll S 1|N 3 coll S 2",
    ] {
        let text = sheet(&format!("{start}|{refused}"));
        let types = read_types(&text, &mut memory, &mut output).unwrap_err();
        let held = read_free_numbering(&text, &mut memory, &mut output);
        assert_eq!(held.unwrap_err(), types, "{refused}");
    }
    let short = read_free_numbering(&sheet(start), &mut memory, &mut output[1..]);
    assert_eq!(short.unwrap_err().refusal(), Some(Refusal::ShortSlice));
}

/// Objects 0, 1 and 2 become 2, 0 and 1.
#[test]
fn values_follow_other_numbers() {
    let rule = "R 0 0|N 0 self|N 1 attr 0 5";
    let declared = "C 0 -|C 1 0|A 0 0 5 S(#0)";
    let first = format!("{declared}|O 0 1|O 1 0|O 2 0|V 0 0 S(@0,@1)|V 2 0 S(@2)|{rule}");
    let second = format!("{declared}|O 0 0|O 1 0|O 2 1|V 1 0 S(@1)|V 2 0 S(@0,@2)|{rule}");
    let mut memory = Box::new(Memory::new());
    let mut output = [0; LEAST_OUTPUT];
    for text in [&first, &second] {
        assert!(read_free_numbering(&sheet(text), &mut memory, &mut output).is_ok());
    }
    let mut value = |text: &str, object| {
        let evaluated = evaluate_rule(&sheet(text), 0, object, &mut memory, &mut output);
        evaluated.unwrap().value.to_string()
    };
    for (object, image, old, new) in [
        (0, 2, "S(@0,@1)", "S(@0,@2)"),
        (1, 0, "u", "u"),
        (2, 1, "S(@2)", "S(@1)"),
    ] {
        assert_eq!(value(&first, object), old);
        assert_eq!(value(&second, image), new);
    }
}
