//! Sheets whose rules take many steps or form large values.

use super::draft::Draft;
use super::random::Random;

const LETTERS: [&str; 3] = ["Q", "S", "B"];

/// Rows 0 to 2 of class 0 hold a large Sequence, Set and Bag of Integers, row 3
/// a Set of Sets. Rules stand in class 1, which has one or two objects.
pub fn large(random: &mut Random) -> Vec<u8> {
    let mut text = "C\t0\t-\nC\t1\t0\n".to_string();
    for (row, letter) in LETTERS.iter().enumerate() {
        text += &format!("A\t{row}\t0\t{row}\t{letter}(Int)\n");
    }
    text += "A\t3\t0\t3\tS(S(Int))\n";
    let most = *random.pick(&[3, 20, 96]);
    let objects = random.between(2, most);
    let own = random.between(1, 2);
    for object in 0..objects {
        text += &format!("O\t{object}\t{}\n", u8::from(object < own));
    }
    for object in 0..own {
        text += &values(random, object);
    }
    for rule in 0..random.between(1, 3) {
        text += &format!("R\t{rule}\t1\n{}", nodes(random));
    }
    text.into_bytes()
}

fn values(random: &mut Random, object: usize) -> String {
    let mut text = String::new();
    for (row, letter) in LETTERS.iter().enumerate() {
        let count = match random.below(3) {
            0 => random.between(0, 10),
            1 => random.between(120, 127),
            _ => random.between(55, 70),
        };
        let first = random.below(60);
        let members: Vec<String> = (0..count).map(|n| (first + n).to_string()).collect();
        text += &format!("V\t{object}\t{row}\t{letter}({})\n", members.join(","));
    }
    let count = random.between(1, 63);
    let sets: Vec<String> = (0..count).map(|n| format!("S({n})")).collect();
    text + &format!("V\t{object}\t3\tS({})\n", sets.join(","))
}

/// The nodes of a rule.
fn nodes(random: &mut Random) -> String {
    let mut draft = Draft::default();
    match random.below(3) {
        0 => {
            let form = *random.pick(&["forAll", "exists"]);
            let levels = random.between(2, 4);
            quantifiers(random, &mut draft, form, levels)
        }
        1 => {
            let levels = random.between(1, 3);
            counting(random, &mut draft, levels)
        }
        _ => gathering(random, &mut draft),
    };
    draft.spell(random)
}

fn row(draft: &mut Draft, row: usize) -> usize {
    let own = draft.line("self", &[]);
    draft.line(&format!("attr % {row}"), &[own])
}

fn source(random: &mut Random, draft: &mut Draft) -> usize {
    match random.below(4) {
        0 => draft.line("all 0", &[]),
        other => row(draft, other - 1),
    }
}

/// Quantifiers inside each other that seldom end before their last member.
fn quantifiers(random: &mut Random, draft: &mut Draft, form: &str, levels: usize) -> usize {
    let source = source(random, draft);
    let body = if levels > 1 {
        quantifiers(random, draft, form, levels - 1)
    } else {
        let member = draft.line(&format!("var {levels}"), &[]);
        let defined = draft.line("isUndef %", &[member]);
        match form {
            "forAll" => draft.line("not %", &[defined]),
            _ => defined,
        }
    };
    draft.line(&format!("{form} % {levels} %"), &[source, body])
}

/// Iterations inside each other that count their members.
fn counting(random: &mut Random, draft: &mut Draft, levels: usize) -> usize {
    let source = source(random, draft);
    let start = draft.line("int 0", &[]);
    let (member, sum) = (levels, levels + 8);
    let so_far = draft.line(&format!("var {sum}"), &[]);
    let more = if levels > 1 {
        counting(random, draft, levels - 1)
    } else {
        draft.line("int 1", &[])
    };
    let body = draft.line("plus % %", &[so_far, more]);
    let words = format!("iter % {member} {sum} Int % %");
    draft.line(&words, &[source, start, body])
}

/// An iteration that gathers members into a collection, often a full one.
fn gathering(random: &mut Random, draft: &mut Draft) -> usize {
    let chosen = random.below(4);
    let (letter, ty) = match chosen {
        3 => ("S", "S(S(Int))".to_string()),
        other => (LETTERS[other], format!("{}(Int)", LETTERS[other])),
    };
    let from = if chosen == 3 { 3 } else { random.below(3) };
    let source = row(draft, from);
    let start = if random.one_in(2) {
        row(draft, chosen)
    } else {
        draft.line(&format!("coll {letter}"), &[])
    };
    let body = gathered(random, draft, letter);
    let words = format!("iter % 1 2 {ty} % %");
    let gathered = draft.line(&words, &[source, start, body]);
    if random.one_in(2) {
        return gathered;
    }
    draft.line("size %", &[gathered])
}

/// The collection so far, which is variable 2, and the member, variable 1, in one.
fn gathered(random: &mut Random, draft: &mut Draft, letter: &str) -> usize {
    let so_far = draft.line("var 2", &[]);
    let member = draft.line("var 1", &[]);
    match random.below(4) {
        0 => draft.line("including % %", &[so_far, member]),
        1 => {
            let one = draft.line(&format!("coll {letter} %"), &[member]);
            draft.line("union % %", &[one, so_far])
        }
        2 => {
            let grown = draft.line("including % %", &[so_far, member]);
            let conversions = ["asSet %", "asBag %", "asSequence %"];
            let other = draft.line(conversions[random.below(3)], &[grown]);
            let back = match letter {
                "S" => "asSet %",
                "B" => "asBag %",
                _ => "asSequence %",
            };
            draft.line(back, &[other])
        }
        _ => {
            let has = draft.line("includes % %", &[so_far, member]);
            let same = draft.line("var 2", &[]);
            let again = draft.line("var 2", &[]);
            let new = draft.line("var 1", &[]);
            let grown = draft.line("including % %", &[again, new]);
            draft.line("if % % %", &[has, same, grown])
        }
    }
}
