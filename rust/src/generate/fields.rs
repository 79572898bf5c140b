//! Damage to the fields of a line.

use super::random::Random;
use super::slips::change_text;

/// Fields that are wrong in most places, or just outside a limit.
const FIELDS: [&str; 75] = [
    "",
    "-",
    "-0",
    "0",
    "00",
    "01",
    "-1",
    "+1",
    "1",
    "2",
    "3",
    "15",
    "16",
    "31",
    "32",
    "63",
    "64",
    "95",
    "96",
    "255",
    "256",
    "767",
    "768",
    "2147483647",
    "2147483648",
    "-2147483648",
    "-2147483649",
    "18446744073709551616",
    "18446744073709551617",
    "4294967296",
    "u",
    "t",
    "f",
    "@0",
    "@95",
    "@96",
    "#0",
    "#63",
    "#64",
    "S()",
    "Q(1,2)",
    "S(2,1)",
    "S(1,1)",
    "B(2,1)",
    "Q(u)",
    "r3ff8000000000000",
    "r3ff0000000000000",
    "r0000000000000000",
    "r8000000000000000",
    "r8000000000000001",
    "r41dfffffffc00000",
    "r41e0000000000000",
    "rc1e0000000000000",
    "rc1e0000000200000",
    "r7fefffffffffffff",
    "r7ff0000000000000",
    "rfff0000000000000",
    "r7ff8000000000000",
    "rfff8000000000001",
    "r3FF8000000000000",
    "r3ff800000000000",
    "r3ff80000000000000",
    "S(1,r3ff8000000000000,2)",
    "S(r3ff8000000000000,1)",
    "Q(r7ff0000000000000,r3ff0000000000000)",
    "Real",
    "Int",
    "Any",
    "S(S(S(S(Int))))",
    "C(Int)",
    "S(Int",
    "true",
    "iter",
    "S",
    "N",
];

/// A change to a line's fields, given those of a like line.
pub fn change(random: &mut Random, fields: &mut Vec<Vec<u8>>, other: &[Vec<u8>]) {
    if change_of_letter(random, fields) {
        return;
    }
    // The letter is changed least often.
    let place = match fields.len() {
        0 => return,
        1 => 0,
        count if random.one_in(12) => random.below(count),
        count => random.between(1, count - 1),
    };
    match random.below(16) {
        0 => {
            fields.remove(place);
        }
        1 => fields.insert(place, random.pick(&FIELDS).as_bytes().to_vec()),
        2 => {
            let other = random.below(fields.len());
            fields.swap(place, other);
        }
        3 => fields[place].insert(0, b'0'),
        4..=8 => number(random, &mut fields[place]),
        9..=11 => {
            // The same field of a like line, such as another row's value.
            if let Some(field) = other.get(place) {
                fields[place] = field.clone();
            }
        }
        _ => fields[place] = random.pick(&FIELDS).as_bytes().to_vec(),
    }
}

/// A change that only lines of one letter or form can have; whether one was made.
fn change_of_letter(random: &mut Random, fields: &mut [Vec<u8>]) -> bool {
    match fields {
        [letter, text] if letter == b"X" && !random.one_in(8) => change_text(random, text),
        [letter, .., value] if letter == b"V" && random.one_in(3) => change_members(random, value),
        [.., field] if field.contains(&b'r') && random.one_in(3) => change_bits(random, field),
        [_, _, form, _, i, j, ty, ..] if form == b"iter" && random.one_in(2) => {
            match random.below(2) {
                0 => i.clone_from(j),
                _ => {
                    let types = ["#63", "S(Q(#63))", "#64"];
                    *ty = random.pick(&types).as_bytes().to_vec();
                }
            }
        }
        [letter, _, form, ..] if letter == b"N" && random.one_in(3) => like_form(random, form),
        _ => return false,
    }
    true
}

/// Two simple members beside each other exchanged, or one replaced, at whatever
/// level they stand.
fn change_members(random: &mut Random, value: &mut Vec<u8>) {
    let is_part = |byte: &u8| b"(),".contains(byte);
    let parts: Vec<usize> = (0..value.len()).filter(|n| is_part(&value[*n])).collect();
    // A simple member has no bracket but the ones that end before or after it.
    let members: Vec<(usize, usize)> = (parts.windows(2))
        .map(|pair| (pair[0] + 1, pair[1]))
        .filter(|(start, end)| value[start - 1] != b')' && value[*end] != b'(' && start < end)
        .collect();
    if members.is_empty() {
        return;
    }
    let chosen = random.below(members.len());
    let (start, end) = members[chosen];
    match members.get(chosen + 1) {
        Some((next, last)) if *next == end + 1 && random.one_in(2) => {
            let swapped = [&value[*next..*last], &value[start..end]].join(&b',');
            value.splice(start..*last, swapped);
        }
        _ => {
            let other = *random.pick(&MEMBERS);
            value.splice(start..end, other.bytes());
        }
    }
}

/// Simple values that may stand for a member.
const MEMBERS: [&str; 13] = [
    "f",
    "t",
    "-1",
    "0",
    "9",
    "rbfe0000000000000",
    "r3ff8000000000000",
    "r4000000000000000",
    "r7ff0000000000000",
    "rfff8000000000001",
    "@0",
    "@1",
    "@95",
];

/// The letter of a Real, or one of its digits, changed; or the number made whole,
/// an infinity or a NaN.
fn change_bits(random: &mut Random, field: &mut [u8]) {
    const WRONG: [&[u8; 16]; 6] = [
        b"3ff0000000000000",
        b"c1e0000000000000",
        b"8000000000000000",
        b"7ff0000000000000",
        b"fff0000000000000",
        b"7ff0000000000001",
    ];
    let letters: Vec<usize> = (0..field.len())
        .filter(|place| field[*place] == b'r' && field.len() > place + 16)
        .collect();
    if letters.is_empty() {
        return;
    }
    let start = *random.pick(&letters);
    if random.one_in(3) {
        let wrong = random.pick(&WRONG);
        field[start + 1..start + 17].copy_from_slice(&wrong[..]);
        return;
    }
    let place = start + random.below(17);
    field[place] = *random.pick(b"0123456789abcdefAFgr-");
}

/// One of the numbers in a field changed, be it in a type or in a value.
fn number(random: &mut Random, field: &mut Vec<u8>) {
    let digit = |place: &usize| field.get(*place).is_some_and(u8::is_ascii_digit);
    let starts: Vec<usize> = (0..field.len())
        .filter(|place| digit(place) && (*place == 0 || !digit(&(place - 1))))
        .collect();
    if starts.is_empty() {
        return;
    }
    let start = *random.pick(&starts);
    let end = (start..).find(|place| !digit(place)).unwrap_or(start);
    let old = String::from_utf8_lossy(&field[start..end]).into_owned();
    let new = match (old.parse::<i64>(), random.below(6)) {
        (_, 0) | (Err(_), _) => {
            *random.pick(&[0, 16, 31, 32, 63, 64, 95, 96, 255, 256, 256, 767, 768])
        }
        (Ok(old), 1 | 2) => old.saturating_sub(1),
        (Ok(old), 3) => old.saturating_add(2),
        (Ok(old), _) => old.saturating_add(1),
    };
    field.splice(start..end, new.to_string().into_bytes());
}

/// Forms whose lines look alike.
const LIKE_FORMS: [&[&str]; 6] = [
    &["true", "false", "undef", "self"],
    &["not", "isUndef", "size", "asSet", "asBag", "asSequence"],
    &[
        "and",
        "or",
        "eq",
        "less",
        "plus",
        "minus",
        "times",
        "div",
        "mod",
        "over",
        "includes",
        "including",
        "union",
    ],
    &["forAll", "exists"],
    &["attr", "as", "collect", "call"],
    &["all", "var", "int", "real"],
];

/// Another form that is spelt alike, so that the rule may not type.
fn like_form(random: &mut Random, form: &mut Vec<u8>) {
    let known = |forms: &&[&str]| forms.iter().any(|word| word.as_bytes() == *form);
    if let Some(forms) = LIKE_FORMS.iter().copied().find(known) {
        *form = random.pick(forms).as_bytes().to_vec();
    }
}
