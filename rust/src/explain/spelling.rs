//! What can be seen of a misspelled line.

use super::fields::{of_line, Field};
use super::lines::{cut, shown_bytes, Lines};
use super::misfit::misfit;
use super::trees::parted_by_space;

/// The letters that lines begin with.
const LETTERS: &[u8] = b"CAOVDRXN";

/// All that is seen of it. Of its fields one by one only if nothing else is.
pub fn misspelt(lines: &Lines, place: usize) -> Vec<String> {
    let line = lines.bytes(place);
    if line.is_empty() {
        return vec!["the line is empty".to_string()];
    }
    if let Some(whole) = other_file(line) {
        return vec![whole.to_string()];
    }
    let split = lines.fields(place);
    let is_last = lines.all().len() == place && !lines.are_ended();
    let seen = [
        line.ends_with(b"\r").then(|| {
            "the line ends in a carriage return: save the sheet with line feeds alone".to_string()
        }),
        beginning(line, split[0]),
        count(&split),
        number(&split),
        is_last.then(|| "the last line has no line feed".to_string()),
    ];
    let seen = seen.into_iter().flatten();
    let seen: Vec<String> = seen.chain(spaces(lines, place)).collect();
    if seen.is_empty() {
        return field(&split).into_iter().collect();
    }
    seen
}

/// A file that is no sheet, or is saved in a way that no sheet is.
fn other_file(line: &[u8]) -> Option<&'static str> {
    if line.starts_with(b"\xef\xbb\xbf") {
        return Some("a byte order mark stands in front: save the sheet as UTF-8 without one");
    }
    if line.starts_with(b"\xff\xfe") || line.starts_with(b"\xfe\xff") {
        return Some("the sheet begins as UTF-16 does: save it as UTF-8");
    }
    if line[..line.len() - 1].contains(&b'\r') {
        return Some("a carriage return stands inside the line: each line ends in a line feed");
    }
    let digits = line.iter().all(u8::is_ascii_digit);
    digits.then_some("a number alone: a run of stitch lengths is for ./load")
}

fn beginning(line: &[u8], letter: &[u8]) -> Option<String> {
    let known = |letter: &u8| LETTERS.contains(letter);
    // Spaces in place of the tabs are said of elsewhere.
    if matches!(letter, [first] | [first, b' ', ..] if known(first)) {
        return None;
    }
    let comments: [&[u8]; 4] = [b"--", b"//", b"/*", b"#"];
    if comments.iter().any(|comment| line.starts_with(comment)) {
        return Some("no line begins so, and a sheet has no comments".to_string());
    }
    Some("no line begins so: its first field is C, A, O, V, D, R, X or N".to_string())
}

/// Spaces where none may stand. In a text they may.
fn spaces(lines: &Lines, place: usize) -> Vec<String> {
    let line = lines.bytes(place);
    if line.starts_with(b"X") {
        return parted_by_space(lines, place).into_iter().collect();
    }
    let mut open = 0;
    let mut inside = false;
    let mut between = false;
    let ended = line.strip_suffix(b"\r").unwrap_or(line);
    let trimmed = ended.trim_ascii_end();
    for byte in trimmed {
        match byte {
            b'(' | b'{' => open += 1,
            b')' | b'}' => open -= 1,
            b' ' if open > 0 => inside = true,
            b' ' => between = true,
            _ => {}
        }
    }
    let seen = [
        (between, "there is a space: fields are parted by one tab"),
        (
            inside,
            "there is a space inside brackets: members have a comma and no space between them",
        ),
        (
            ended.ends_with(b" "),
            "the line ends in a space, which can't be seen",
        ),
    ];
    let seen = seen.iter().filter(|(is_seen, _)| *is_seen);
    seen.map(|(_, words)| words.to_string()).collect()
}

/// The number of fields, or a form that there is not.
fn count(split: &[&[u8]]) -> Option<String> {
    let Some(fields) = of_line(split) else {
        // Only an N line has so many forms, and a beginning that no line has is said of.
        return (split[0] == b"N").then(|| match split.get(2) {
            Some([]) => "field 3 is empty".to_string(),
            Some(form) => format!("there is no form `{}`", cut(&shown_bytes(form), 40)),
            None => "it has no form, which is the third field of an N line".to_string(),
        });
    };
    let most = fields.len() + 1;
    // Of a collection all members may be left out.
    let members = fields.iter().skip_while(|field| **field != Field::Kind);
    let least = most - members.count().saturating_sub(1);
    let count = split.len();
    if (least..=most).contains(&count) {
        let empty = split.iter().position(|field| field.is_empty())?;
        return Some(format!("field {} is empty", empty + 1));
    }
    let should = if least == most {
        least.to_string()
    } else {
        format!("{least} to {most}")
    };
    let word = if count == 1 { "field" } else { "fields" };
    Some(format!("it has {count} {word}, and should have {should}"))
}

/// A number with a leading zero, or a minus before zero.
fn number(split: &[&[u8]]) -> Option<String> {
    let is_text = split[0] == b"X";
    let wrong = split.iter().skip(1).filter(|_| !is_text).find(|field| {
        let digits = field.strip_prefix(b"-").unwrap_or(field);
        digits.len() + usize::from(field.len() > digits.len()) > 1
            && digits.first() == Some(&b'0')
            && digits.iter().all(u8::is_ascii_digit)
    })?;
    if *wrong == b"-0" {
        return Some("zero is `0`, without a minus".to_string());
    }
    let wrong = cut(&shown_bytes(wrong), 40);
    Some(format!("`{wrong}` has a zero in front"))
}

/// The first field that is misspelled.
fn field(split: &[&[u8]]) -> Option<String> {
    let fields = of_line(split)?;
    let mut fields = fields.iter().zip(&split[1..]).enumerate();
    fields.find_map(|(position, (field, spelt))| {
        let why = misfit(*field, spelt)?;
        let spelt = cut(&shown_bytes(spelt), 40);
        Some(format!("field {}, `{spelt}`, {why}", position + 2))
    })
}
