//! The sheet's own lines, quoted, and other words cut to a length that can be read.

use std::collections::HashMap;

/// The longest part of a line that is quoted.
const LONGEST: usize = 160;

/// The lines of a sheet, from 1 on, as they are quoted.
pub struct Lines<'t> {
    text: &'t [u8],
    /// Without their line feeds. What stands behind the last line feed is a line only if
    /// there is something.
    all: Vec<&'t [u8]>,
    /// Where each class, row, object, value, definition and rule is declared: the first line
    /// with this letter and these numbers.
    declared: HashMap<(u8, Vec<u8>), usize>,
}

impl<'t> Lines<'t> {
    pub fn new(text: &'t [u8]) -> Lines<'t> {
        let lines = text.split_inclusive(|byte| *byte == b'\n');
        let all: Vec<&[u8]> = lines
            .map(|line| line.strip_suffix(b"\n").unwrap_or(line))
            .collect();
        let mut declared = HashMap::new();
        for (position, line) in all.iter().enumerate() {
            if let Some(key) = key(line) {
                declared.entry(key).or_insert(position + 1);
            }
        }
        Lines {
            text,
            all,
            declared,
        }
    }

    pub fn all(&self) -> &[&'t [u8]] {
        &self.all
    }

    /// Whether every line has its line feed.
    pub fn are_ended(&self) -> bool {
        self.text.is_empty() || self.text.ends_with(b"\n")
    }

    /// A line without its line feed.
    pub fn bytes(&self, number: usize) -> &'t [u8] {
        let position = number.checked_sub(1);
        let line = position.and_then(|position| self.all.get(position));
        line.copied().unwrap_or_default()
    }

    /// The fields of a line.
    pub fn fields(&self, number: usize) -> Vec<&'t [u8]> {
        self.bytes(number).split(|byte| *byte == b'\t').collect()
    }

    /// The text of the lines before a line.
    pub fn before(&self, number: usize) -> &'t [u8] {
        let lines = self.all.iter().take(number.saturating_sub(1));
        let length = lines.map(|line| line.len() + 1).sum::<usize>();
        &self.text[..length.min(self.text.len())]
    }

    /// A line as the pages show it, with one space for each tab.
    pub fn quoted(&self, number: usize) -> String {
        spelt(self.bytes(number), " ")
    }

    /// A line with its number in front.
    pub fn named(&self, number: usize) -> String {
        format!("line {number}: {}", self.quoted(number))
    }

    /// A line with its tabs to be seen.
    pub fn with_tabs(&self, number: usize) -> String {
        spelt(self.bytes(number), " <tab> ")
    }

    /// The R or D line above a line, or the line itself.
    pub fn head(&self, number: usize) -> Option<usize> {
        let is_head = |line: &usize| matches!(self.bytes(*line).first(), Some(b'R' | b'D'));
        (1..=number).rev().find(is_head)
    }

    /// The line that declares what has this letter and these numbers.
    pub fn declared(&self, letter: u8, numbers: &[u8]) -> Option<usize> {
        self.declared.get(&(letter, numbers.to_vec())).copied()
    }
}

/// The letter of a line, and the numbers that say what it declares.
fn key(line: &[u8]) -> Option<(u8, Vec<u8>)> {
    let mut fields = line.split(|byte| *byte == b'\t');
    let [letter @ (b'C' | b'A' | b'O' | b'V' | b'D' | b'R')] = fields.next()? else {
        return None;
    };
    let count = if *letter == b'V' { 2 } else { 1 };
    let number = |field: &[u8]| std::str::from_utf8(field).ok()?.parse().ok();
    let numbers: Option<Vec<u8>> = fields.take(count).map(number).collect();
    Some((*letter, numbers?))
}

fn spelt(line: &[u8], tab: &str) -> String {
    let fields = line.split(|byte| *byte == b'\t');
    let shown: Vec<String> = fields.map(shown_bytes).collect();
    cut(&shown.join(tab), LONGEST)
}

/// Bytes as they stand there. Those that can't be seen, or are outside ASCII, are spelled out.
pub fn shown_bytes(bytes: &[u8]) -> String {
    let spell = |byte: &u8| match byte {
        b' '..=b'~' => char::from(*byte).to_string(),
        _ => byte.escape_ascii().to_string(),
    };
    bytes.iter().map(spell).collect()
}

/// Words behind the number of the line that they are of.
pub fn numbered(number: usize, words: &str) -> String {
    let line = format!("line {number}");
    format!("  {line:<8} {words}\n")
}

/// A part of a rule as text, no longer than a quoted line.
pub fn part(text: &str) -> String {
    cut(text, LONGEST)
}

/// Words that are cut where they are longer.
pub fn cut(words: &str, longest: usize) -> String {
    match words.char_indices().nth(longest) {
        Some((end, _)) => format!("{} ..", &words[..end]),
        None => words.to_string(),
    }
}

/// The number that decimal digits spell.
pub fn decimal(digits: &[u8]) -> Option<u64> {
    std::str::from_utf8(digits).ok()?.parse().ok()
}
