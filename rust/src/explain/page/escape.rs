//! Words and bytes as they may stand in a page.

use crate::explain::lines::shown_bytes;

/// Words with the signs of HTML escaped, and nothing in them that is not to be seen.
pub fn text(words: &str) -> String {
    let mut out = String::with_capacity(words.len());
    for letter in words.chars() {
        match letter {
            '&' => out += "&amp;",
            '<' => out += "&lt;",
            '>' => out += "&gt;",
            '"' => out += "&quot;",
            '\'' => out += "&#39;",
            '\n' | '\t' => out.push(letter),
            letter if letter.is_control() => out += &letter.escape_default().to_string(),
            letter => out.push(letter),
        }
    }
    out
}

/// The bytes of a line: a sheet may hold any. Those outside ASCII are spelled out.
pub fn bytes(line: &[u8]) -> String {
    let fields = line.split(|byte| *byte == b'\t');
    let fields = fields.map(|field| text(&shown_bytes(field)));
    fields.collect::<Vec<_>>().join("\t")
}

/// An explanation, each line by itself: where it goes on, it goes on below its own words.
pub fn words(explained: &str, lines: usize) -> String {
    let line = |line: &str| {
        let column = column(line);
        let line = linked(line, lines);
        format!("<span class=\"line\" style=\"--at:{column}ch\">{line}\n</span>")
    };
    let all: String = explained.lines().map(line).collect();
    format!("<pre class=\"words\">{all}</pre>\n")
}

/// Where the words of a line begin, behind what they are about.
fn column(line: &str) -> usize {
    let indent = line.len() - line.trim_start().len();
    match indent {
        0 => 0,
        4 if line[4..].starts_with("step") => {
            let parts = [line.find('`'), line.find("the rule")];
            parts.into_iter().flatten().min().unwrap_or(indent)
        }
        _ => 11,
    }
}

/// Words with a link wherever they speak of a line of the sheet.
fn linked(words: &str, lines: usize) -> String {
    let mut out = String::new();
    let mut rest = words;
    while let Some(found) = rest.find("line ") {
        let (before, here) = rest.split_at(found);
        let digits = here[5..].bytes().take_while(u8::is_ascii_digit).count();
        let (line, behind) = here.split_at(5 + digits);
        let number = line[5..].parse::<usize>().ok();
        out += &text(before);
        out += &match number.filter(|number| (1..=lines).contains(number)) {
            Some(number) => format!("<a href=\"#line-{number}\">{line}</a>"),
            None => text(line),
        };
        rest = behind;
    }
    out + &text(rest)
}
