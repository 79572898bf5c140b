//! How what OCL writes otherwise is written here, found where a text can't be read on.

use super::lines::shown_bytes as shown;
use super::misfit::{number_in, type_meant, NO_STRINGS};
use crate::read::kinds::{is_arrow_step, kind};
use crate::read::sentences::read_up_to;
use crate::read::spelling::LAST_VARIABLE;

const AT_MOST: &str = "`a <= b` is written `not (b < a)`";
const AT_LEAST: &str = "`a >= b` is written `not (a < b)`";
const UNLIKE: &str = "`a <> b` is written `not (a = b)`";

/// A text that can't be read on at a token.
pub(super) struct Stop<'t> {
    tokens: &'t [&'t [u8]],
    at: usize,
}

/// How what stands at a token is written. None where it is not certain what is meant.
pub fn remedy(tokens: &[&[u8]], at: usize, letter: Option<char>) -> Option<String> {
    let stop = Stop { tokens, at };
    if let Some(letter) = letter {
        return outside_ascii(letter).map(str::to_string);
    }
    stop.missing()
        .or_else(|| stop.bracket())
        .or_else(|| stop.of_type())
        .or_else(|| stop.number())
        .or_else(|| stop.sign())
        .or_else(|| stop.variable())
        .or_else(|| stop.listed())
        .or_else(|| stop.word())
        .or_else(|| stop.step())
}

/// Signs that look like those of a text.
fn outside_ascii(letter: char) -> Option<&'static str> {
    Some(match letter {
        '≤' => AT_MOST,
        '≥' => AT_LEAST,
        '≠' => UNLIKE,
        '−' | '–' | '—' => "the minus of a text is `-`",
        '×' => "times is written `*`",
        '÷' => "divided is written `/`",
        '→' => "the arrow of a text is `->`",
        '‘' | '’' | '“' | '”' => NO_STRINGS,
        '\u{a0}' => "that is a no-break space: type a space in its place",
        _ => return None,
    })
}

impl Stop<'_> {
    /// The token so many places before the stop.
    pub(super) fn before(&self, places: usize) -> &[u8] {
        let place = self.at.checked_sub(places);
        place.map_or(b"", |place| self.tokens[place])
    }

    pub(super) fn here(&self) -> &[u8] {
        self.tokens.get(self.at).copied().unwrap_or_default()
    }

    /// Whether the text could be read on with another token in this place. Where a step or a type
    /// is due, the reader takes any token at first, so that nothing is known.
    pub(super) fn goes_on_with(&self, token: &[u8]) -> bool {
        let is_letter = matches!(self.before(2), b"S" | b"Q" | b"B" | b"C");
        if matches!(self.before(1), b"->" | b":") || is_letter && self.before(1) == b"(" {
            return false;
        }
        let before = self.tokens[..self.at].iter().copied();
        let tokens: Vec<&[u8]> = before.chain([token]).collect();
        read_up_to(&tokens) > self.at
    }

    /// What a text that ends too early has to go on with.
    fn missing(&self) -> Option<String> {
        let ends = self.at == self.tokens.len();
        let closing = [")", "}", "then", "else", "endif", "in"];
        let mut closing = closing.iter().filter(|_| ends);
        let missing = closing.find(|token| self.goes_on_with(token.as_bytes()))?;
        Some(format!("`{missing}` is missing"))
    }

    /// A bracket that must follow what stands before.
    fn bracket(&self) -> Option<String> {
        let before = self.before(1);
        let needs = match self.before(2) {
            b"->" => is_arrow_step(before),
            b"." => kind(before) == "definition" || kind(before) == "step",
            _ => false,
        };
        (needs && self.here() != b"(").then(|| format!("a bracket comes after `{}`", shown(before)))
    }

    /// The type of an accumulator, in OCL's words.
    fn of_type(&self) -> Option<String> {
        let colon = self.tokens[..self.at].iter().rposition(|t| *t == b":")?;
        let rest = &self.tokens[colon + 1..];
        let end = rest.iter().position(|token| *token == b"=")?;
        if colon + 1 + end < self.at {
            return None;
        }
        let meant = type_meant(&rest[..end].concat())?;
        let is_other = meant.as_bytes() != rest[..end].concat();
        is_other.then(|| format!("the type is spelled {meant}"))
    }

    /// A number with a point, or a minus in front of one.
    fn number(&self) -> Option<String> {
        let is_number = |token: &[u8]| token.first().is_some_and(u8::is_ascii_digit);
        match (self.before(2), self.before(1), self.here()) {
            (whole, b".", fraction) if is_number(whole) && is_number(fraction) => {
                number_in(&format!("{}.{}", shown(whole), shown(fraction)))
            }
            (whole, b".", b".") if is_number(whole) => {
                Some("there are no ranges: write each member".to_string())
            }
            (_, _, [b'0', b'0'..=b'9', ..]) => Some("a number has no zero in front".to_string()),
            (_, _, bits @ [b'r', ..]) => number_in(&shown(bits)),
            (_, b"-", b"-") => {
                Some("a minus has two sides, as in `0 - 5`, and a text has no comments".to_string())
            }
            (_, _, b"-") if self.goes_on_with(b"self") => {
                Some("a minus has two sides: `-5` is written `0 - 5`".to_string())
            }
            _ => None,
        }
    }

    /// A sign that OCL has, or a second comparison.
    fn sign(&self) -> Option<String> {
        let next = self.tokens.get(self.at + 1).copied().unwrap_or_default();
        Some(match (self.before(1), self.here(), next) {
            (b"<", b"=", _) => AT_MOST.to_string(),
            (b"<", b">", _) | (_, b"!", b"=") => UNLIKE.to_string(),
            (b"=", b"=", _) => "equal is written with one `=`".to_string(),
            (b"-", b">", _) => "`->` has no space inside".to_string(),
            (_, b"&", _) => "both is written `and`".to_string(),
            (_, b"|", b"|") => "one of both is written `or`".to_string(),
            (_, b"!", _) => "the other truth value is written `not`".to_string(),
            (_, b"@", _) => "no text names an object by its number".to_string(),
            (_, b">", b"=") => AT_LEAST.to_string(),
            (_, b">", _) => "`a > b` is written `b < a`".to_string(),
            (_, b"'" | b"\"", _) => NO_STRINGS.to_string(),
            (_, b"=" | b"<", _) if self.goes_on_with(b"+") => {
                "one comparison at a time: put brackets around it, or `and` between two".to_string()
            }
            (_, b"let", _) if self.goes_on_with(b"self") => {
                "a `let` behind a sign or `not` stands in brackets".to_string()
            }
            _ => return None,
        })
    }

    /// Where a variable is due.
    fn variable(&self) -> Option<String> {
        let (step, before) = (self.before(2), self.before(1));
        let how = match (step, before) {
            (_, b"let") => "let v1 = e in ..",
            (b"forAll", b"(") => "forAll(v1 | ..)",
            (b"exists", b"(") => "exists(v1 | ..)",
            (b"iter", b"(") | (_, b";") => "iter(v1; v2 : T = e | ..)",
            (b"oclAsType", b"(") => {
                return Some("`oclAsType` takes a class, as `oclAsType(#1)`".to_string())
            }
            (b"collect", b"(") => {
                return Some("`collect` takes an attribute alone, as `collect(a5)`".to_string())
            }
            _ => return None,
        };
        Some(format!(
            "variables are v1 to v{LAST_VARIABLE}, as in `{how}`"
        ))
    }

    /// A comma or a colon where there is one member or one variable too many.
    fn listed(&self) -> Option<String> {
        let said = match self.here() {
            b":" if kind(self.before(1)) == "variable" => {
                "only the accumulator of an `iter` has a type"
            }
            b"," if self.goes_on_with(b"in") => "a `let` binds one variable: write two `let`s",
            b"," if self.before(2) == b"(" && matches!(self.before(3), b"forAll" | b"exists") => {
                "a loop has one variable: write a loop inside a loop"
            }
            b"," if self.goes_on_with(b"}") => {
                "four members at most stand in braces: join two collections by `->union(..)`"
            }
            _ => return None,
        };
        Some(said.to_string())
    }
}
