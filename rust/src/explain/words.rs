//! The words and steps of OCL that a text has otherwise.

use super::lines::shown_bytes as shown;
use super::remedies::Stop;
use crate::read::kinds::{is_arrow_step, kind};

/// Where all of it stands.
const PAGE: &str = "`docs/SHEETS.md`, section 9";

/// OCL's steps behind an arrow that the page has in other words.
const IN_OTHER_WORDS: [&[u8]; 20] = [
    b"select",
    b"reject",
    b"sum",
    b"count",
    b"one",
    b"max",
    b"min",
    b"includesAll",
    b"excludesAll",
    b"isUnique",
    b"intersection",
    b"flatten",
    b"last",
    b"at",
    b"first",
    b"any",
    b"append",
    b"prepend",
    b"excluding",
    b"indexOf",
];

impl Stop<'_> {
    /// A word that OCL has.
    pub(super) fn word(&self) -> Option<String> {
        let said = match (self.before(1), self.here()) {
            (_, b"implies") => "`a implies b` is written `not (a) or b`",
            (_, b"xor") => "`a xor b` is written `not (a = b)`",
            (_, b"null" | b"invalid") => "undefined is asked for by `isUndef()`",
            (b"->", b"isEmpty") => "`s->isEmpty()` is written `s->size() = 0`",
            (b"->", b"notEmpty") => "`s->notEmpty()` is written `0 < s->size()`",
            (b"->", b"excludes") => "`s->excludes(e)` is written `not s->includes(e)`",
            (b"->", b"iterate") => "`iterate` is written `iter`",
            (b".", b"oclIsUndefined" | b"oclIsInvalid") => "it is written `isUndef()`",
            (b".", b"oclIsKindOf") => {
                "`e.oclIsKindOf(K)` is written `not e.oclAsType(K).isUndef()`, where e is defined"
            }
            (b"->", word) if IN_OTHER_WORDS.contains(&word) => {
                return Some(format!("{PAGE}, has `{}` in other words", shown(word)))
            }
            (b".", b"oclIsTypeOf" | b"abs" | b"max" | b"min") => {
                return Some(format!("{PAGE}, has it in other words"))
            }
            _ => return None,
        };
        Some(said.to_string())
    }

    /// Whether a class is asked for something, and not for its objects.
    fn is_behind_class(&self) -> bool {
        match self.before(1) {
            b"." => kind(self.before(2)) == "class",
            before => kind(before) == "class" && self.goes_on_with(b"."),
        }
    }

    /// What may stand behind a full stop or an arrow, and words that there are not.
    pub(super) fn step(&self) -> Option<String> {
        let here = self.here();
        if self.is_behind_class() {
            return Some("behind a class stands `.allInstances()`".to_string());
        }
        let (word, is_unknown) = (shown(here), kind(here) == "unknown word");
        Some(match self.before(1) {
            _ if here.is_empty() => return None,
            b"." if is_arrow_step(here) => {
                format!("an arrow comes before `{word}`: `->{word}(..)`")
            }
            b"->" if kind(here) == "attribute" => {
                format!("a full stop comes before an attribute: `.{word}`")
            }
            b"." if here == b"allInstances" => {
                "`allInstances` is asked of a class, as in `#1.allInstances()`".to_string()
            }
            b"->" => BEHIND_ARROW.to_string(),
            b"." if is_unknown => BEHIND_STOP.to_string(),
            _ if kind(here) == "attribute" && self.goes_on_with(b"self") => {
                format!("an attribute is asked of an object: `self.{word}`")
            }
            _ if is_unknown && is_fixed(&here.to_ascii_lowercase()) => {
                format!("it is written `{}`", word.to_ascii_lowercase())
            }
            _ if is_unknown => format!("no text has the word `{word}`: {NUMBERS}"),
            _ => return None,
        })
    }
}

/// Whether a word is always written so, and stands for no number.
fn is_fixed(word: &[u8]) -> bool {
    matches!(
        kind(word),
        "keyword" | "word operator" | "constant" | "self"
    )
}

const BEHIND_ARROW: &str = "behind an arrow stand size, asSet, asBag, asSequence, collect, \
    includes, including, union, forAll, exists and iter";
const BEHIND_STOP: &str = "behind a full stop stand an attribute such as `a1`, isUndef, oclAsType \
    and a definition such as `d0()`";
const NUMBERS: &str = "a class is `#` and its number, an attribute `a` and its name, a variable \
    `v` and its number";
