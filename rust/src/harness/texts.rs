//! Which cases of rules in text a call's answer is.

use super::slips::{is_over, mended};
use super::text_cases::TextCase;
use crate::calls::Answer;
use crate::generate::Call;
use crate::model::Sheet;
use crate::read::read;
use crate::read::sentences::{sentence, Sentence};
use crate::read::tokens::{most_open, tokens, MOST_OPEN};
use crate::tree::{Form, Node, DEEPEST_RULE};

/// A chain of this many or more counts as long.
const MANY: usize = 1_000;
const MOST_NODES: usize = 768;

/// Where a text stands.
#[derive(Clone, Copy, PartialEq, Eq)]
enum Place {
    InRule,
    AfterNodes,
    AfterText,
    InDefinition,
    Outside,
}

/// A sheet with texts, and its lines, each as its fields.
pub struct Texts<'t> {
    text: &'t [u8],
    lines: Vec<Vec<&'t [u8]>>,
}

impl<'t> Texts<'t> {
    /// None for a sheet without a text.
    pub fn of(text: &'t [u8]) -> Option<Texts<'t>> {
        let lines = text.split(|byte| *byte == b'\n');
        let fields = |line: &'t [u8]| line.split(|byte| *byte == b'\t').collect();
        let lines: Vec<Vec<&[u8]>> = lines.map(fields).collect();
        let some = lines.iter().any(|line| line[0] == b"X");
        some.then_some(Texts { text, lines })
    }

    /// The cases that a call with this answer is.
    pub fn met(&self, call: Call, answer: Answer) -> Vec<TextCase> {
        let place = answer.place as usize;
        let Some(before) = place.checked_sub(1) else {
            return self.answered(call, answer);
        };
        let line = self.lines.get(before).map_or(&[][..], Vec::as_slice);
        match (line, answer.number) {
            ([b"X"] | [b"X", _, _, ..], 3) => vec![TextCase::Fields],
            ([b"X", text], number) => self.refused(text, place, number),
            ([b"N", ..], 5) if before > 0 => self.node_after(before),
            _ => Vec::new(),
        }
    }

    /// Where the text of a line stands.
    fn place(&self, place: usize) -> Place {
        let before = &self.lines[..place - 1];
        let is_part = |line: &&Vec<&[u8]>| matches!(line[0], b"N" | b"X");
        let parts = before.iter().rev().take_while(is_part).count();
        match before[..before.len() - parts].last().map(|line| line[0]) {
            Some(b"R") if parts == 0 => Place::InRule,
            Some(b"R") if before[before.len() - 1][0] == b"X" => Place::AfterText,
            Some(b"R") => Place::AfterNodes,
            Some(b"D") => Place::InDefinition,
            _ => Place::Outside,
        }
    }

    fn count(&self, letter: &[u8]) -> usize {
        self.lines.iter().filter(|line| line[0] == letter).count()
    }

    fn node_after(&self, before: usize) -> Vec<TextCase> {
        let [b"X", text] = self.lines[before - 1].as_slice() else {
            return Vec::new();
        };
        let mut met = vec![TextCase::NodesAfter];
        let alone = [b"C\t0\t-\nR\t0\t0\nX\t", *text, b"\n"].concat();
        if read(&alone).is_err_and(|refused| refused.refusal as u64 == 8) {
            met.push(TextCase::NodesAfterDeep);
        }
        met
    }

    /// What a refusal at a text's own line tells.
    fn refused(&self, text: &[u8], place: usize, number: u64) -> Vec<TextCase> {
        let tokens = tokens(text);
        let sentence = sentence(&tokens);
        let place = self.place(place);
        match (number, sentence) {
            (4, sentence) if most_open(&tokens) > MOST_OPEN => opened(&tokens, sentence.is_some()),
            (4, Some(sentence)) => over(&tokens, &sentence, place),
            (20, _) => no_sentence(&tokens, place),
            (5, Some(sentence)) => match place {
                Place::AfterNodes => vec![TextCase::AfterNodes],
                Place::AfterText => vec![TextCase::AfterText],
                Place::InDefinition => vec![TextCase::InDefinition],
                Place::Outside => vec![TextCase::Outside],
                Place::InRule if self.lacks_class(&sentence) => {
                    vec![TextCase::SameVariable, TextCase::OrderBeforePart]
                }
                Place::InRule => vec![TextCase::SameVariable],
            },
            (6, Some(sentence)) if self.lacks_definition(&sentence) => {
                vec![TextCase::UnknownClass, TextCase::PartBeforeDefinition]
            }
            (6, _) => vec![TextCase::UnknownClass],
            (8, _) => vec![TextCase::Deep],
            (9..=13, _) => vec![TextCase::Untyped],
            (24, _) => vec![TextCase::UnknownDefinition],
            _ => Vec::new(),
        }
    }

    fn lacks_class(&self, sentence: &Sentence) -> bool {
        let mut classes = sentence
            .shapes
            .iter()
            .filter_map(|shape| shape.form.class());
        classes.any(|class| usize::from(class) >= self.count(b"C"))
    }

    fn lacks_definition(&self, sentence: &Sentence) -> bool {
        let count = self.count(b"D");
        let lacks =
            |form: &Form| matches!(form, Form::Call(number) if usize::from(*number) >= count);
        sentence.shapes.iter().any(|shape| lacks(&shape.form))
    }

    /// What an answer tells, or a stop.
    fn answered(&self, call: Call, answer: Answer) -> Vec<TextCase> {
        let (Call::Read | Call::Evaluate { .. }, 0 | 16 | 17 | 19, Ok(sheet)) =
            (call, answer.number, read(self.text))
        else {
            return Vec::new();
        };
        let Call::Evaluate { rule, .. } = call else {
            return self.accepted(&sheet);
        };
        let root = &sheet.rules[rule as usize].root;
        match self.lines[root.line - 1].as_slice() {
            [b"X", _] if answer.number > 0 => vec![TextCase::Stopped],
            [b"X", text] if !text.contains(&b'(') => bound(root),
            _ => Vec::new(),
        }
    }

    fn accepted(&self, sheet: &Sheet) -> Vec<TextCase> {
        let mut met = Vec::new();
        let texts = self.lines.iter().filter(|line| line[0] == b"X");
        let open = |line: &Vec<&[u8]>| most_open(&tokens(line[1]));
        if texts.map(open).max() == Some(MOST_OPEN) {
            met.push(TextCase::MostOpen);
        }
        let rules = || sheet.rules.iter().map(|rule| &rule.root);
        let is_text = |root: &&Node| self.lines[root.line - 1][0] == b"X";
        let depth = |root: &Node| root.depth(&sheet.definitions);
        if rules()
            .filter(is_text)
            .any(|root| depth(root) == DEEPEST_RULE)
        {
            met.push(TextCase::Deepest);
        }
        let definitions = sheet.definitions.iter().map(|definition| &definition.root);
        if definitions.chain(rules()).map(size).sum::<usize>() == MOST_NODES {
            met.push(TextCase::MostNodes);
        }
        if !rules().all(|root| is_text(&root)) {
            met.push(TextCase::BothForms);
        }
        met
    }
}

fn size(node: &Node) -> usize {
    1 + node.operands.iter().map(size).sum::<usize>()
}

/// What is open in a text, and why it is too much.
fn opened(tokens: &[&[u8]], is_sentence: bool) -> Vec<TextCase> {
    let mut met = vec![match is_sentence {
        true => TextCase::OpenSentence,
        false => TextCase::OpenElse,
    }];
    let is_if = |token: &[u8]| matches!(token, b"if" | b"endif");
    let bare: Vec<&[u8]> = (tokens.iter().copied())
        .filter(|token| !is_if(token))
        .collect();
    if most_open(&bare) <= MOST_OPEN {
        met.push(TextCase::OpenByIf);
    }
    // Counted below 0 too.
    let mut sunk = 0;
    let mut counts = tokens.iter().map(|token| {
        sunk += match *token {
            b"(" | b"{" | b"if" => 1,
            b")" | b"}" | b"endif" => -1,
            _ => 0,
        };
        sunk
    });
    if counts.all(|count| count <= MOST_OPEN as i64) {
        met.push(TextCase::OpenAfterClosed);
    }
    met
}

fn over(tokens: &[&[u8]], sentence: &Sentence, place: Place) -> Vec<TextCase> {
    let mut met: Vec<TextCase> = tokens.iter().filter_map(|token| is_over(token)).collect();
    match (sentence.over, met.is_empty()) {
        (true, true) => met.push(TextCase::OverType),
        (false, _) => met.push(TextCase::OverNodes),
        _ => {}
    }
    let many = |word: &[u8]| tokens.iter().filter(|token| **token == word).count() >= MANY;
    met.extend(many(b"not").then_some(TextCase::ManyNots));
    met.extend(many(b"let").then_some(TextCase::ManyLets));
    met.extend((place != Place::InRule).then_some(TextCase::LimitOutOfPlace));
    met
}

fn no_sentence(tokens: &[&[u8]], place: Place) -> Vec<TextCase> {
    let mut met = mended(tokens);
    let lets = tokens.iter().filter(|token| **token == b"let").count();
    let alike = |token: &&[u8]| -> &[u8] {
        match token {
            [b'i', b'f', _, ..] => b"if",
            _ => b"",
        }
    };
    let read_as_if: Vec<&[u8]> = (tokens.iter())
        .map(|token| {
            if alike(token).is_empty() {
                token
            } else {
                alike(token)
            }
        })
        .collect();
    let cases = [
        (tokens.is_empty(), TextCase::Empty),
        (place != Place::InRule, TextCase::NoSentenceOutOfPlace),
        (
            tokens.iter().any(|token| is_over(token).is_some()),
            TextCase::NoSentenceAndLimit,
        ),
        (lets >= MANY, TextCase::ManyLetsElse),
        (most_open(&read_as_if) > MOST_OPEN, TextCase::LooksLikeIf),
    ];
    met.extend(
        cases
            .iter()
            .filter(|(is_met, _)| *is_met)
            .map(|(_, case)| *case),
    );
    met
}

/// What a tree without brackets in its text shows of how signs bind.
fn bound(node: &Node) -> Vec<TextCase> {
    let mut met: Vec<TextCase> = node.operands.iter().flat_map(bound).collect();
    let forms: Vec<&Form> = node.operands.iter().map(|operand| &operand.form).collect();
    match (&node.form, forms.as_slice()) {
        (Form::Minus(_), [Form::Minus(_) | Form::Plus(_), _]) => met.push(TextCase::LeaningMinus),
        (Form::Or, [Form::And, _] | [_, Form::And]) => met.push(TextCase::AndInOr),
        (Form::Eq, [Form::Not, _]) => met.push(TextCase::NotInComparison),
        _ => {}
    }
    met
}
