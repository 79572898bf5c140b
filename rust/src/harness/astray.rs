//! Stands in for a product that tells wrongly where undefined came from, to show that
//! the comparison finds it.

use super::{second, Calls};
use crate::calls::{accepted, report, Answer, Words, LEAST_WORDS};
use crate::eval::{evaluate, runs, Ended, Run};
use crate::generate::Call;
use crate::model::{Rule, Sheet};
use crate::origins::followed;
use crate::tree::Form;

/// The second evaluator itself, but for where undefined came from.
#[derive(Clone, Copy, PartialEq, Eq, Debug)]
pub enum Astray {
    /// Where both sides are undefined, the right one is followed.
    RightFollowed,
    /// In `forAll` and `exists` the last undefined body is followed.
    LastBody,
    /// The root is named, whatever it ran.
    Root,
    /// The step of the root is told.
    RootStep,
    /// The node above is named.
    Above,
    /// A `let` whose e is undefined is named itself.
    LetNamed,
    /// A call is named whose body is undefined.
    CallNamed,
    /// The source of a `collect` is named.
    CollectSource,
    /// The first undefined that arose is named, followed or not.
    FirstEver,
    /// The last one is.
    LastEver,
    /// Steps are counted from 0.
    FromZero,
    /// The step is told up to which the node ran.
    StepOfEnd,
    /// Steps are counted anew in a called body.
    StepInBody,
    /// Only the lower 16 bits of a step are told.
    StepCut,
    /// Only the lower 10 bits of a line are told.
    LineCut,
    /// The line of the rule or the definition is told.
    LineOfRule,
    /// The number of the node is told in place of its line.
    NodeNumber,
    /// A stop has a line too.
    StopLine,
    /// A verdict has a line too that lost an undefined.
    LostLine,
    /// An undefined verdict has no line for an object of a class below.
    OwnClass,
    /// The rules of an object come together.
    ByObject,
    /// 18 is by the report's lines too.
    ReportLength,
    /// Lines that just fit are too long.
    Room,
}

impl Astray {
    pub const ALL: [Astray; 23] = [
        Astray::RightFollowed,
        Astray::LastBody,
        Astray::Root,
        Astray::RootStep,
        Astray::Above,
        Astray::LetNamed,
        Astray::CallNamed,
        Astray::CollectSource,
        Astray::FirstEver,
        Astray::LastEver,
        Astray::FromZero,
        Astray::StepOfEnd,
        Astray::StepInBody,
        Astray::StepCut,
        Astray::LineCut,
        Astray::LineOfRule,
        Astray::NodeNumber,
        Astray::StopLine,
        Astray::LostLine,
        Astray::OwnClass,
        Astray::ByObject,
        Astray::ReportLength,
        Astray::Room,
    ];

    /// The position of the run that is named, if one is.
    fn named(self, runs: &[Run]) -> Option<usize> {
        let path = followed(runs);
        let mut own = arising(runs).into_iter();
        let word = |position: &&usize| runs[**position].node.form.word();
        let right = match self {
            Astray::RightFollowed => Some(["and", "or"]),
            Astray::LastBody => Some(["forAll", "exists"]),
            _ => None,
        };
        if let Some(words) = right {
            return last_followed(runs, &words);
        }
        let last = path.last();
        let above = last.and_then(|last| runs[*last].above);
        let turned = |words: &[&str]| path.iter().find(|at| words.contains(&word(at)));
        match self {
            Astray::Root => path.first().copied(),
            Astray::Above => above.or(last.copied()),
            Astray::LetNamed => let_of_value(runs, &path).or(last.copied()),
            Astray::CallNamed => turned(&["call"]).or(last).copied(),
            Astray::CollectSource => {
                let last = *last?;
                let is_collect = word(&&last) == "collect";
                Some(last + usize::from(is_collect))
            }
            Astray::FirstEver => last.and_then(|_| own.next()),
            Astray::LastEver => last.and_then(|_| own.next_back()),
            Astray::LostLine => last.copied().or_else(|| own.next()),
            Astray::StopLine => {
                let stopped = runs[0].ended == Ended::Stopped;
                last.copied().or_else(|| stopped.then(|| runs.len() - 1))
            }
            _ => last.copied(),
        }
    }

    /// The line and the step that are told of a run.
    fn told(self, text: &[u8], runs: &[Run], position: usize) -> (usize, usize) {
        let (line, step) = (runs[position].node.line, position + 1);
        let lines: Vec<&[u8]> = text.split(|byte| *byte == b'\n').collect();
        let heads = || {
            (1..line)
                .rev()
                .find(|at| matches!(lines[at - 1][0], b'R' | b'D'))
        };
        let is_below = |run: &usize| upward(runs, *run).any(|above| above == position);
        match self {
            Astray::RootStep => (line, 1),
            Astray::FromZero => (line, step - 1),
            Astray::StepOfEnd => {
                let below = (position..runs.len()).filter(is_below);
                (line, below.max().unwrap_or(position) + 1)
            }
            Astray::StepInBody => {
                let body = upward(runs, position).find(|run| is_body(runs, *run));
                (line, step - body.unwrap_or(0))
            }
            Astray::StepCut => (line, step % 65_536),
            Astray::LineCut => (line % 1_024, step),
            Astray::LineOfRule => (heads().unwrap_or(0), step),
            Astray::NodeNumber => (line - heads().unwrap_or(0) - 1, step),
            _ => (line, step),
        }
    }

    /// The line of a verdict, if it has one.
    fn line(self, text: &[u8], sheet: &Sheet, number: usize, object: u8) -> Option<String> {
        let rule: &Rule = &sheet.rules[number];
        let own = sheet.model.objects[usize::from(object)];
        if self == Astray::OwnClass && own != rule.context {
            return None;
        }
        // Only runs that are worth it are kept.
        let (outcome, _) = evaluate(sheet, rule, object);
        let may = matches!(self, Astray::LostLine | Astray::StopLine);
        if outcome != Ok(None) && !may {
            return None;
        }
        let runs = runs(sheet, rule, object);
        let position = self.named(&runs)?;
        let (line, step) = self.told(text, &runs, position);
        Some(format!("{number} {object} {line} {step}\n"))
    }

    /// The lines as they are told.
    fn lines(self, text: &[u8], sheet: &Sheet) -> Vec<u8> {
        let rules = (0..sheet.rules.len()).flat_map(|number| {
            let objects = sheet.model.objects_of(sheet.rules[number].context);
            objects.map(move |object| (number, object))
        });
        let mut verdicts: Vec<(usize, u8)> = rules.collect();
        if self == Astray::ByObject {
            verdicts.sort_by_key(|(number, object)| (*object, *number));
        }
        let lines = verdicts.into_iter();
        let lines = lines.filter_map(|(number, object)| self.line(text, sheet, number, object));
        lines.collect::<String>().into_bytes()
    }
}

/// The runs at which undefined arose, followed or not.
fn arising(runs: &[Run]) -> Vec<usize> {
    let is_blank = |position: &usize| runs[*position].is_undefined();
    let handed = |position: usize| {
        let mut runs = runs.iter();
        runs.any(|run| run.above == Some(position) && run.is_undefined())
    };
    let blank = (0..runs.len()).filter(is_blank);
    // Long evaluations have no other verdict of interest.
    blank
        .take(200)
        .filter(|position| !handed(*position))
        .collect()
}

/// The `let` whose value is undefined, if one is on the path.
fn let_of_value(runs: &[Run], path: &[usize]) -> Option<usize> {
    let of_value = |pair: &&[usize]| {
        let node = runs[pair[0]].node;
        node.form.word() == "let" && std::ptr::eq(&node.operands[0], runs[pair[1]].node)
    };
    path.windows(2).find(of_value).map(|pair| pair[0])
}

/// As `followed`, but that in forms with these words the last undefined operand is.
fn last_followed(runs: &[Run], words: &[&str]) -> Option<usize> {
    let mut at = followed(runs).first().copied()?;
    loop {
        let own =
            |position: &usize| runs[*position].above == Some(at) && runs[*position].is_undefined();
        let mut blank = (at + 1..runs.len()).filter(own);
        let next = if words.contains(&runs[at].node.form.word()) {
            blank.next_back()
        } else {
            blank.next()
        };
        match next {
            Some(next) => at = next,
            None => return Some(at),
        }
    }
}

/// A run, the one that it was an operand of, and so on.
fn upward<'r>(runs: &'r [Run], position: usize) -> impl Iterator<Item = usize> + 'r {
    std::iter::successors(Some(position), |position| runs[*position].above)
}

/// Whether a run is that of a called body.
fn is_body(runs: &[Run], position: usize) -> bool {
    let above = runs[position].above.map(|above| runs[above].node);
    above.is_some_and(|above| {
        matches!(above.form, Form::Call(_))
            && !std::ptr::eq(&above.operands[0], runs[position].node)
    })
}

impl Calls for Astray {
    fn call(&self, call: Call, text: &[u8], words: Words, out: &mut [u8]) -> Answer {
        if call != Call::Undefined {
            return second(call, text, words, out);
        }
        let room = out.len() - usize::from(*self == Astray::Room && !out.is_empty());
        let mut answer = second(call, text, words, &mut out[..room]);
        if answer.number != 0 {
            return answer;
        }
        if *self == Astray::ReportLength {
            let mut own = [0; 3].map(|word| vec![word; LEAST_WORDS]);
            let own = own.each_mut().map(Vec::as_mut_slice);
            let other = report(text, own, &mut vec![0; room]);
            return if other.number == 18 { other } else { answer };
        }
        let lines = accepted(text).map_or(Vec::new(), |(sheet, _)| self.lines(text, &sheet));
        if lines.len() <= room {
            out[..lines.len()].copy_from_slice(&lines);
            answer.length = lines.len() as u64;
        }
        answer
    }
}
