//! A list of calls about one board, compared: each answer and all verdicts with the second
//! evaluator's, and the verdicts after each accepted call with a report from nothing.

use super::board_cases::Happened;
use super::board_tally::BoardTally;
use super::boards::{call, Boards, Called, Second, Slices};
use super::shrink::shrink;
use crate::calls::{accepted, Answer, LEAST_VERDICTS};
use crate::generate::random::Random;
use crate::generate::turns::{turns, Tampering, Turn, What};
use crate::model::Sheet;
use crate::read::edits::edit;
use crate::report::verdicts;
use crate::rows::rows_seen;

/// The first call in which the two differ, sheet and list shortened.
pub struct Difference {
    pub text: Vec<u8>,
    pub turns: Vec<Turn>,
    pub how: String,
}

/// The calls that follow from the seed, about a board of the text.
pub fn corrected(
    boards: &dyn Boards,
    text: &[u8],
    seed: u64,
    tally: &mut BoardTally,
) -> Result<(), Difference> {
    let list = turns(&mut Random::new(seed), text);
    of_list(boards, text, &list, seed, tally)
}

/// The same for a list.
pub fn of_list(
    boards: &dyn Boards,
    text: &[u8],
    list: &[Turn],
    seed: u64,
    tally: &mut BoardTally,
) -> Result<(), Difference> {
    if differs(boards, text, list, seed, Some(tally)).is_none() {
        return Ok(());
    }
    let how = |text: &[u8], list: &[Turn]| differs(boards, text, list, seed, None);
    let mut list = list.to_vec();
    for at in (0..list.len()).rev() {
        let mut fewer = list.clone();
        fewer.remove(at);
        if how(text, &fewer).is_some() {
            list = fewer;
        }
    }
    let text = shrink(text, |text| how(text, &list).is_some());
    Err(Difference {
        how: how(&text, &list).unwrap_or_default(),
        turns: list,
        text,
    })
}

/// The first difference in a list. The garbage of a call follows from the seed.
pub fn differs(
    boards: &dyn Boards,
    text: &[u8],
    list: &[Turn],
    seed: u64,
    mut tally: Option<&mut BoardTally>,
) -> Option<String> {
    let mut run = Run::new(text, seed);
    for (at, turn) in list.iter().enumerate() {
        let how = run.turn(boards, turn, seed ^ at as u64, tally.as_deref_mut());
        if let Some(how) = how {
            return Some(format!("call {at}, {}: {how}", told(turn)));
        }
    }
    None
}

/// A call in words.
pub fn told(turn: &Turn) -> String {
    match &turn.what {
        What::Make => "making".to_string(),
        What::Edit(edit) => format!("edit {:?}", String::from_utf8_lossy(edit)),
        What::Touched(how, edit) => {
            format!("{how:?}, then edit {:?}", String::from_utf8_lossy(edit))
        }
    }
}

/// What both have made of a board so far.
struct Run<'t> {
    text: &'t [u8],
    is_refused: bool,
    /// The sheet with the values that the board has, where there is one.
    sheet: Option<Sheet>,
    ours: Slices,
    theirs: Slices,
    /// The bytes of the last verdicts, and the number of the last edit.
    length: usize,
    last: u64,
}

impl Run<'_> {
    fn new(text: &[u8], seed: u64) -> Run<'_> {
        let slices = Slices::garbage(&mut Random::new(seed));
        Run {
            text,
            is_refused: accepted(text).is_err(),
            sheet: None,
            ours: slices.clone(),
            theirs: slices,
            length: 0,
            last: 0,
        }
    }

    /// Whether what the call does is fixed: it is not where no board of this text lies in
    /// what is lent.
    fn is_bound(&self, turn: &Turn) -> bool {
        let is_lent = turn.verdicts >= self.length || turn.verdicts < LEAST_VERDICTS;
        match turn.what {
            What::Make => true,
            What::Edit(_) => self.is_refused || (self.sheet.is_some() && is_lent),
            What::Touched(..) => false,
        }
    }

    fn turn(
        &mut self,
        boards: &dyn Boards,
        turn: &Turn,
        seed: u64,
        tally: Option<&mut BoardTally>,
    ) -> Option<String> {
        if !self.is_bound(turn) {
            return self.touched(boards, turn, seed, tally);
        }
        let before = self.ours.verdicts(self.length).to_vec();
        let ours = call(&Second, self.text, turn, seed, &mut self.ours);
        let theirs = call(boards, self.text, turn, seed, &mut self.theirs);
        let answer = ours.answer;
        let difference = self.difference(ours, theirs);
        if difference.is_some() {
            return difference;
        }
        let after = self.ours.verdicts(answer.length as usize);
        if let Some(tally) = tally {
            tally.add(&Happened {
                text: self.text,
                turn,
                answer,
                sheet: self.sheet.as_ref(),
                before: &before,
                after,
                last: self.last,
            });
        }
        self.last = answer.number;
        self.taken(turn, answer)
    }

    /// How a call's answers differ, or what they leave in what was lent.
    fn difference(&self, ours: Called, theirs: Called) -> Option<String> {
        let answer = ours.answer;
        if let Some(broken) = ours.broken {
            return Some(format!("the second evaluator: {broken}"));
        }
        if theirs.answer != answer {
            return Some(format!("expected {answer:?}\n     got {:?}", theirs.answer));
        }
        if theirs.broken.is_some() {
            return theirs.broken;
        }
        let after = self.ours.verdicts(answer.length as usize);
        let other = self.theirs.verdicts(after.len());
        (after != other).then(|| unlike(after, other))
    }

    /// Takes what was accepted; how the verdicts then differ from a report from nothing, or
    /// the steps from those of the rules that see the row.
    fn taken(&mut self, turn: &Turn, answer: Answer) -> Option<String> {
        if answer.number != 0 {
            return None;
        }
        let mut edited = None;
        match (&turn.what, &mut self.sheet) {
            (What::Edit(bytes), Some(sheet)) => {
                let edit = edit(&sheet.model, bytes).ok()?;
                edited = Some(edit.row);
                sheet.model.edit(edit);
            }
            (_, sheet) => *sheet = accepted(self.text).ok().map(|(sheet, _)| sheet),
        }
        let sheet = self.sheet.as_ref()?;
        let mut lines = Vec::new();
        let mut steps = 0;
        for (number, rule) in sheet.rules.iter().enumerate() {
            let found = verdicts(sheet, number, usize::MAX, &mut lines).unwrap_or_default();
            let sees = |row: u8| rows_seen(sheet, rule).contains(&row);
            steps += found * u64::from(edited.is_some_and(sees));
        }
        self.length = answer.length as usize;
        let written = self.ours.verdicts(self.length);
        if written != lines {
            return Some(format!("not the report: {}", unlike(&lines, written)));
        }
        let told = answer.steps;
        (told != steps).then(|| format!("{told} steps and not {steps}"))
    }

    /// A call on copies of what is no board of this text: it need only end.
    fn touched(
        &self,
        boards: &dyn Boards,
        turn: &Turn,
        seed: u64,
        tally: Option<&mut BoardTally>,
    ) -> Option<String> {
        let (how, edit) = match &turn.what {
            What::Touched(how, edit) => (*how, edit),
            What::Edit(edit) => (Tampering::NoWords, edit),
            What::Make => return None,
        };
        let text = how.text(self.text);
        let turn = Turn {
            what: What::Touched(how, edit.clone()),
            ..turn.clone()
        };
        for (boards, slices) in [(&Second as &dyn Boards, &self.ours), (boards, &self.theirs)] {
            let mut slices = slices.clone();
            slices.tamper(how, self.length);
            let called = call(boards, &text, &turn, seed, &mut slices);
            if called.broken.is_some() {
                return called.broken;
            }
        }
        if let Some(tally) = tally {
            tally.add_touched(how);
        }
        None
    }
}

fn unlike(ours: &[u8], theirs: &[u8]) -> String {
    let spelt = |bytes: &[u8]| String::from_utf8_lossy(bytes).into_owned();
    format!("expected\n{}got\n{}", spelt(ours), spelt(theirs))
}
