//! Lists of calls about one board: making it, edits, and edits where it was touched.

use super::edits::{edit, Drawn};
use super::random::Random;
use super::{boards, length};
use crate::calls::{accepted, LEAST_BOARD, LEAST_VERDICTS, LEAST_WORDS, PROGRAM_OUTPUT};
use crate::model::{Edit, Model, Sheet};
use crate::read::edits;
use crate::read::{MOST_VALUES, MOST_VALUE_SIZES};
use crate::report::{report, steps_of};

/// A call about a board, and the lengths of what is lent to it.
#[derive(Clone, Debug)]
pub struct Turn {
    pub what: What,
    pub words: [usize; 3],
    pub board: usize,
    pub verdicts: usize,
    /// The numbers of the faults that were put into the edit.
    pub faults: Vec<u64>,
}

#[derive(Clone, PartialEq, Eq, Debug)]
pub enum What {
    Make,
    Edit(Vec<u8>),
    /// An edit of a copy of the board after something was done to it.
    Touched(Tampering, Vec<u8>),
}

/// What is done to a board between two calls.
#[derive(Clone, Copy, PartialEq, Eq, Debug)]
pub enum Tampering {
    /// One bit of a word is another one.
    Bit {
        word: usize,
        bit: u32,
    },
    /// Some words are others.
    Words(u64),
    /// All words are.
    AllWords(u64),
    NoWords,
    /// Some verdict bytes are others.
    Bytes(u64),
    /// The text is another one.
    Text(u64),
}

impl Tampering {
    fn drawn(random: &mut Random) -> Tampering {
        match random.below(8) {
            // The first words are likely to be the ones that count.
            0 => Tampering::Bit {
                word: random.below(80),
                bit: random.below(64) as u32,
            },
            1 | 2 => Tampering::Bit {
                word: random.below(LEAST_BOARD),
                bit: random.below(12) as u32,
            },
            3 => Tampering::Words(random.word()),
            4 => Tampering::AllWords(random.word()),
            5 => Tampering::NoWords,
            6 => Tampering::Bytes(random.word()),
            _ => Tampering::Text(random.word()),
        }
    }

    /// The text that an edit is given after it.
    pub fn text(self, text: &[u8]) -> Vec<u8> {
        match self {
            Tampering::Text(seed) => {
                let mut random = Random::new(seed);
                if random.one_in(2) {
                    // The same rules, with some of the values left out.
                    let lines = text.split_inclusive(|byte| *byte == b'\n');
                    let kept = lines.filter(|line| line[0] != b'V' || random.one_in(2));
                    return kept.collect::<Vec<_>>().concat();
                }
                boards::sheet(&mut random)
            }
            _ => text.to_vec(),
        }
    }
}

/// The steps of all verdicts together that the turns of a list may take.
const MOST_STEPS: u64 = 3_000_000;

/// The calls of a list, drawn one after the other.
struct Drawing {
    sheet: Sheet,
    /// The bytes of the verdicts on it.
    verdicts: usize,
    /// The text's own values, and the bytes of the verdicts on them.
    first: Model,
    first_verdicts: usize,
    turns: Vec<Turn>,
    last: Option<(u8, u8)>,
}

/// What is done with a board of a text. Where the sheet is refused, so is everything.
pub fn turns(random: &mut Random, text: &[u8]) -> Vec<Turn> {
    let Ok((sheet, _)) = accepted(text) else {
        let edits =
            [&b"V\t0\t0\t1\n"[..], b"V\t0\t0\t-\n", b""].map(|edit| What::Edit(edit.to_vec()));
        let whats = [What::Make].into_iter().chain(edits);
        return whats
            .map(|what| turn(random, what, LEAST_VERDICTS))
            .collect();
    };
    let (verdicts, steps) = written(&sheet);
    let mut drawing = Drawing {
        first: sheet.model.clone(),
        first_verdicts: verdicts,
        sheet,
        verdicts,
        turns: Vec::new(),
        last: None,
    };
    drawing.make(random);
    let most = (MOST_STEPS / (steps + 1)).clamp(2, 14) as usize;
    for _ in 0..random.between(2, most) {
        match random.below(24) {
            0 => drawing.make(random),
            1 | 2 => drawing.touch(random),
            _ => drawing.edit(random),
        }
    }
    drawing.touch(random);
    drawing.turns
}

/// The bytes and the steps of all verdicts.
fn written(sheet: &Sheet) -> (usize, u64) {
    let lines = report(sheet, usize::MAX).unwrap_or_default();
    (lines.len(), steps_of(&lines))
}

/// A call with lengths that are mostly enough for so many bytes.
fn turn(random: &mut Random, what: What, verdicts: usize) -> Turn {
    let verdicts = match random.below(40) {
        0 => LEAST_VERDICTS - 1,
        1 => random.below(LEAST_VERDICTS),
        2..=30 => verdicts.max(LEAST_VERDICTS),
        _ => random.between(
            verdicts.clamp(LEAST_VERDICTS, PROGRAM_OUTPUT),
            PROGRAM_OUTPUT,
        ),
    };
    Turn {
        what,
        words: std::array::from_fn(|_| length(random, LEAST_WORDS, LEAST_WORDS + 300)),
        board: length(random, LEAST_BOARD, LEAST_BOARD + 300),
        verdicts: verdicts.min(PROGRAM_OUTPUT),
        faults: Vec::new(),
    }
}

impl Drawing {
    /// Makes the board of the text, whose own values count from then on; before that, now
    /// and then, with a byte too little.
    fn make(&mut self, random: &mut Random) {
        let length = self.first_verdicts;
        if length > LEAST_VERDICTS && random.one_in(2) {
            self.turns.push(turn(random, What::Make, length - 1));
        }
        let made = turn(random, What::Make, length);
        if is_enough(&made) && length <= made.verdicts {
            self.sheet.model = self.first.clone();
            self.verdicts = length;
        }
        self.turns.push(made);
    }

    fn edit(&mut self, random: &mut Random) {
        let model = &self.sheet.model;
        let Drawn { bytes, faults } = edit(random, model, self.last);
        let good = edits::edit(model, &bytes).ok();
        let Some(good) = good else {
            let refused = turn(random, What::Edit(bytes), self.verdicts);
            self.turns.push(Turn { faults, ..refused });
            return;
        };
        self.last = Some((good.object, good.row));
        let undone = Edit {
            value: model.value(good.object, good.row).cloned(),
            ..good
        };
        self.sheet.model.edit(good);
        let model = &self.sheet.model;
        let is_full = model.values.len() > MOST_VALUES || model.value_sizes() > MOST_VALUE_SIZES;
        let (length, _) = written(&self.sheet);
        // Just enough, a byte too little, or just what there was.
        let room = match random.below(6) {
            _ if is_full => self.verdicts,
            0 | 1 => length - usize::from(length > self.verdicts),
            2 => self.verdicts,
            _ => length,
        };
        let room = room.max(self.verdicts).max(LEAST_VERDICTS);
        let drawn = turn(random, What::Edit(bytes), room);
        let is_taken = !is_full && length <= drawn.verdicts && is_enough(&drawn);
        self.turns.push(Turn { faults, ..drawn });
        if is_taken {
            self.verdicts = length;
        } else {
            self.sheet.model.edit(undone);
        }
    }

    fn touch(&mut self, random: &mut Random) {
        let how = Tampering::drawn(random);
        let Drawn { bytes, .. } = edit(random, &self.sheet.model, self.last);
        let touched = turn(random, What::Touched(how, bytes), self.verdicts);
        self.turns.push(touched);
    }
}

/// Whether nothing lent is too short.
fn is_enough(turn: &Turn) -> bool {
    let words = turn.words.iter().all(|words| *words >= LEAST_WORDS);
    words && turn.board >= LEAST_BOARD && turn.verdicts >= LEAST_VERDICTS
}
