//! One call compared: all four numbers, every word and byte lent, and the words
//! and bytes around them.

use super::{second, Calls};
use crate::calls::{Answer, Words, LEAST_OUTPUT, LEAST_WORDS, PROGRAM_OUTPUT};
use crate::generate::random::Random;
use crate::generate::{Ask, Call};
use std::cell::RefCell;
use std::sync::LazyLock;
use std::thread;

/// Words and bytes around each slice that no call may touch.
pub(super) const MARGIN: usize = 16;

/// The garbage that all of what is lent is cut from, made once: several times
/// the longest slice, so that two cuts are hardly ever the same.
pub(super) static GARBAGE: LazyLock<(Vec<u64>, Vec<u8>)> = LazyLock::new(|| {
    let mut random = Random::new(0);
    let words: Vec<u64> = (0..PROGRAM_OUTPUT).map(|_| random.word()).collect();
    let bytes = words.iter().flat_map(|word| word.to_ne_bytes()).collect();
    (words, bytes)
});

/// A piece of the garbage as long as a slice with its margins, from anywhere.
pub(super) fn cut<'g, T>(random: &mut Random, garbage: &'g [T], length: usize) -> &'g [T] {
    let length = length + 2 * MARGIN;
    let start = random.below(garbage.len() - length);
    &garbage[start..start + length]
}

/// What is lent, in the middle of what is not, all of it garbage.
#[derive(Default)]
struct Lent {
    words: [Vec<u64>; 3],
    out: Vec<u8>,
}

thread_local! {
    /// Memory for the second evaluator and for the other, used again and again.
    static LENT: RefCell<[Lent; 2]> = RefCell::default();
}

impl Lent {
    fn fill(&mut self, seed: u64, ask: Ask) {
        let mut random = Random::new(seed);
        let (words, bytes) = &*GARBAGE;
        for (lent, length) in self.words.iter_mut().zip(ask.words) {
            lent.clear();
            lent.extend_from_slice(cut(&mut random, words, length));
        }
        self.out.clear();
        self.out.extend_from_slice(cut(&mut random, bytes, ask.out));
    }

    fn slices(&mut self) -> (Words<'_>, &mut [u8]) {
        let words = (self.words.each_mut()).map(|words| {
            let end = words.len() - MARGIN;
            &mut words[MARGIN..end]
        });
        let end = self.out.len() - MARGIN;
        (words, &mut self.out[MARGIN..end])
    }
}

/// What the second evaluator answers and, where the other differs, how.
pub struct Compared {
    pub answer: Answer,
    /// What the second evaluator writes.
    pub written: Vec<u8>,
    pub difference: Option<String>,
}

/// Makes the call on both; the garbage in what is lent follows from the seed.
pub fn compare(calls: &dyn Calls, text: &[u8], ask: Ask, seed: u64) -> Compared {
    LENT.with_borrow_mut(|[ours, theirs]| {
        ours.fill(seed, ask);
        theirs.fill(seed, ask);
        compare_lent(calls, text, ask.call, ours, theirs)
    })
}

fn compare_lent(
    calls: &dyn Calls,
    text: &[u8],
    call: Call,
    ours: &mut Lent,
    theirs: &mut Lent,
) -> Compared {
    let (words, out) = ours.slices();
    let answer = second(call, text, words, out);
    let copy = text.to_vec();
    let (words, out) = theirs.slices();
    let other = on_stack(calls, call, &copy, words, out);
    let written = ours.slices().1[..answer.length as usize].to_vec();
    let difference = if answer != other {
        Some(format!("expected {answer:?}\n     got {other:?}"))
    } else if let Some(slice) = (0..3).find(|slice| ours.words[*slice] != theirs.words[*slice]) {
        let place = first_unlike(&ours.words[slice], &theirs.words[slice]);
        Some(format!("word {place} of word slice {slice}"))
    } else if ours.out != theirs.out {
        let place = first_unlike(&ours.out, &theirs.out);
        let (ours, theirs) = (spelt(ours, answer), spelt(theirs, answer));
        Some(format!(
            "byte {place} of the output\nexpected {ours}\n     got {theirs}"
        ))
    } else {
        (copy != text).then(|| "the text was changed".to_string())
    };
    Compared {
        answer,
        written,
        difference,
    }
}

/// The answer to a call that is lent the least it can be, garbage that follows from
/// the seed, and what it writes.
pub(super) fn answered(calls: &dyn Calls, call: Call, text: &[u8], seed: u64) -> (Answer, String) {
    let ask = Ask {
        call,
        words: [LEAST_WORDS; 3],
        out: LEAST_OUTPUT,
    };
    LENT.with_borrow_mut(|[lent, _]| {
        lent.fill(seed, ask);
        let (words, out) = lent.slices();
        let answer = on_stack(calls, call, text, words, out);
        (answer, spelt(lent, answer))
    })
}

/// Where two slices differ first, counted from the start of what is lent.
pub(super) fn first_unlike<T: PartialEq>(left: &[T], right: &[T]) -> isize {
    let unlike = left
        .iter()
        .zip(right)
        .position(|(left, right)| left != right);
    unlike.unwrap_or(left.len()) as isize - MARGIN as isize
}

fn spelt(lent: &mut Lent, answer: Answer) -> String {
    let (_, out) = lent.slices();
    let length = (answer.length as usize).min(out.len());
    String::from_utf8_lossy(&out[..length]).into_owned()
}

pub(super) fn on_stack(
    calls: &dyn Calls,
    call: Call,
    text: &[u8],
    words: Words,
    out: &mut [u8],
) -> Answer {
    let Some(stack) = calls.stack() else {
        return calls.call(call, text, words, out);
    };
    thread::scope(|scope| {
        thread::Builder::new()
            .stack_size(stack)
            .spawn_scoped(scope, || calls.call(call, text, words, out))
            .expect("a thread can be started")
            .join()
            .expect("the call returns")
    })
}
