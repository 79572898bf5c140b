//! Stands in for a product that misreads texts, to show that the comparison finds it.

use super::text_cases::TextCase;
use super::texts::Texts;
use super::{second, Calls};
use crate::calls::{Answer, Words};
use crate::generate::Call;

/// The second evaluator itself, but for one case, in which another number is given:
/// for 0, an answer of nothing or, where there was one already, another one.
#[derive(Clone, Copy, Debug)]
pub struct Misreading {
    pub case: TextCase,
    pub number: u64,
}

/// What a wrong reader would do: take what is none, or refuse it for something else.
pub const MISREADINGS: [Misreading; 31] = [
    wrong(TextCase::OpenSentence, 0),
    wrong(TextCase::OpenElse, 20),
    wrong(TextCase::OpenByIf, 20),
    wrong(TextCase::OpenAfterClosed, 20),
    wrong(TextCase::LooksLikeIf, 4),
    wrong(TextCase::Empty, 3),
    wrong(TextCase::SecondComparison, 0),
    wrong(TextCase::OneSidedMinus, 0),
    wrong(TextCase::LetInside, 0),
    wrong(TextCase::FifthMember, 0),
    wrong(TextCase::LeadingZero, 0),
    wrong(TextCase::RunTogether, 0),
    wrong(TextCase::WholeReal, 3),
    wrong(TextCase::NoSentenceAndLimit, 4),
    wrong(TextCase::NoSentenceOutOfPlace, 5),
    wrong(TextCase::ManyLetsElse, 4),
    wrong(TextCase::OverReal, 20),
    wrong(TextCase::OverNodes, 8),
    wrong(TextCase::LimitOutOfPlace, 5),
    wrong(TextCase::InDefinition, 0),
    wrong(TextCase::AfterNodes, 8),
    wrong(TextCase::AfterText, 0),
    wrong(TextCase::NodesAfter, 0),
    wrong(TextCase::NodesAfterDeep, 8),
    wrong(TextCase::OrderBeforePart, 6),
    wrong(TextCase::PartBeforeDefinition, 24),
    wrong(TextCase::MostOpen, 4),
    wrong(TextCase::Deepest, 8),
    wrong(TextCase::LeaningMinus, 0),
    wrong(TextCase::AndInOr, 0),
    wrong(TextCase::NotInComparison, 0),
];

const fn wrong(case: TextCase, number: u64) -> Misreading {
    Misreading { case, number }
}

impl Calls for Misreading {
    fn call(&self, call: Call, text: &[u8], words: Words, out: &mut [u8]) -> Answer {
        let answer = second(call, text, words, out);
        let met = Texts::of(text).map_or(Vec::new(), |texts| texts.met(call, answer));
        if !met.contains(&self.case) {
            return answer;
        }
        if self.number == answer.number {
            out[0] ^= 1;
        }
        Answer {
            number: self.number,
            ..answer
        }
    }
}
