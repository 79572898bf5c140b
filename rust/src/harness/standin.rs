//! Stands in for the product: the second evaluator itself, with a fault or
//! without, to show that the comparison finds what it must.

use super::cases::{Case, Cases};
use super::faults::Fault;
use super::{second, Calls};
use crate::calls::{Answer, Words, LEAST_OUTPUT, LEAST_WORDS};
use crate::generate::Call;

pub struct StandIn {
    pub fault: Fault,
}

impl Calls for StandIn {
    fn call(&self, call: Call, text: &[u8], words: Words, out: &mut [u8]) -> Answer {
        let [first, middle, last] = words;
        let left = middle.get(LEAST_WORDS - 1).copied();
        let call = self.cut(call);
        let words = [&mut *first, &mut *middle, &mut *last];
        let mut answer = self.answer(call, text, words, out);
        let number = answer.number;
        let length = answer.length as usize;
        match self.fault {
            // Timed too, so nothing more is done.
            Fault::None => {}
            Fault::Place if answer.place > 0 => answer.place += 1,
            Fault::PlaceOfStop if matches!(number, 16 | 17 | 19) => answer.place = 1,
            Fault::Steps if answer.steps > 0 => answer.steps += 1,
            Fault::StepsOfStop if matches!(number, 17 | 19) => answer.steps = 0,
            Fault::Length if answer.length > 0 => answer.length += 1,
            Fault::Number if number == 10 => answer.number = 11,
            Fault::UpwardUnknown if number == 23 => answer.number = 24,
            Fault::UnknownPart if number == 24 => answer.number = 6,
            Fault::WordLeft if number != 1 => middle[LEAST_WORDS - 1] = left.unwrap_or(0),
            Fault::WordBeyond if number != 1 && last.len() > LEAST_WORDS => last[LEAST_WORDS] = 0,
            Fault::WipedWhenShort if number == 1 => first.fill(0),
            Fault::OutputOfRefusal if number > 1 => out[0] ^= 1,
            Fault::OutputBeyond if length > 0 && length < out.len() => out[length] ^= 1,
            Fault::OutputWrong if length > 0 => out[length - 1] ^= 1,
            Fault::LastLineFeed if call == Call::Read && length > 0 => answer.length -= 1,
            Fault::TypesOfRefusal if call == Call::Read && matches!(number, 9..=13) => {
                out[..5].copy_from_slice(b"Bool\n");
            }
            _ => self.alter(call, text, &mut answer, out),
        }
        answer
    }
}

impl StandIn {
    /// The call with its numbers as the fault reads them.
    fn cut(&self, call: Call) -> Call {
        match (self.fault, call) {
            (Fault::RuleCut, Call::Evaluate { rule, object }) => Call::Evaluate {
                rule: rule as u32 as u64,
                object,
            },
            (Fault::ObjectCut, Call::Evaluate { rule, object }) => Call::Evaluate {
                rule,
                object: object as u8 as u64,
            },
            _ => call,
        }
    }

    /// The answer as if something were left out, or done in another way or order.
    fn alter(&self, call: Call, text: &[u8], answer: &mut Answer, out: &mut [u8]) {
        for case in Cases::of(text).met(call, *answer) {
            match (self.fault, case) {
                (Fault::EarlierRule, Case::EarlierRule)
                | (Fault::LaterRule, Case::LaterRule)
                | (Fault::BareDepth, Case::DeepRule | Case::DeepDefinition)
                | (Fault::BodyType, Case::BodyType)
                | (Fault::UnusedDefinition, Case::UnusedDefinition)
                | (Fault::WholeTaken, Case::SpeltInteger)
                | (Fault::MinusZeroTaken, Case::SpeltMinusZero)
                | (Fault::CapitalTaken, Case::SpeltCapital)
                | (Fault::NanTaken, Case::SpeltNan)
                | (Fault::RealForInteger, Case::RealForInteger)
                | (Fault::KindsApart, Case::MembersOfBoth)
                | (Fault::DivisionOfReal, Case::DivisionOfReal) => *answer = bare(0),
                (Fault::InfinityMisspelt, Case::SpeltInfinite) => answer.number = 3,
                (Fault::LimitFirst, Case::SpeltBoth) => answer.number = 4,
                (Fault::AskedFirst, Case::TwoRules)
                | (Fault::RulesFirst, Case::DefinitionAndRule) => answer.place += 1,
                (Fault::AbsentRuleFirst, Case::AbsentRule)
                | (Fault::AbsentObjectFirst, Case::AbsentObject) => *answer = bare(14),
                (Fault::OtherClassFirst, Case::OtherClass) => *answer = bare(15),
                _ => self.miscalculate(case, answer, out),
            }
        }
    }

    /// The answer as if a number were rounded or held in another way.
    fn miscalculate(&self, case: Case, answer: &mut Answer, out: &mut [u8]) {
        match (self.fault, case) {
            (Fault::InfiniteValue, Case::InfiniteResult) => *answer = bare(0),
            (Fault::ByValues, Case::Widened)
            | (Fault::PastRangeStop, Case::PastRange)
            | (Fault::LargestInfinite, Case::LargestResult)
            | (Fault::ZeroDivisorStop, Case::ZeroDivisor) => *answer = bare(19),
            (Fault::WholeLeft, Case::WholeResult)
            | (Fault::MinusZeroLeft, Case::MinusZeroResult) => answer.length += 16,
            (Fault::TieAway, Case::Tie)
            | (Fault::TieNear, Case::NearTieSum | Case::NearTieProduct | Case::NearTieQuotient)
            | (Fault::SmallAsZero, Case::SmallResult)
            | (Fault::HalfCut, Case::HalfResult)
                if answer.length > 0 =>
            {
                out[0] ^= 1
            }
            _ => {}
        }
    }

    /// The second evaluator's answer within the lengths that the fault takes for
    /// lent.
    fn answer(&self, call: Call, text: &[u8], words: Words, out: &mut [u8]) -> Answer {
        match self.fault {
            Fault::ShortWords if words[2].len() == LEAST_WORDS - 1 => {
                let [first, middle, last] = words;
                let mut longer = vec![0; LEAST_WORDS];
                last.fill(0);
                second(call, text, [first, middle, &mut longer], out)
            }
            Fault::ShortOutput if out.len() == LEAST_OUTPUT - 1 => {
                lengthened(call, text, words, out)
            }
            Fault::OldMinimum
                if call == Call::Read && (2_048..LEAST_OUTPUT).contains(&out.len()) =>
            {
                lengthened(call, text, words, out)
            }
            Fault::ReportRoom if call == Call::Report && out.len() > LEAST_OUTPUT => {
                let room = out.len() - 1;
                second(call, text, words, &mut out[..room])
            }
            _ => second(call, text, words, out),
        }
    }
}

/// The answer with an output that is long enough, brought back into the one lent.
fn lengthened(call: Call, text: &[u8], words: Words, out: &mut [u8]) -> Answer {
    let mut longer = vec![0; LEAST_OUTPUT];
    let answer = second(call, text, words, &mut longer);
    let length = answer.length as usize;
    out[..length].copy_from_slice(&longer[..length]);
    answer
}

/// An answer of nothing but its number.
fn bare(number: u64) -> Answer {
    Answer {
        number,
        ..Answer::default()
    }
}
