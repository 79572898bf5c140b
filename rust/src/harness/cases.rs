//! The cases that a comparison must have met, beside each number of each call: what
//! one rule does to the answers for others, what definitions and calls do, and Reals.

use super::definitions::Definitions;
use super::named::cases;
use super::reals::Reals;
use crate::calls::Answer;
use crate::generate::Call;
use crate::model::Sheet;
use crate::read::read;
use crate::typing::type_rule;

/// The rules of a sheet, 0 to 63.
const MOST_RULES: usize = 64;
/// The bytes of 64 lines that have all of 64 rows.
const MOST_ROWS: u64 = 11_830;

cases! {
    Case:
    NoRules: "read a sheet without rules",
    MostRules: "read the types of as many rules as a sheet can have",
    MostRows: "tell as many rows of as many rules as a sheet can have",
    EarlierRule: "evaluate a rule, an earlier one does not type",
    LaterRule: "evaluate a rule, only later ones do not type",
    TwoRules: "evaluate a rule that does not type, an earlier one neither",
    AbsentRule: "evaluate an absent rule, one does not type",
    AbsentObject: "evaluate for an absent object, a rule does not type",
    OtherClass: "evaluate for another class, a rule does not type",
    MostDefinitions: "as many definitions as a sheet can have",
    CallsItself: "a definition that calls itself",
    CallsLater: "a definition that calls a later one",
    CallsAbsent: "a definition that calls an absent one",
    DeepRule: "a rule that only its calls make too deep",
    DeepDefinition: "a definition that only its calls make too deep",
    DeepestCall: "a rule that its calls make as deep as can be",
    BodyType: "a body that is not below its type",
    CallOperand: "a call for what is not of its class",
    UnusedDefinition: "a definition that no rule reaches does not type",
    DefinitionAndRule: "a definition does not type, a rule neither",
    UntypedDefinition: "evaluate a rule, a definition does not type",
    CallInLoop: "evaluate a rule with a call in an iteration's body",
    SubclassObject: "evaluate a rule with a call for an object of a subclass",
    OwnRow: "evaluate a body whose row is not the one of the caller's class",
    VariableAfter: "evaluate a rule that reads a variable after a call binds it",
    StepStopCalled: "evaluate a rule with calls up to the step stop",
    SizeStopCalled: "evaluate a rule with calls up to the size stop",
    RangeStopCalled: "evaluate a rule with calls up to the range's end",
    SpeltInteger: "a Real spelled that is an Integer",
    SpeltMinusZero: "a Real spelled that is minus zero",
    SpeltCapital: "a Real spelled with a capital digit",
    SpeltInfinite: "an infinity spelled",
    SpeltNan: "a NaN spelled",
    SpeltBoth: "an infinity or a NaN beside an Integer spelled as a Real",
    RealForInteger: "a Real for a row of Integers",
    MembersOfBoth: "an Integer and a Real out of order",
    RealTwice: "a Real twice in a Set",
    DivisionOfReal: "div or mod of a Real",
    CastOfReal: "as of a Real",
    TypeReal: "read the type Real",
    LongestValue: "evaluate to the longest value",
    Widened: "two Integers that widened leave their range",
    WholeResult: "a whole result from a Real",
    HalfResult: "a result halfway between two Integers",
    RangeEnd: "a result that is the least or the largest Integer",
    PastRange: "a result just past an end of the Integer range",
    MinusZeroResult: "a result that would be minus zero, and so 0",
    SmallOperand: "an operand too small to be normal",
    SmallResult: "a result rounded that is too small to be normal",
    Underflow: "a result too small, and so 0",
    Tie: "a result halfway between two numbers",
    NearTieSum: "a sum or a difference next to a tie",
    NearTieProduct: "a product next to a tie",
    NearTieQuotient: "a quotient next to a tie",
    LargestResult: "a result rounded to the largest number",
    InfiniteResult: "an infinite result",
    ZeroDivisor: "over by zero",
    LessOfBoth: "less of an Integer and a Real",
    SetOfBoth: "evaluate to a Set of Integers and Reals",
    CastOfAny: "as of a Real that is typed Any",
}

/// A text, and which rules type if it can be read.
pub struct Cases<'t> {
    definitions: Definitions<'t>,
    reals: Reals<'t>,
    rules: Option<Rules>,
}

impl Cases<'_> {
    pub fn of(text: &[u8]) -> Cases<'_> {
        let rules = Rules::of(text);
        Cases {
            definitions: Definitions::of(text),
            reals: Reals::of(text),
            rules,
        }
    }

    /// The cases that a call with this answer is.
    pub fn met(&self, call: Call, answer: Answer) -> Vec<Case> {
        let rules = self.rules.as_ref();
        let mut met = self.definitions.refused(answer);
        met.extend(self.reals.refused(answer));
        met.extend(self.reals.answered(call, answer));
        met.extend(rules.and_then(|rules| rules.case(call, answer)));
        if let Some(Rules { sheet, typed }) = rules {
            met.extend(self.definitions.read(sheet, typed, call, answer));
        }
        met
    }
}

/// A sheet that is read, and which of its rules type.
struct Rules {
    sheet: Sheet,
    typed: Vec<bool>,
}

impl Rules {
    fn of(text: &[u8]) -> Option<Rules> {
        let mut sheet = read(text).ok()?;
        let Sheet {
            model,
            definitions,
            rules,
        } = &mut sheet;
        let rules = rules.iter_mut();
        let typed = rules.map(|rule| type_rule(model, definitions, rule).is_ok());
        Some(Rules {
            typed: typed.collect(),
            sheet,
        })
    }

    /// The case that a call with this answer is, if it is one of several rules.
    fn case(&self, call: Call, answer: Answer) -> Option<Case> {
        match (call, answer.number) {
            (Call::Read, 0) if self.typed.is_empty() => Some(Case::NoRules),
            (Call::Read, 0) if self.typed.len() == MOST_RULES => Some(Case::MostRules),
            (Call::Rows, 0) if answer.length == MOST_ROWS => Some(Case::MostRows),
            (Call::Evaluate { rule, object }, 9..=13) => self.untyped(rule, object),
            _ => None,
        }
    }

    /// Where some rule does not type: how it has to do with what was asked for.
    fn untyped(&self, rule: u64, object: u64) -> Option<Case> {
        let Sheet { model, rules, .. } = &self.sheet;
        if !self.typed.contains(&false) {
            return None;
        }
        if rule >= rules.len() as u64 {
            return Some(Case::AbsentRule);
        }
        if object >= model.objects.len() as u64 {
            return Some(Case::AbsentObject);
        }
        let rule = rule as usize;
        if !model.is_of(object as u8, rules[rule].context) {
            return Some(Case::OtherClass);
        }
        let earlier = self.typed[..rule].contains(&false);
        match (earlier, self.typed[rule]) {
            (true, true) => Some(Case::EarlierRule),
            (true, false) => Some(Case::TwoRules),
            (false, true) => Some(Case::LaterRule),
            (false, false) => None,
        }
    }
}
