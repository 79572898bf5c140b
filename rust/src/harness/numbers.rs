//! What is seen where two numbers are computed with.

use super::cases::Case;
use crate::binary64::{integer, Operation, Rounded};
use crate::eval::evaluate_node;
use crate::model::Sheet;
use crate::numbers::Number;
use crate::tree::{Form, Node, Scale};
use crate::types::Kind;
use crate::values::Value;

/// The nodes that run without a variable bound, as long as none is undefined.
pub fn closed(root: &Node) -> Vec<&Node> {
    let strict = match root.form {
        Form::Let(_) | Form::Iter { .. } | Form::ForAll(_) | Form::Exists(_) | Form::If => 1,
        Form::And | Form::Or => 1,
        _ => root.operands.len(),
    };
    let mut found = vec![root];
    found.extend(root.operands[..strict].iter().flat_map(closed));
    found
}

/// A Set that holds an Integer and a Real.
pub fn is_mixed(value: &Value) -> bool {
    let Value::Collection(collection) = value else {
        return false;
    };
    let has = |integer: bool| {
        collection.members.iter().any(|member| match member {
            Value::Number(number) => number.integer().is_some() == integer,
            _ => false,
        })
    };
    collection.kind == Kind::Set && has(true) && has(false)
}

/// What a node does with numbers.
pub fn computed(sheet: &Sheet, node: &Node, object: u8) -> Vec<Case> {
    let by_reals = match node.form {
        Form::Less(mark) | Form::Plus(mark) | Form::Minus(mark) | Form::Times(mark) => {
            mark == Some(Scale::Reals)
        }
        Form::Over | Form::As(_) => true,
        _ => false,
    };
    if !by_reals {
        return Vec::new();
    }
    let number = |operand: &Node| match evaluate_node(sheet, operand, object).0 {
        Ok(Some(Value::Number(number))) => Some(number),
        _ => None,
    };
    let numbers: Option<Vec<Number>> = node.operands.iter().map(number).collect();
    match (&node.form, numbers.as_deref()) {
        (Form::As(_), Some([number])) if number.integer().is_none() => vec![Case::CastOfAny],
        (form, Some([left, right])) => of_two(form, left.widened(), right.widened()),
        _ => Vec::new(),
    }
}

/// What a form does with two numbers, both widened.
pub fn of_two(form: &Form, left: f64, right: f64) -> Vec<Case> {
    let integers = [left, right].map(|number| integer(number).is_some());
    match form.operation() {
        None if integers[0] != integers[1] => vec![Case::LessOfBoth],
        None => Vec::new(),
        Some(Operation::Over) if right == 0.0 => vec![Case::ZeroDivisor],
        Some(operation) => {
            let rounded = operation.checked(left, right);
            let mut met = rounding(operation, rounded);
            met.extend(results(operation, rounded.number, integers));
            let small = |number: f64| number.is_subnormal();
            if small(left) || small(right) {
                met.push(Case::SmallOperand);
            }
            let none = left != 0.0 && right != 0.0 && rounded.number == 0.0;
            if none && !matches!(operation, Operation::Plus | Operation::Minus) {
                met.push(Case::Underflow);
            }
            met
        }
    }
}

/// What was lost by rounding, if it is remarkable.
fn rounding(operation: Operation, rounded: Rounded) -> Vec<Case> {
    let Rounded { number, rest, half } = rounded;
    let mut met = Vec::new();
    if half > 0 && rest == half {
        met.push(Case::Tie);
    }
    // Within a millionth of a tie.
    if (1..=half >> 20).contains(&rest.abs_diff(half)) {
        met.push(match operation {
            Operation::Plus | Operation::Minus => Case::NearTieSum,
            Operation::Times => Case::NearTieProduct,
            Operation::Over => Case::NearTieQuotient,
        });
    }
    if rest > 0 && number.is_subnormal() {
        met.push(Case::SmallResult);
    }
    if rest > 0 && number.abs() == f64::MAX {
        met.push(Case::LargestResult);
    }
    met
}

/// What number the result is, if it is remarkable.
fn results(operation: Operation, result: f64, integers: [bool; 2]) -> Vec<Case> {
    if result.is_infinite() {
        return vec![Case::InfiniteResult];
    }
    let whole = integer(result);
    let by_integers = integers == [true, true] && operation != Operation::Over;
    let ends = [f64::from(i32::MIN), f64::from(i32::MAX)];
    let past = |end: &f64| (result - end).abs() <= 1.0;
    let cases = [
        (Case::Widened, by_integers && whole.is_none()),
        (
            Case::WholeResult,
            integers != [true, true] && whole.is_some() && result != 0.0,
        ),
        (
            Case::MinusZeroResult,
            result == 0.0 && result.is_sign_negative(),
        ),
        (Case::HalfResult, result.fract().abs() == 0.5),
        (
            Case::RangeEnd,
            integers != [true, true] && ends.contains(&result),
        ),
        (
            Case::PastRange,
            whole.is_none() && ends.iter().any(past) && result.abs() > ends[1],
        ),
    ];
    let met = cases.into_iter().filter(|(_, met)| *met);
    met.map(|(case, _)| case).collect()
}
