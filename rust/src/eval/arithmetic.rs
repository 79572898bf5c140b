//! Arithmetic and `less`, on Integers or on both kinds of number, as marked.

use super::{integer, End, Evaluation, Outcome, Stop, STUCK};
use crate::binary64::{less, Operation};
use crate::numbers::Number;
use crate::tree::{Form, Node, Scale};
use crate::values::Value;

impl<'m> Evaluation<'m> {
    pub(super) fn arithmetic(&mut self, form: &Form, operands: &'m [Node], here: End) -> Outcome {
        let scale = scale(form);
        let left = self.number(&operands[0], scale)?;
        let right = self.number(&operands[1], scale)?;
        match (form, scale) {
            (Form::Less(_), _) => Ok(Value::Bool(less(left.widened(), right.widened()))),
            (_, Scale::Integers) => exact(form, left, right, here),
            (_, Scale::Reals) => rounded(form, left, right, here),
        }
    }

    fn number(&mut self, node: &'m Node, scale: Scale) -> Result<Number, End> {
        match self.node(node)? {
            Value::Number(number) if scale == Scale::Reals || number.integer().is_some() => {
                Ok(number)
            }
            _ => Err(STUCK),
        }
    }
}

/// The numbers that a form takes.
fn scale(form: &Form) -> Scale {
    match form {
        Form::Less(mark) | Form::Plus(mark) | Form::Minus(mark) | Form::Times(mark) => {
            mark.expect("typing marks arithmetic and less")
        }
        Form::Over => Scale::Reals,
        _ => Scale::Integers,
    }
}

/// No operation on two Integers of 32 bits overflows 64: only a zero divisor gives
/// none, and an exact result that leaves the range is a stop.
fn exact(form: &Form, left: Number, right: Number, here: End) -> Outcome {
    let (left, right) = (left.widened() as i64, right.widened() as i64);
    let exact = match form {
        Form::Plus(_) => Some(left + right),
        Form::Minus(_) => Some(left - right),
        Form::Times(_) => Some(left * right),
        Form::Div => left.checked_div(right),
        _ => left.checked_rem(right),
    };
    let within = i32::try_from(exact.ok_or(here)?);
    within.map(integer).map_err(|_| End::Stop(Stop::Range))
}

/// One operation on binary64 numbers. An infinite result is a stop. A NaN can't arise:
/// no operand is infinite, no divisor zero.
fn rounded(form: &Form, left: Number, right: Number, here: End) -> Outcome {
    let (left, right) = (left.widened(), right.widened());
    let operation = form.operation().expect("arithmetic on Reals");
    if operation == Operation::Over && right == 0.0 {
        return Err(here);
    }
    let result = if cfg!(feature = "timed") {
        operation.by_hardware(left, right)
    } else {
        operation.checked(left, right).number
    };
    let number = Number::of(result).ok_or(End::Stop(Stop::Range))?;
    Ok(Value::Number(number))
}
