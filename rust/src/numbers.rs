//! The numbers that a value can be, each held as the binary64 number it is:
//! every Integer is one of them.

use std::cmp::Ordering;

/// A finite binary64 number, never minus zero: a whole one in the Integer range
/// is an Integer, any other a Real.
#[derive(Clone, Copy, Debug)]
pub struct Number(f64);

impl Number {
    /// None for an infinity or a NaN.
    pub fn of(number: f64) -> Option<Number> {
        // Minus zero plus zero is zero.
        number.is_finite().then_some(Number(number + 0.0))
    }

    pub fn widened(self) -> f64 {
        self.0
    }

    /// The Integer that the number is, if it is one.
    pub fn integer(self) -> Option<i32> {
        // Cut toward zero and kept in range, so only an Integer comes back the same.
        let integer = self.0 as i32;
        (f64::from(integer) == self.0).then_some(integer)
    }

    pub fn spell(self, out: &mut Vec<u8>) {
        let spelt = match self.integer() {
            Some(integer) => integer.to_string(),
            None => format!("r{:016x}", self.0.to_bits()),
        };
        out.extend(spelt.as_bytes());
    }
}

impl From<i32> for Number {
    fn from(integer: i32) -> Number {
        Number(f64::from(integer))
    }
}

impl PartialEq for Number {
    fn eq(&self, other: &Number) -> bool {
        self.cmp(other) == Ordering::Equal
    }
}

impl Eq for Number {}

impl PartialOrd for Number {
    fn partial_cmp(&self, other: &Number) -> Option<Ordering> {
        Some(self.cmp(other))
    }
}

impl Ord for Number {
    /// Of finite numbers without minus zero, this is the order by number.
    fn cmp(&self, other: &Number) -> Ordering {
        self.0.total_cmp(&other.0)
    }
}
