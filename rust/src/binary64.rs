//! Arithmetic on finite binary64 numbers in whole numbers alone, over sign,
//! significand and exponent, rounded once to nearest, ties to even; beside it the
//! same operations by hardware, which must give the same bits.

use std::mem;

const SIGN: u64 = 1 << 63;
const INFINITY: u64 = 0x7ff << 52;
/// The bits of a significand, the first of which is not written down.
const BITS: i32 = 53;
/// The exponent of the smallest number and of all below 2 to the -1021.
const LEAST: i32 = -1074;
/// Numbers whose exponents are further apart than this don't meet in any bit that
/// rounding looks at.
const FAR: i32 = 64;

#[derive(Clone, Copy, PartialEq, Eq, Debug)]
pub enum Operation {
    Plus,
    Minus,
    Times,
    Over,
}

impl Operation {
    pub const ALL: [Operation; 4] = [
        Operation::Plus,
        Operation::Minus,
        Operation::Times,
        Operation::Over,
    ];

    /// In whole numbers. The operands are finite, and no divisor is zero.
    pub fn in_whole_numbers(self, left: f64, right: f64) -> Rounded {
        let (left, right) = (Exact::of(left), Exact::of(right));
        let result = match self {
            Operation::Plus => left.plus(right),
            Operation::Minus => left.plus(right.negated()),
            Operation::Times => left.times(right),
            Operation::Over => left.over(right),
        };
        result.rounded()
    }

    pub fn by_hardware(self, left: f64, right: f64) -> f64 {
        match self {
            Operation::Plus => left + right,
            Operation::Minus => left - right,
            Operation::Times => left * right,
            Operation::Over => left / right,
        }
    }

    /// In whole numbers and by hardware: the two must agree in every bit.
    pub fn checked(self, left: f64, right: f64) -> Rounded {
        let rounded = self.in_whole_numbers(left, right);
        let hardware = self.by_hardware(left, right);
        let agree = rounded.number.to_bits() == hardware.to_bits();
        assert!(
            agree,
            "{left:e} {self:?} {right:e}: {rounded:?}, by hardware {hardware:e}"
        );
        rounded
    }
}

/// Whether one finite number is less than another, in whole numbers and by hardware.
pub fn less(left: f64, right: f64) -> bool {
    let less = place(left) < place(right);
    assert_eq!(less, left < right, "{left:e} less {right:e}");
    less
}

/// Bits without their sign are in the order of what they stand for.
fn place(number: f64) -> i64 {
    let place = (number.to_bits() & !SIGN) as i64;
    if number.to_bits() & SIGN == 0 {
        place
    } else {
        -place
    }
}

/// The Integer that a finite number is, if it is one.
pub fn integer(number: f64) -> Option<i32> {
    let Exact {
        minus,
        significand,
        exponent,
    } = Exact::of(number);
    if significand == 0 {
        return Some(0);
    }
    // A number from 1 to 2 to the 32 has 21 to 52 of its bits behind the point.
    if !(1 - BITS..=32 - BITS).contains(&exponent) {
        return None;
    }
    let magnitude = (significand >> -exponent) as i64;
    let whole = significand == (magnitude as u128) << -exponent;
    let integer = if minus { -magnitude } else { magnitude };
    i32::try_from(integer).ok().filter(|_| whole)
}

/// The number that an Integer is: none is too long for a significand.
pub fn widened(integer: i32) -> f64 {
    let exact = Exact {
        minus: integer < 0,
        significand: u128::from(integer.unsigned_abs()),
        exponent: 0,
    };
    exact.rounded().number
}

/// A result, and what was lost.
#[derive(Clone, Copy, Debug)]
pub struct Rounded {
    /// An infinity if the result is too large.
    pub number: f64,
    /// What lay behind the last place that was kept.
    pub rest: u128,
    /// Half of that place, in the same units; 0 if no place lay behind it.
    pub half: u128,
}

/// The number of this sign, this significand and this power of 2.
#[derive(Clone, Copy)]
struct Exact {
    minus: bool,
    /// Below 2 to the 127.
    significand: u128,
    exponent: i32,
}

impl Exact {
    fn of(number: f64) -> Exact {
        let bits = number.to_bits();
        let field = ((bits & INFINITY) >> 52) as i32;
        let written = u128::from(bits & !(SIGN | INFINITY));
        // The first bit is a 1, but not of numbers with the least exponent field.
        let first = u128::from(field > 0) << 52;
        Exact {
            minus: bits & SIGN != 0,
            significand: first + written,
            exponent: LEAST + (field - 1).max(0),
        }
    }

    fn negated(self) -> Exact {
        Exact {
            minus: !self.minus,
            ..self
        }
    }

    fn signed(self, magnitude: u128) -> i128 {
        let magnitude = magnitude as i128;
        if self.minus {
            -magnitude
        } else {
            magnitude
        }
    }

    /// Both are brought to the smaller exponent.
    fn plus(self, other: Exact) -> Exact {
        let (mut large, mut small) = (self, other);
        if large.exponent < small.exponent {
            mem::swap(&mut large, &mut small);
        }
        let apart = (large.exponent - small.exponent).min(FAR);
        if large.exponent - apart > small.exponent {
            // The smaller one is less than a quarter of the larger one's last place:
            // any other as small, and of its sign, leads to the same result.
            small.significand = small.significand.min(1);
        }
        let sum = large.signed(large.significand << apart) + small.signed(small.significand);
        Exact {
            minus: if sum == 0 {
                large.minus && small.minus
            } else {
                sum < 0
            },
            significand: sum.unsigned_abs(),
            exponent: large.exponent - apart,
        }
    }

    fn times(self, other: Exact) -> Exact {
        Exact {
            minus: self.minus != other.minus,
            significand: self.significand * other.significand,
            exponent: self.exponent + other.exponent,
        }
    }

    /// The dividend is made as long as it can be, so that the quotient has 74 bits
    /// or more; the last of them is 1 where a remainder is left, and then stands for
    /// all that would follow it.
    fn over(self, other: Exact) -> Exact {
        let longer = self.significand.leading_zeros().saturating_sub(1);
        let dividend = self.significand << longer;
        let remainder = dividend % other.significand;
        Exact {
            minus: self.minus != other.minus,
            significand: (dividend / other.significand) | u128::from(remainder > 0),
            exponent: self.exponent - other.exponent - longer as i32,
        }
    }

    fn rounded(self) -> Rounded {
        let sign = if self.minus { SIGN } else { 0 };
        if self.significand == 0 {
            return Rounded {
                number: f64::from_bits(sign),
                rest: 0,
                half: 0,
            };
        }
        let length = (u128::BITS - self.significand.leading_zeros()) as i32;
        let exponent = (self.exponent + length - BITS).max(LEAST);
        let behind = exponent - self.exponent;
        let (mut kept, rest, half) = match behind {
            ..=0 => (self.significand << -behind, 0, 0),
            1..=127 => {
                let kept = self.significand >> behind;
                let rest = self.significand - (kept << behind);
                (kept, rest, 1 << (behind - 1))
            }
            // Below half of the smallest number, as every significand is below 2 to the 127.
            _ => (0, 1, 1 << 126),
        };
        if rest > half || (rest == half && half > 0 && kept % 2 == 1) {
            kept += 1;
        }
        // A significand's first bit is not written down: added to the exponent's
        // field, it counts the exponent up from 0, as does a carry past it.
        let field = ((exponent - LEAST) as u64) << 52;
        let bits = (field + kept as u64).min(INFINITY);
        Rounded {
            number: f64::from_bits(sign | bits),
            rest,
            half,
        }
    }
}
