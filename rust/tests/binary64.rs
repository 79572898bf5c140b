//! The arithmetic in whole numbers agrees with hardware, and with what is worked out here.

use second_evaluator::binary64::{integer, less, widened, Operation};
use second_evaluator::generate::operands::{operands, EDGES};
use second_evaluator::generate::random::Random;

/// Every operation on two finite numbers, by both ways, which must agree.
fn compared(left: f64, right: f64) {
    less(left, right);
    for operation in Operation::ALL {
        if operation != Operation::Over || right != 0.0 {
            operation.checked(left, right);
        }
    }
}

#[test]
fn edges_agree_with_hardware() {
    let near = |bits: &u64| [bits - 1, *bits, bits + 1];
    let numbers = EDGES.iter().flat_map(near).map(f64::from_bits);
    let finite = numbers.filter(|number| number.is_finite());
    let signed: Vec<f64> = finite.flat_map(|number| [number, -number]).collect();
    // With zeros of both signs.
    assert_eq!(signed.iter().filter(|number| **number == 0.0).count(), 2);
    for left in &signed {
        for right in &signed {
            compared(*left, *right);
        }
    }
}

#[test]
fn chosen_and_random_operands_agree_with_hardware() {
    let mut random = Random::new(1);
    for _ in 0..200_000 {
        let [left, right] = operands(&mut random);
        compared(left, right);
        let bits = [random.word(), random.word()].map(f64::from_bits);
        if bits.iter().all(|number| number.is_finite()) {
            compared(bits[0], bits[1]);
        }
    }
}

#[test]
fn integers_agree_with_hardware() {
    let mut random = Random::new(2);
    for end in [i32::MIN, -1, 0, 1, i32::MAX] {
        assert_eq!(integer(widened(end)), Some(end));
    }
    for _ in 0..200_000 {
        let whole = random.word() as i32 >> random.below(32);
        assert_eq!(widened(whole).to_bits(), f64::from(whole).to_bits());
        assert_eq!(integer(f64::from(whole)), Some(whole));
        let next = f64::from_bits(f64::from(whole).to_bits() + 1);
        assert_eq!(integer(next), None, "{next:e}");
        let far = f64::from(whole) * 4_294_967_296.0;
        assert_eq!(integer(far), (whole == 0).then_some(0), "{far:e}");
    }
    assert_eq!(integer(-0.0), Some(0));
    for past in [2_147_483_648.0, -2_147_483_649.0, 0.5, -2_147_483_648.5] {
        assert_eq!(integer(past), None, "{past}");
    }
}

const ONE: u64 = 0x3ff0_0000_0000_0000;
const HALF_STEP: u64 = 0x3ca0_0000_0000_0000;
const LARGEST: u64 = 0x7fef_ffff_ffff_ffff;
const SIGN: u64 = 1 << 63;

/// Operations on bits, and the bits of what they come to.
const ROUNDINGS: [(Operation, u64, u64, u64); 19] = [
    // Ties go to the number whose last bit is 0: down from 1, up from the next.
    (Operation::Plus, ONE, HALF_STEP, ONE),
    (Operation::Plus, ONE + 1, HALF_STEP, ONE + 2),
    // Next to the tie on either side.
    (Operation::Plus, ONE, HALF_STEP + 1, ONE + 1),
    (Operation::Plus, ONE + 1, HALF_STEP - 1, ONE + 1),
    // Below 1 a step is half as long: this difference is exact, the next one a tie.
    (Operation::Minus, ONE, HALF_STEP, ONE - 1),
    (Operation::Minus, ONE, 0x3c90_0000_0000_0000, ONE),
    // Far apart: nothing is left of the smaller one.
    (Operation::Minus, ONE, 1, ONE),
    (Operation::Plus, 1, ONE, ONE),
    // (1 + s)(1 + s) is 1 + 2s and the square of s, which is far below half a step.
    (Operation::Times, ONE + 1, ONE + 1, ONE + 2),
    // 1.5 (1 + s) is 1.5 and one and a half s, a tie between s and 2s: 2s is even.
    (
        Operation::Times,
        0x3ff8_0000_0000_0000,
        ONE + 1,
        0x3ff8_0000_0000_0002,
    ),
    // (1 - t)(1 + 2t), t half of a step of 1, is 1 + t less twice the square of t:
    // next to the tie between 1 and 1 + 2t, and below it.
    (Operation::Times, ONE - 1, ONE + 1, ONE),
    // 1 over 1 - t is 1 + t and the square of t and more: next to the tie, above it.
    (Operation::Over, ONE, ONE - 1, ONE + 1),
    // 1 over 3 is 0.0101..; of 53 bits the last is 1, and 0 follows it.
    (
        Operation::Over,
        ONE,
        0x4008_0000_0000_0000,
        0x3fd5_5555_5555_5555,
    ),
    // Half of the smallest number is a tie, as is half of three of it.
    (Operation::Over, 1, 0x4000_0000_0000_0000, 0),
    (Operation::Over, 3, 0x4000_0000_0000_0000, 2),
    (Operation::Times, SIGN | 1, 0x3fe0_0000_0000_0000, SIGN),
    // The largest of the small numbers and the smallest are the first normal one.
    (Operation::Plus, (1 << 52) - 1, 1, 1 << 52),
    // The largest number's step is 2 to the 971: half of it is a tie, and infinite.
    (Operation::Plus, LARGEST, 0x7c90_0000_0000_0000, LARGEST + 1),
    (Operation::Plus, LARGEST, 0x7c8f_ffff_ffff_ffff, LARGEST),
];

/// Worked out on paper. A step is the distance to the next number: of 1 it is 2 to the
/// -52, below 1 half of that.
#[test]
fn roundings_worked_out() {
    for (operation, left, right, result) in ROUNDINGS {
        let [left, right] = [left, right].map(f64::from_bits);
        let bits = operation.in_whole_numbers(left, right).number.to_bits();
        assert_eq!(bits, result, "{left:e} {operation:?} {right:e}");
    }
}
