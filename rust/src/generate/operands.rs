//! Two numbers that an operation tells much about: edges of binary64, and numbers whose
//! sum, product or quotient is at an edge or next to a tie.

use super::random::Random;

/// Bits of numbers at an end of something: of the numbers too small to be normal, of the
/// Integer range, of the whole numbers, of all numbers; halves; and neighbours of one and
/// of one and a half.
pub const EDGES: [u64; 18] = [
    0x0000_0000_0000_0001,
    0x000f_ffff_ffff_ffff,
    0x0010_0000_0000_0000,
    0x3ca0_0000_0000_0000,
    0x3cb0_0000_0000_0000,
    0x3fe0_0000_0000_0000,
    0x3fef_ffff_ffff_ffff,
    0x3ff0_0000_0000_0001,
    0x3ff7_ffff_ffff_ffff,
    0x3ff8_0000_0000_0000,
    0x41df_ffff_ffe0_0000,
    0x41e0_0000_0000_0000,
    0x41e0_0000_0010_0000,
    0x41e0_0000_0020_0000,
    0x4340_0000_0000_0000,
    0x4340_0000_0000_0001,
    0x7fe0_0000_0000_0000,
    0x7fef_ffff_ffff_ffff,
];

/// The first bit of a significand, which is not written down.
const FIRST: u64 = 1 << 52;
/// The largest field of an exponent.
const LAST_FIELD: i32 = 2_046;

/// Two finite numbers, below zero or not.
pub fn operands(random: &mut Random) -> [f64; 2] {
    let mut pair = match random.below(12) {
        0 => [any(random), any(random)],
        1 => [edge(random), edge(random)],
        2 => [edge(random), any(random)],
        3 => neighbours(random),
        4 => sum(random),
        5 | 6 => product(random),
        7 => quarters(random),
        8 => scaled(random, -1_080, 68),
        9 => scaled(random, 1_018, 8),
        // The other way round it would be another quotient.
        _ => {
            let pair = quotient(random);
            return signed(random, pair);
        }
    };
    random.shuffle(&mut pair);
    signed(random, pair)
}

fn signed(random: &mut Random, pair: [f64; 2]) -> [f64; 2] {
    pair.map(|number| if random.one_in(3) { -number } else { number })
}

/// A number of these bits behind the first and this field.
fn number(written: u64, field: i32) -> f64 {
    f64::from_bits((written % FIRST) | (field.clamp(0, LAST_FIELD) as u64) << 52)
}

fn edge(random: &mut Random) -> f64 {
    f64::from_bits(*random.pick(&EDGES))
}

/// Any bits, or only the first ones of a significand, so that results are exact or ties.
fn significand(random: &mut Random) -> u64 {
    let cleared = if random.one_in(2) {
        random.below(53)
    } else {
        0
    };
    random.word() >> cleared << cleared
}

fn field(random: &mut Random) -> i32 {
    random.below(LAST_FIELD as usize + 1) as i32
}

fn any(random: &mut Random) -> f64 {
    number(significand(random), field(random))
}

/// A small distance in either direction.
fn little(random: &mut Random) -> i64 {
    random.below(9) as i64 - 4
}

/// Two numbers with few or none between them.
fn neighbours(random: &mut Random) -> [f64; 2] {
    let number = number(significand(random), field(random).max(1));
    let next = number.to_bits().wrapping_add_signed(little(random));
    let next = f64::from_bits(next);
    [number, if next.is_finite() { next } else { number }]
}

/// A number and half of its last place, or a little more or less.
fn sum(random: &mut Random) -> [f64; 2] {
    let field = if random.one_in(4) {
        LAST_FIELD
    } else {
        random.between(54, LAST_FIELD as usize) as i32
    };
    let significand = if random.one_in(4) {
        u64::MAX
    } else {
        random.word()
    };
    let half = number(0, field - 53).to_bits();
    let near = half.wrapping_add_signed(little(random));
    [number(significand, field), f64::from_bits(near)]
}

/// A significand that has no 2 as a factor.
fn odd(random: &mut Random) -> u64 {
    FIRST | (random.word() % FIRST) | 1
}

/// What an odd number has to be multiplied with for 1, in 64 bits.
fn inverse(odd: u64) -> u64 {
    // Each time the last bits that are right become twice as many; at first they are three.
    (0..5).fold(odd, |inverse, _| {
        inverse.wrapping_mul(2_u64.wrapping_sub(odd.wrapping_mul(inverse)))
    })
}

/// Significands whose product, of 106 bits, ends in half of what is cut off, or almost.
fn product(random: &mut Random) -> [f64; 2] {
    loop {
        let left = odd(random);
        let end = FIRST.wrapping_add_signed(little(random));
        let right = end.wrapping_mul(inverse(left)) % (2 * FIRST);
        if right >= FIRST && (u128::from(left) * u128::from(right)) >> 105 == 1 {
            return placed(random, left, right);
        }
    }
}

/// Significands whose quotient is a significand of 54 bits that ends in 1, a tie, but for
/// a remainder of almost nothing.
fn quotient(random: &mut Random) -> [f64; 2] {
    loop {
        let divisor = odd(random);
        let remainder = 2 * little(random) + 1;
        let tie = 0_u64.wrapping_add_signed(-remainder);
        let tie = tie.wrapping_mul(inverse(divisor)) % (4 * FIRST);
        let dividend = (i128::from(divisor) * i128::from(tie) + i128::from(remainder)) >> 54;
        if (i128::from(FIRST)..i128::from(2 * FIRST)).contains(&dividend) {
            return placed(random, dividend as u64, divisor);
        }
    }
}

/// Numbers of these significands, neither of them very small or large.
fn placed(random: &mut Random, left: u64, right: u64) -> [f64; 2] {
    [left, right].map(|written| number(written, random.between(600, 1_400) as i32))
}

/// Two numbers in quarters, small ones or halves; or whose sum is at an end of the Integer
/// range, or a step or half a step past it.
fn quarters(random: &mut Random) -> [f64; 2] {
    const ENDS: [f64; 4] = [
        2_147_483_647.0,
        2_147_483_647.5,
        2_147_483_648.0,
        2_147_483_649.0,
    ];
    let small = f64::from(random.below(17) as i32) / 4.0;
    match random.below(3) {
        0 => [small, f64::from(random.below(17) as i32) / 4.0],
        1 => [small, f64::from(random.word() as i32) / 2.0],
        _ => [small, *random.pick(&ENDS) - small],
    }
}

/// Two numbers whose product or quotient has an exponent in a range, if it can be.
fn scaled(random: &mut Random, least: i32, count: usize) -> [f64; 2] {
    let one = field(random);
    let exponent = least + random.below(count) as i32;
    // A field is 1,023 more than its exponent.
    let other = if random.one_in(2) {
        exponent + 2 * 1_023 - one
    } else {
        one - exponent
    };
    [one, other].map(|field| number(significand(random), field))
}
