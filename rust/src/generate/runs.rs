//! Runs of stitch lengths by seed: a window, lengths, and often some damage.

use super::random::Random;
use crate::load::{LONGEST, MOST, WIDEST};
use std::fmt::Write;

/// Numbers near a limit, or with digits beyond every limit.
const NEAR: [&str; 12] = [
    "0",
    "1",
    "63",
    "64",
    "65",
    "999",
    "1000",
    "1001",
    "999999",
    "1000001",
    "18446744073709551617",
    "99999999999999999999999999999999999999",
];
/// What is no number.
const MISSPELT: [&str; 12] = [
    "", "00", "01", "-1", "+1", " 1", "1 ", "1\r", "1\t2", "0x1", "x", "1000x",
];

/// The input of a seed: most are short, so that all of it is seen.
pub fn run(seed: u64) -> Vec<u8> {
    let mut random = Random::new(seed);
    let window = match random.below(4) {
        0 => random.between(1, 4),
        1 => WIDEST as usize,
        _ => random.between(1, WIDEST as usize),
    };
    let count = match random.below(8) {
        0 => random.below(window + 2),
        1 => random.between(200, 2_000),
        _ => random.below(3 * window + 3),
    };
    let mut lines = vec![window.to_string()];
    lines.extend(lengths(&mut random, count).map(|length| length.to_string()));
    let mut text = damaged(&mut random, lines).join("\n").into_bytes();
    if !random.one_in(12) {
        text.push(b'\n');
    }
    if random.one_in(12) {
        let at = random.below(text.len() + 1);
        text.insert(at, random.below(256) as u8);
    }
    if random.one_in(16) {
        text.truncate(random.below(text.len() + 1));
    }
    text
}

/// Lengths that rise, repeat or go as they like, so that sums tie.
fn lengths(random: &mut Random, count: usize) -> impl Iterator<Item = usize> + '_ {
    let greatest = *random.pick(&[0, 1, 3, 40, LONGEST as usize]);
    let period = random.between(1, 70);
    let kind = random.below(3);
    (0..count).map(move |at| match kind {
        0 => random.below(greatest + 1),
        1 => at % period * greatest / period,
        _ => at.min(greatest),
    })
}

/// Up to three lines replaced, in half of the inputs.
fn damaged(random: &mut Random, mut lines: Vec<String>) -> Vec<String> {
    let count = [0, 0, 0, 1, 2, 3][random.below(6)];
    for _ in 0..count {
        let at = random.below(lines.len());
        let from = if random.one_in(2) { NEAR } else { MISSPELT };
        lines[at] = (*random.pick(&from)).to_string();
    }
    lines
}

/// A run of full length for a seed.
pub fn full_run(seed: u64) -> Vec<u8> {
    let mut random = Random::new(seed);
    let window = random.between(1, WIDEST as usize);
    let mut text = format!("{window}\n");
    for length in lengths(&mut random, MOST) {
        let _ = writeln!(text, "{length}");
    }
    text.into_bytes()
}

/// Inputs that are about their length: the most lengths, one more, and lines that
/// go on and on.
pub fn long_runs() -> Vec<Vec<u8>> {
    let of = |count: usize| {
        let mut random = Random::new(count as u64);
        let lengths = (0..count).map(|_| format!("{}\n", random.below(1_001)));
        format!("64\n{}", lengths.collect::<String>()).into_bytes()
    };
    let digits = |count, end: &str| format!("1\n{}{end}", "7".repeat(count)).into_bytes();
    vec![
        of(MOST),
        of(MOST + 1),
        [of(MOST), b"x\n".to_vec()].concat(),
        digits(5_000_000, "\n"),
        digits(5_000_000, "x\n"),
        digits(5_000_000, ""),
        vec![b'\n'; 100_000],
    ]
}
