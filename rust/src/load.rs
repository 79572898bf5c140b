//! Thread load along a run, F-14, written from document 02 alone: the largest sum of
//! neighbouring stitch lengths, and where it is first reached.

use std::fmt;
use std::ops::RangeInclusive;

/// The widest window.
pub const WIDEST: u64 = 64;
/// The longest stitch.
pub const LONGEST: u64 = 1_000;
/// The most lengths of an input.
pub const MOST: usize = 1_000_000;

/// The largest sum, and the number, from 1, of the first stitch of the earliest
/// window that has it.
#[derive(Clone, Copy, PartialEq, Eq, Debug)]
pub struct Load {
    pub sum: u64,
    pub first: usize,
}

/// Why there is none: a number of document 02, and the line, from 1, or 0.
#[derive(Clone, Copy, PartialEq, Eq, Debug)]
pub struct NoLoad {
    pub number: u64,
    pub place: usize,
}

impl fmt::Display for Load {
    fn fmt(&self, out: &mut fmt::Formatter<'_>) -> fmt::Result {
        writeln!(out, "{} {}", self.sum, self.first)
    }
}

impl fmt::Display for NoLoad {
    fn fmt(&self, out: &mut fmt::Formatter<'_>) -> fmt::Result {
        writeln!(out, "! {} {}", self.number, self.place)
    }
}

/// What the program prints for an input.
pub fn program(text: &[u8]) -> String {
    match thread_load(text) {
        Ok(load) => load.to_string(),
        Err(none) => none.to_string(),
    }
}

/// The load of an input.
pub fn thread_load(text: &[u8]) -> Result<Load, NoLoad> {
    let (window, lengths) = read(text)?;
    largest(window, &lengths).ok_or(NoLoad {
        number: 25,
        place: 0,
    })
}

/// The window and the lengths, line by line up to the first bad one. An input
/// without a first line has an empty one, which is bad.
pub fn read(text: &[u8]) -> Result<(usize, Vec<u64>), NoLoad> {
    let mut lines = text.split_inclusive(|byte| *byte == b'\n');
    let window = limited(lines.next().unwrap_or_default(), 1, 1..=WIDEST)?;
    let mut lengths = Vec::new();
    for (line, place) in lines.zip(2..) {
        let length = limited(line, place, 0..=LONGEST)?;
        if lengths.len() == MOST {
            return Err(NoLoad { number: 4, place });
        }
        lengths.push(length);
    }
    Ok((window as usize, lengths))
}

/// A line's number, held to its limits.
fn limited(line: &[u8], place: usize, limits: RangeInclusive<u64>) -> Result<u64, NoLoad> {
    let number = number(line).ok_or(NoLoad { number: 3, place })?;
    if limits.contains(&number) {
        Ok(number)
    } else {
        Err(NoLoad { number: 4, place })
    }
}

/// The number that a line with its line feed spells. One of very many digits counts
/// as the greatest there is.
fn number(line: &[u8]) -> Option<u64> {
    let digits = line.strip_suffix(b"\n")?;
    if digits.is_empty() || (digits.len() > 1 && digits[0] == b'0') {
        return None;
    }
    let mut number: u64 = 0;
    for byte in digits {
        if !byte.is_ascii_digit() {
            return None;
        }
        number = (number.saturating_mul(10)).saturating_add(u64::from(byte - b'0'));
    }
    Some(number)
}

/// The largest sum of so many neighbours, by one running sum.
pub fn largest(window: usize, lengths: &[u64]) -> Option<Load> {
    let mut sum: u64 = lengths.get(..window)?.iter().sum();
    let mut best = Load { sum, first: 1 };
    for (last, oldest) in (window..lengths.len()).zip(lengths) {
        sum = sum + lengths[last] - oldest;
        if sum > best.sum {
            let first = last - window + 2;
            best = Load { sum, first };
        }
    }
    Some(best)
}

#[cfg(test)]
mod tests {
    use super::*;
    use crate::generate::random::Random;

    /// Each window summed anew, as document 02 says it.
    fn by_windows(window: usize, lengths: &[u64]) -> Option<Load> {
        let sums = lengths.windows(window).map(|run| run.iter().sum());
        let loads = sums.zip(1..).map(|(sum, first)| Load { sum, first });
        loads.reduce(|best, load| if load.sum > best.sum { load } else { best })
    }

    #[test]
    fn the_running_sum_is_that_of_each_window() {
        let mut random = Random::new(14);
        for _ in 0..2_000 {
            let window = random.between(1, WIDEST as usize);
            let greatest = *random.pick(&[1, 2, 9, 1_000]);
            let count = random.below(3 * window + 2);
            let lengths: Vec<u64> = (0..count)
                .map(|_| random.below(greatest + 1) as u64)
                .collect();
            assert_eq!(largest(window, &lengths), by_windows(window, &lengths));
        }
    }
}
