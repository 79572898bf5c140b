//! Times thread load over a text, the linked call and the second implementation
//! side by side, in processor time for a line.

use second_evaluator::generate::random::Random;
use second_evaluator::harness::clock;
use second_evaluator::harness::runs::{Linked, Loads, LINE};
use second_evaluator::load::{program, thread_load};
use std::hint::black_box;
use std::process::ExitCode;
use std::time::Duration;

/// Lines of a text.
const SIZES: [usize; 4] = [1_000, 10_000, 100_000, 1_000_000];
/// Rounds, in each of which both are timed once; the best of them counts.
const ROUNDS: usize = 40;
/// A timing repeats its job until this much time has passed.
const ENOUGH: Duration = Duration::from_millis(2);
/// The product's time for each of the second implementation's, at most.
const RATIO: f64 = 1.0;
/// The product's time for a line of the longest text for each of the shortest
/// one's, at most.
const GROWTH: f64 = 1.3;

/// Stitches of a few millimetres, in tenths, with a jump now and then.
fn run(lines: usize) -> Vec<u8> {
    let mut random = Random::new(lines as u64);
    let lengths = (1..lines).map(|_| match random.below(20) {
        0 => random.between(60, 1_000),
        _ => random.between(8, 45),
    });
    let lines = lengths.map(|length| format!("{length}\n"));
    format!("20\n{}", lines.collect::<String>()).into_bytes()
}

/// The best times for a line, the second implementation's and the product's.
fn best(lines: usize) -> [f64; 2] {
    let text = run(lines);
    let mut output = [0; LINE];
    let length = Linked.print(&text, &mut output);
    assert_eq!(&output[..length], program(&text).as_bytes());
    let mut best = [f64::INFINITY; 2];
    for _ in 0..ROUNDS {
        best[0] = best[0].min(clock::time(ENOUGH, || {
            let _ = black_box(thread_load(black_box(&text)));
        }));
        best[1] = best[1].min(clock::time(ENOUGH, || {
            black_box(Linked.print(black_box(&text), &mut output));
        }));
    }
    best.map(|time| time / lines as f64)
}

fn main() -> ExitCode {
    println!(
        "{:<24} {:>9} {:>14} {:>14} {:>7}",
        "thread load", "lines", "second ns/line", "product", "ratio"
    );
    let times = SIZES.map(|lines| {
        let [ours, theirs] = best(lines);
        println!(
            "{:<24} {lines:>9} {ours:>14.2} {theirs:>14.2} {:>7.2}",
            "",
            theirs / ours
        );
        [ours, theirs]
    });
    let growth = times[SIZES.len() - 1][1] / times[0][1];
    println!("{:<48} {growth:>14.2}", "  growth per line");
    let bounds = format!("a ratio of {RATIO:.1} and a growth of {GROWTH:.1}");
    if times.iter().all(|[ours, theirs]| theirs / ours <= RATIO) && growth <= GROWTH {
        println!("Thread load is within {bounds}.");
        return ExitCode::SUCCESS;
    }
    println!("Thread load is not within {bounds}.");
    ExitCode::FAILURE
}
