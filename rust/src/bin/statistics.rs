//! `statistics N`: what the sheets of seeds 0 to N - 1 reach.

use second_evaluator::statistics::Statistics;
use std::process::ExitCode;

fn main() -> ExitCode {
    let count = std::env::args().nth(1).and_then(|count| count.parse().ok());
    let Some(count) = count else {
        eprintln!("usage: statistics N");
        return ExitCode::FAILURE;
    };
    print!("{}", Statistics::over(0..count));
    ExitCode::SUCCESS
}
