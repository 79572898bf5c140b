//! `soak KIND FIRST COUNT`: compares the linked calls with the second evaluator's in COUNT cases
//! of a kind, from the seed FIRST on, on all processors, and says on one line what was run and
//! reached. The kinds are `sheets`, `edits` (lists of calls about a board), `texts` (sheets with
//! texts), `reals` (operations on numbers) and `runs` (of stitch lengths, each of full length).
//! Its exit status is 1 after a difference.

use second_evaluator::harness::linked::Linked;
use second_evaluator::harness::operations::OF_SHEET;
use second_evaluator::harness::runs;
use second_evaluator::harness::soak::{soak, Edits, Found, Reals, Runs, Sheets};
use std::process::ExitCode;
use std::time::Instant;

/// Where the input of a difference is written.
const DIFFERENCE: &str = "difference.input";

/// What was reached, or a difference and its seed; none if there is no such kind.
fn run(kind: &str, first: u64, count: u64) -> Option<Result<String, (u64, Found)>> {
    let seeds = first..first.checked_add(count)?;
    let calls = &Linked::PLAIN;
    Some(match kind {
        "sheets" => soak(seeds, || Sheets::new(calls)).map(|all| all.to_string()),
        "edits" => soak(seeds, || Edits::new(calls)).map(|all| all.to_string()),
        "texts" => soak(seeds, || Sheets::of_texts(calls)).map(|all| all.to_string()),
        "reals" => {
            let seeds = first..first + count.div_ceil(OF_SHEET);
            soak(seeds, || Reals::new(calls)).map(|all| all.to_string())
        }
        "runs" => soak(seeds, || Runs::new(&runs::Linked)).map(|all| all.to_string()),
        _ => return None,
    })
}

fn main() -> ExitCode {
    let words: Vec<String> = std::env::args().skip(1).collect();
    let start = Instant::now();
    let ran = match words.as_slice() {
        [kind, first, count] => (first.parse().ok().zip(count.parse().ok()))
            .and_then(|(first, count)| run(kind, first, count)),
        _ => None,
    };
    let Some(ran) = ran else {
        eprintln!("usage: soak sheets|edits|texts|reals|runs FIRST COUNT");
        return ExitCode::from(2);
    };
    let [kind, first, count] = [0, 1, 2].map(|at| &words[at]);
    match ran {
        Ok(reached) => {
            let seconds = start.elapsed().as_secs();
            println!(
                "{kind}: no difference in {count} from seed {first} on, {seconds} s: {reached}"
            );
            ExitCode::SUCCESS
        }
        Err((seed, Found { how, input })) => {
            println!("{kind}: seed {seed} differs:\n{how}");
            match std::fs::write(DIFFERENCE, input) {
                Ok(()) => println!("The input is in {DIFFERENCE}."),
                Err(error) => println!("The input could not be written: {error}"),
            }
            ExitCode::FAILURE
        }
    }
}
