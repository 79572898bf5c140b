//! `compare FIRST COUNT`: compares the linked calls, and the programs that
//! CHECKER_PROGRAM, ROWS_PROGRAM and UNDEFINED_PROGRAM name, with the second evaluator
//! over the vectors and the sheets of COUNT seeds from FIRST on, on all processors; a
//! rule of each with itself, on two sheets that differ in what it does not see; those
//! in the profile on the sheet with its objects numbered anew; and lists of edits of a
//! board. `--stand-in` compares the second evaluator with itself in place of the linked
//! calls.

use second_evaluator::calls::accepted;
use second_evaluator::generate::random::Random;
use second_evaluator::generate::{asks, boards, sheet, vector_asks, Ask};
use second_evaluator::harness::board_tally::BoardTally;
use second_evaluator::harness::boards::{Boards, Second};
use second_evaluator::harness::corrections::{self, corrected};
use second_evaluator::harness::faults::Fault;
use second_evaluator::harness::program::{long_texts, programs, Program};
use second_evaluator::harness::run::{self, Difference, Differs};
use second_evaluator::harness::standin::StandIn;
use second_evaluator::harness::tally::Tally;
use second_evaluator::harness::vectors::{all_vectors, Vector};
use second_evaluator::harness::Calls;
use std::io::IsTerminal;
use std::ops::Range;
use std::process::ExitCode;
use std::sync::atomic::{AtomicBool, AtomicUsize, Ordering};
use std::thread;

/// Where the sheet of a difference is written, and the second one of two.
const DIFFERENCE: &str = "difference.sheet";
const OTHER: &str = "difference-other.sheet";

/// A sheet, what is asked about it, and the seed of the garbage that is lent.
struct Case {
    name: String,
    text: Vec<u8>,
    asks: Vec<Ask>,
    seed: u64,
}

/// The vectors, then texts that are only about their length, then the sheets of
/// the seeds.
struct Cases {
    vectors: Vec<Vector>,
    long: Vec<Vec<u8>>,
    seeds: Range<u64>,
}

impl Cases {
    fn case(&self, at: usize) -> Option<Case> {
        if let Some(Vector { name, text, .. }) = self.vectors.get(at) {
            return Some(Case {
                name: format!("vector {name}"),
                text: text.clone(),
                asks: vector_asks(at as u64, text),
                seed: at as u64,
            });
        }
        let at = at - self.vectors.len();
        let (name, seed, text) = if let Some(text) = self.long.get(at) {
            let bytes = text.len();
            (
                format!("a text of {bytes} bytes"),
                bytes as u64,
                text.clone(),
            )
        } else {
            let seed = self.seeds.clone().nth(at - self.long.len())?;
            self.show(seed);
            (format!("seed {seed}"), seed, sheet(seed))
        };
        let asks = asks(seed, &text);
        Some(Case {
            name,
            text,
            asks,
            seed,
        })
    }

    /// If a call ends the process, the last seed shown is close to it.
    fn show(&self, seed: u64) {
        if std::io::stderr().is_terminal() || (seed - self.seeds.start) % 1_000 == 0 {
            eprint!("seed {seed}\r");
        }
    }
}

/// The calls that are compared with the second evaluator's, and those about boards.
type Product = (Box<dyn Calls>, Box<dyn Boards>);

struct Comparison {
    product: Option<Product>,
    programs: Vec<Program>,
}

/// What was compared: of the calls about a text, and of those about boards.
#[derive(Default)]
struct Tallies {
    calls: Tally,
    boards: BoardTally,
}

impl Comparison {
    fn new(stand_in: bool) -> Comparison {
        let stands_in = || -> Product {
            let calls = StandIn { fault: Fault::None };
            (Box::new(calls), Box::new(Second))
        };
        Comparison {
            product: if stand_in {
                Some(stands_in())
            } else {
                linked()
            },
            programs: programs(),
        }
    }

    fn case(&self, case: &Case, tallies: &mut Tallies) -> Result<(), Found> {
        let Case {
            text, asks, seed, ..
        } = case;
        if let Some((calls, boards)) = &self.product {
            let tally = &mut tallies.calls;
            run::sheet(&**calls, text, *seed, asks, tally)?;
            run::paired(&**calls, text, *seed, tally)?;
            run::renumbered(&**calls, text, *seed, tally)?;
            let tally = &mut tallies.boards;
            if seed % 4 == 0 || accepted(text).is_err() {
                corrected(&**boards, text, *seed, tally)?;
            }
            let text = boards::sheet(&mut Random::new(*seed));
            corrected(&**boards, &text, *seed, tally)?;
        }
        for program in &self.programs {
            run::program_sheet(program, text).expect("the program can be run")?;
        }
        Ok(())
    }

    /// Compares all cases, spread over the processors, up to a difference, which
    /// is printed.
    fn all(&self, cases: &Cases) -> Option<Tallies> {
        let next = AtomicUsize::new(0);
        let differs = AtomicBool::new(false);
        let work = || {
            let mut tallies = Tallies::default();
            while !differs.load(Ordering::Relaxed) {
                let Some(case) = cases.case(next.fetch_add(1, Ordering::Relaxed)) else {
                    break;
                };
                if let Err(found) = self.case(&case, &mut tallies) {
                    // Only the first one is printed.
                    if !differs.swap(true, Ordering::Relaxed) {
                        print_found(&case, &found);
                    }
                }
            }
            tallies
        };
        let processors = thread::available_parallelism().map_or(1, usize::from);
        let mut tallies = Tallies::default();
        thread::scope(|scope| {
            let workers: Vec<_> = (0..processors).map(|_| scope.spawn(work)).collect();
            for worker in workers {
                let more = worker.join().expect("a comparison does not panic");
                tallies.calls.join(more.calls);
                tallies.boards.join(more.boards);
            }
        });
        (!differs.into_inner()).then_some(tallies)
    }

    /// Prints what was compared; a failure where something never was.
    fn print_reached(&self, tallies: &Tallies) -> ExitCode {
        if self.product.is_none() {
            return ExitCode::SUCCESS;
        }
        println!("{}\n{}", tallies.calls, tallies.boards);
        let missing = [tallies.calls.missing(), tallies.boards.missing()].concat();
        if missing.is_empty() {
            return ExitCode::SUCCESS;
        }
        println!("Never compared: {}.", missing.join(", "));
        ExitCode::FAILURE
    }
}

/// The first difference: in a call or a program, or in a list of calls about a board.
enum Found {
    Sheet(Difference),
    Board(corrections::Difference),
}

impl From<Difference> for Found {
    fn from(difference: Difference) -> Found {
        Found::Sheet(difference)
    }
}

impl From<corrections::Difference> for Found {
    fn from(difference: corrections::Difference) -> Found {
        Found::Board(difference)
    }
}

fn print_found(case: &Case, found: &Found) {
    match found {
        Found::Sheet(difference) => print_difference(case, difference),
        Found::Board(difference) => {
            println!(
                "a board of {} differs, calls of seed {}:",
                case.name, case.seed
            );
            for turn in &difference.turns {
                println!("{turn:?}");
            }
            println!("{}", difference.how);
            write_sheet(DIFFERENCE, &difference.text);
        }
    }
}

fn print_difference(case: &Case, difference: &Difference) {
    let Case { name, seed, .. } = case;
    match &difference.differs {
        Differs::Call(ask) => println!("{name} differs in {ask:?}, garbage of seed {seed}:"),
        Differs::Program => println!("{name} differs in what a program prints:"),
        Differs::Rule { .. } => println!("{name} and a sheet like it to a rule differ:"),
        Differs::Numbering { .. } => println!("{name} and the same with other numbers differ:"),
    }
    println!("{}", difference.how);
    write_sheet(DIFFERENCE, &difference.text);
    if let Differs::Rule { other } | Differs::Numbering { other } = &difference.differs {
        write_sheet(OTHER, other);
    }
}

fn write_sheet(path: &str, text: &[u8]) {
    match std::fs::write(path, text) {
        Ok(()) => println!("A sheet, shortened, is in {path}."),
        Err(error) => println!("A sheet could not be written: {error}"),
    }
}

/// The linked calls, and those about boards, if the program was built with them.
fn linked() -> Option<Product> {
    #[cfg(feature = "linked")]
    {
        use second_evaluator::harness::linked::Linked;
        Some((Box::new(Linked::BOUNDED), Box::new(Linked::BOUNDED)))
    }
    #[cfg(not(feature = "linked"))]
    None
}

/// Whether the second evaluator stands in, and the seeds.
fn arguments() -> Option<(bool, Range<u64>)> {
    let mut words: Vec<String> = std::env::args().skip(1).collect();
    let stand_in = words.first().is_some_and(|word| word == "--stand-in");
    words.drain(..usize::from(stand_in));
    let [first, count] = words.as_slice() else {
        return None;
    };
    let (first, count): (u64, u64) = (first.parse().ok()?, count.parse().ok()?);
    Some((stand_in, first..first.checked_add(count)?))
}

fn main() -> ExitCode {
    let Some((stand_in, seeds)) = arguments() else {
        eprintln!("usage: compare [--stand-in] FIRST COUNT");
        return ExitCode::from(2);
    };
    let comparison = Comparison::new(stand_in);
    if comparison.product.is_none() && comparison.programs.is_empty() {
        eprintln!("The calls are not linked and no program is named: nothing to compare.");
        return ExitCode::from(2);
    }
    let cases = Cases {
        vectors: all_vectors().expect("the vectors can be read"),
        long: long_texts(),
        seeds,
    };
    let Some(tallies) = comparison.all(&cases) else {
        return ExitCode::FAILURE;
    };
    let (vectors, sheets) = (cases.vectors.len(), cases.seeds.end - cases.seeds.start);
    println!("No difference in {vectors} vectors and {sheets} sheets.");
    comparison.print_reached(&tallies)
}
