//! Times the linked calls and the second evaluator side by side, in processor
//! time.

use second_evaluator::calls::{Answer, LEAST_BOARD, LEAST_WORDS, PROGRAM_OUTPUT};
use second_evaluator::generate::Call;
use second_evaluator::harness::boards::{Boards, Second};
use second_evaluator::harness::clock;
use second_evaluator::harness::faults::Fault;
use second_evaluator::harness::linked::Linked;
use second_evaluator::harness::standin::StandIn;
use second_evaluator::harness::Calls;
use second_evaluator::workloads::edits::{edits, makings, Edits, Makings, RULES};
use second_evaluator::workloads::{workloads, Workload};
use std::hint::black_box;
use std::process::ExitCode;
use std::time::Duration;

/// Rounds, in each of which both are timed once; the best of them counts.
const ROUNDS: usize = 40;
/// A timing repeats its job until this much time has passed.
const ENOUGH: Duration = Duration::from_millis(5);
/// The product's time for each of the second evaluator's, at most.
const RATIO: f64 = 1.0;
/// The product's time for a unit of the large job for each of the small one's,
/// at most.
const GROWTH: f64 = 1.3;

struct Lent {
    words: [Vec<u64>; 3],
    board: Vec<u64>,
    out: Vec<u8>,
}

impl Lent {
    fn call(&mut self, calls: &dyn Calls, workload: &Workload, text: &[u8]) -> Answer {
        let words = self.words.each_mut().map(Vec::as_mut_slice);
        calls.call(workload.call, text, words, &mut self.out)
    }

    fn make(&mut self, boards: &dyn Boards, text: &[u8]) -> Answer {
        let words = self.words.each_mut().map(Vec::as_mut_slice);
        boards.make(text, words, &mut self.board, &mut self.out)
    }

    fn edit(&mut self, boards: &dyn Boards, text: &[u8], edit: &[u8]) -> Answer {
        let words = self.words.each_mut().map(Vec::as_mut_slice);
        boards.edit(text, edit, words, &mut self.board, &mut self.out)
    }
}

/// The best time of two jobs that take turns: the second evaluator's and the product's.
fn best(mut job: impl FnMut(usize)) -> [f64; 2] {
    let mut best = [f64::INFINITY; 2];
    for _ in 0..ROUNDS {
        for (whose, best) in best.iter_mut().enumerate() {
            *best = best.min(clock::time(ENOUGH, || job(whose)));
        }
    }
    best
}

/// Both implementations of the calls, and of those about boards.
const CALLS: [&dyn Calls; 2] = [&StandIn { fault: Fault::None }, &Linked::PLAIN];
const BOARDS: [&dyn Boards; 2] = [&Second, &Linked::PLAIN];

/// Times a workload, prints its lines, and says whether the product keeps within
/// both bounds.
fn run(lent: &mut Lent, workload: &Workload) -> bool {
    let mut times = [[0.0; 2]; 2];
    for (size, job) in workload.jobs.iter().enumerate() {
        let units = job.iter().map(|text| {
            let answer = lent.call(CALLS[0], workload, text);
            assert_eq!(answer.number, workload.number, "{}", workload.name);
            workload.units(text, answer, &lent.out)
        });
        let units = units.sum();
        let best = best(|whose| {
            for text in job {
                black_box(lent.call(CALLS[whose], workload, text));
            }
        });
        let unit = format!("{:?}", workload.unit).to_lowercase();
        times[size] = shown(workload.name, size, units, &unit, best);
    }
    grown(times)
}

/// Prints the times of a job by the unit.
fn shown(name: &str, size: usize, units: usize, unit: &str, best: [f64; 2]) -> [f64; 2] {
    let [ours, theirs] = best.map(|time| time / units as f64);
    println!(
        "{name:<24} {:>6} {units:>9} {unit:>6} {ours:>14.2} {theirs:>14.2} {:>7.2}",
        ["1x", "10x"][size],
        theirs / ours,
    );
    [ours, theirs]
}

/// Prints how both grow from the small job to the large one, and says whether the product
/// keeps within both bounds.
fn grown(times: [[f64; 2]; 2]) -> bool {
    let [small, large] = times;
    let growth = [0, 1].map(|calls| large[calls] / small[calls]);
    println!(
        "{:<48} {:>14.2} {:>14.2}",
        "  growth per unit", growth[0], growth[1]
    );
    let ratios = times.map(|[ours, theirs]| theirs / ours);
    ratios.iter().all(|ratio| *ratio <= RATIO) && growth[1] <= GROWTH
}

/// The same for making boards, timed for each verdict.
fn make(lent: &mut Lent, makings: &Makings) -> bool {
    let mut times = [[0.0; 2]; 2];
    for (size, job) in makings.jobs.iter().enumerate() {
        let units = job.iter().map(|text| {
            let answer = lent.make(BOARDS[0], text);
            assert_eq!(answer.number, 0, "{}", makings.name);
            let verdicts = &lent.out[..answer.length as usize];
            verdicts.iter().filter(|byte| **byte == b'\n').count()
        });
        let units = units.sum();
        let best = best(|whose| {
            for text in job {
                black_box(lent.make(BOARDS[whose], text));
            }
        });
        times[size] = shown(makings.name, size, units, "line", best);
    }
    grown(times)
}

/// The time of an edit for each of what it may take, at most: reading and typing, and of the
/// rest of a report the part of the rules that see the edit.
const EDIT: f64 = 1.3;

/// Times an edit beside a report and reading alone, prints its lines, and says whether the
/// product keeps within both bounds.
fn correct(lent: &mut Lent, edits: &Edits) -> bool {
    let Edits { name, text, .. } = edits;
    let mut times = [f64::INFINITY; 2];
    for _ in 0..ROUNDS {
        for (boards, best) in BOARDS.into_iter().zip(&mut times) {
            // The board of one is none of the other's.
            assert_eq!(lent.make(boards, text).number, 0, "{name}");
            let passed = clock::time(ENOUGH, || {
                for edit in &edits.edits {
                    assert_eq!(lent.edit(boards, text, edit).number, 0, "{name}");
                }
            });
            *best = best.min(passed / edits.edits.len() as f64);
        }
    }
    let [read, report] = [Call::Read, Call::Report].map(|call| {
        let workload = Workload::of(name, call, text.clone());
        best(|whose| {
            black_box(lent.call(CALLS[whose], &workload, text));
        })[1]
    });
    let [ours, theirs] = times;
    let part = edits.seeing as f64 / RULES as f64;
    let bound = read + (report - read) * part;
    println!(
        "{name:<48} {ours:>14.2} {theirs:>14.2} {:>7.2}",
        theirs / ours
    );
    println!("  a report {report:.0}, reading {read:.0}, in proportion {bound:.0}");
    theirs <= RATIO * ours && theirs <= EDIT * bound
}

fn main() -> ExitCode {
    let mut lent = Lent {
        words: [0; 3].map(|word| vec![word; LEAST_WORDS]),
        board: vec![0; LEAST_BOARD],
        out: vec![0; PROGRAM_OUTPUT],
    };
    println!(
        "{:<24} {:>6} {:>9} {:>6} {:>14} {:>14} {:>7}",
        "", "size", "units", "unit", "second ns/unit", "product", "ratio"
    );
    let mut beyond = Vec::new();
    for workload in &workloads() {
        if !run(&mut lent, workload) {
            beyond.push(workload.name);
        }
    }
    for makings in &makings() {
        if !make(&mut lent, makings) {
            beyond.push(makings.name);
        }
    }
    for edits in &edits() {
        if !correct(&mut lent, edits) {
            beyond.push(edits.name);
        }
    }
    let bounds = format!("a ratio of {RATIO:.1} and a growth of {GROWTH:.1}");
    if beyond.is_empty() {
        println!("Every workload is within {bounds}.");
        return ExitCode::SUCCESS;
    }
    println!("Not within {bounds}: {}.", beyond.join("; "));
    ExitCode::FAILURE
}
