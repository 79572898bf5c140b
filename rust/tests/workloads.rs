//! The benchmark's workloads are good sheets of the sizes they claim.

use second_evaluator::calls::{edit_board, make_board};
use second_evaluator::calls::{Answer, LEAST_BOARD, LEAST_WORDS, LONGEST_SHEET, PROGRAM_OUTPUT};
use second_evaluator::harness::second;
use second_evaluator::workloads::edits::{edits, RULES};
use second_evaluator::workloads::{workloads, Workload};

/// The answer for each text of a job, and its units.
fn answers(workload: &Workload, size: usize) -> Vec<(Answer, usize)> {
    let mut slices = [0; 3].map(|word| vec![word; LEAST_WORDS]);
    let mut out = vec![0; PROGRAM_OUTPUT];
    let call = |text: &Vec<u8>| {
        let words = slices.each_mut().map(Vec::as_mut_slice);
        let answer = second(workload.call, text, words, &mut out);
        (answer, workload.units(text, answer, &out))
    };
    workload.jobs[size].iter().map(call).collect()
}

fn units(workload: &Workload, size: usize) -> usize {
    answers(workload, size).iter().map(|(_, units)| units).sum()
}

#[test]
fn every_job_is_answered() {
    for workload in workloads() {
        for size in 0..2 {
            for (answer, _) in answers(&workload, size) {
                let name = workload.name;
                assert_eq!(answer.number, workload.number, "{name} {answer:?}");
            }
        }
    }
}

#[test]
fn large_jobs_are_about_ten_times_the_small_ones() {
    for workload in workloads() {
        let [small, large] = [0, 1].map(|size| units(&workload, size));
        let times = large as f64 / small as f64;
        assert!((5.0..15.0).contains(&times), "{} {times}", workload.name);
    }
}

#[test]
fn the_limits_are_near() {
    let all = workloads();
    let longest = all
        .iter()
        .flat_map(|workload| workload.jobs.iter().flatten());
    assert_eq!(longest.map(Vec::len).max(), Some(LONGEST_SHEET));
    for workload in all
        .iter()
        .filter(|workload| workload.name.starts_with("steps"))
    {
        let (Answer { steps, .. }, _) = answers(workload, 1)[0];
        assert!(
            (900_000..=1_000_000).contains(&steps),
            "{} {steps}",
            workload.name
        );
    }
}

#[test]
fn an_edit_takes_the_steps_of_the_rules_that_see_it() {
    let steps = edits().map(|edits| {
        let mut words = [0; 3].map(|word| vec![word; LEAST_WORDS]);
        let mut board = vec![0; LEAST_BOARD];
        let mut out = vec![0; PROGRAM_OUTPUT];
        let lent = words.each_mut().map(Vec::as_mut_slice);
        assert_eq!(
            make_board(&edits.text, lent, &mut board, &mut out).number,
            0
        );
        let answers = edits.edits.each_ref().map(|edit| {
            let lent = words.each_mut().map(Vec::as_mut_slice);
            edit_board(&edits.text, edit, lent, &mut board, &mut out)
        });
        assert_eq!(answers[0], answers[1]);
        assert_eq!(answers[0].number, 0);
        assert_eq!(answers[0].steps % edits.seeing as u64, 0);
        answers[0].steps / edits.seeing as u64
    });
    assert_eq!(steps, [202; 3], "{RULES}");
}
