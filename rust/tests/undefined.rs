//! Where undefined came from (F-11): what the call answers that tells it, and that it is
//! what document 02 says, read off all that ran.

mod common;

use common::{answer, evaluate_on, lent, lent_with, read, text};
use second_evaluator::calls::{self, accepted, Answer};
use second_evaluator::eval::{evaluate, origin, runs, Run};
use second_evaluator::generate;
use second_evaluator::generate::origins::about;
use second_evaluator::generate::random::Random;
use second_evaluator::generate::texts::retold;
use second_evaluator::harness::astray::Astray;
use second_evaluator::harness::faults::Fault;
use second_evaluator::harness::origin_cases::NAMES;
use second_evaluator::harness::run;
use second_evaluator::harness::standin::StandIn;
use second_evaluator::harness::tally::Tally;
use second_evaluator::origins::followed;
use second_evaluator::report::steps_of;
use second_evaluator::tree::Form;

fn undefined(sheet: &str) -> (Answer, String) {
    lent(|words, out| calls::undefined(&text(sheet), words, out))
}

fn report(sheet: &str) -> (Answer, String) {
    lent(|words, out| calls::report(&text(sheet), words, out))
}

/// The example of document 01: object 1 has no value in row 0.
const SHEET: &str = "C 0 -|C 1 0|A 0 0 5 Int|O 0 1|O 1 0|V 0 0 9|\
    R 0 0|N 0 self|N 1 attr 0 5|N 2 int 12|N 3 less 1 2";

#[test]
fn an_undefined_verdict_has_a_line() {
    assert_eq!(report(SHEET), answer(0, 0, 0, "0 0 t 4\n0 1 u 3\n"));
    assert_eq!(undefined(SHEET), answer(0, 0, 0, "0 1 9 2\n"));
    assert_eq!(evaluate_on(SHEET, 0, 1), answer(0, 3, 0, "u"));
}

#[test]
fn what_reading_refuses_is_refused() {
    let untyped = format!("{SHEET}|R 1 0|N 0 var 1");
    for refused in ["C 0 -|C 1 1", "C 0 -|R 0 0|X 1 +", &untyped] {
        assert_eq!(undefined(refused), read(refused), "{refused}");
        assert_ne!(undefined(refused).0.number, 0, "{refused}");
    }
}

/// Forty rules for forty objects. The first object of each has a value.
fn many() -> String {
    let objects: String = (0..40).map(|n| format!("|O {n} 0")).collect();
    let rules: String = (0..40).map(|n| format!("|R {n} 0|X self.a5")).collect();
    format!("C 0 -|A 0 0 5 Int{objects}|V 0 0 7{rules}")
}

#[test]
fn lines_may_fill_the_output_but_not_exceed_it() {
    let sheet = many();
    let rules: Vec<usize> = (0..40).map(|rule| 45 + 2 * rule).collect();
    let lines = rules
        .iter()
        .enumerate()
        .flat_map(|(rule, line)| (1..40).map(move |object| format!("{rule} {object} {line} 1\n")));
    let lines: String = lines.collect();
    let call = |room| {
        lent_with([8_192; 3], room, |words, out| {
            calls::undefined(&text(&sheet), words, out)
        })
    };
    assert_eq!(call(lines.len()), answer(0, 0, 0, &lines));
    assert_eq!(call(lines.len() - 1), answer(18, 0, 0, ""));
    assert_eq!(call(2_560), answer(18, 0, 0, ""));
}

#[test]
fn the_length_of_the_report_does_not_matter() {
    let sheet = many().replace("X self.a5", "X self.a5.isUndef()");
    assert_eq!(report(&sheet), answer(18, 0, 0, ""));
    assert_eq!(undefined(&sheet), answer(0, 0, 0, ""));
}

/// What document 02 says of the run that is named.
fn is_where_it_arose(runs: &[Run], named: usize) -> bool {
    let is_blank = |run: &Run| run.is_undefined();
    let operands = |position| runs.iter().filter(move |run| run.above == Some(position));
    // "came out undefined, and had every operand it ran defined"
    let arose = is_blank(&runs[named]) && operands(named).all(|run| run.value().is_some());
    // "From it to the root each node came out undefined", and the first such operand is followed
    let mut at = named;
    let mut handed = true;
    while let Some(above) = runs[at].above {
        let first = operands(above).find(|run| is_blank(run));
        handed &= is_blank(&runs[above]) && first.is_some_and(|run| std::ptr::eq(run, &runs[at]));
        at = above;
    }
    arose && handed && at == 0
}

/// Sheets of both generators that are accepted, and that evaluate quickly.
fn sheets() -> impl Iterator<Item = (u64, second_evaluator::model::Sheet)> {
    let any = (0..1_200).map(|seed| (seed, generate::sheet(seed)));
    let own = (0..500).map(|seed| (seed, about(&mut Random::new(seed))));
    let accepted = |(seed, text): (u64, Vec<u8>)| Some((seed, accepted(&text).ok()?.0));
    any.chain(own).filter_map(accepted)
}

#[test]
fn exactly_one_run_is_where_undefined_arose() {
    let (mut checked, mut several) = (0, 0);
    for (seed, sheet) in sheets() {
        for rule in &sheet.rules {
            for object in sheet.model.objects_of(rule.context).take(3) {
                let (outcome, steps) = evaluate(&sheet, rule, object);
                if steps > 2_000 {
                    continue;
                }
                let runs = runs(&sheet, rule, object);
                assert_eq!(runs.len() as u64, steps, "{seed}");
                let named: Vec<usize> = (0..runs.len())
                    .filter(|position| is_where_it_arose(&runs, *position))
                    .collect();
                let told = origin(&sheet, rule, object);
                assert_eq!(told.is_some(), outcome == Ok(None), "{seed}");
                let told = told.map(|told| (told.line, told.step as usize));
                let expected: Vec<(usize, usize)> = named
                    .iter()
                    .map(|position| (runs[*position].node.line, position + 1))
                    .collect();
                assert_eq!(told.into_iter().collect::<Vec<_>>(), expected, "{seed}");
                assert_eq!(followed(&runs).last().copied(), named.first().copied());
                checked += named.len();
                let blank = runs.iter().filter(|run| run.is_undefined());
                several += usize::from(blank.count() > followed(&runs).len());
            }
        }
    }
    assert!(checked > 1_000 && several > 100, "{checked} {several}");
}

/// `let` is strict, so that no variable is bound to undefined.
#[test]
fn no_variable_is_undefined() {
    let mut variables = 0;
    for (seed, sheet) in sheets() {
        for rule in &sheet.rules {
            for object in sheet.model.objects_of(rule.context).take(2) {
                if evaluate(&sheet, rule, object).1 > 2_000 {
                    continue;
                }
                for run in runs(&sheet, rule, object) {
                    if matches!(run.node.form, Form::Var(_)) {
                        variables += 1;
                        assert!(!run.is_undefined(), "{seed}");
                    }
                }
            }
        }
    }
    assert!(variables > 1_000, "{variables}");
}

/// A sheet about undefined verdicts. Few of those that take nearly all of the time are taken.
fn sheet_about(seed: u64) -> Option<Vec<u8>> {
    let text = about(&mut Random::new(seed));
    let is_long = steps_of(&calls::program(&text)) > 20_000;
    (!is_long || seed % 10 == 0).then_some(text)
}

/// The vectors have all cases too; this is about the generator alone.
#[test]
fn every_case_is_generated() {
    let right = StandIn { fault: Fault::None };
    let mut tally = Tally::default();
    let missing = |tally: &Tally| -> Vec<String> {
        let missing = tally.missing().into_iter();
        missing
            .filter(|name| NAMES.contains(&name.as_str()))
            .collect()
    };
    for seed in 0..2_000 {
        let Some(text) = sheet_about(seed) else {
            continue;
        };
        let texts = [Some(text.clone()), retold(&mut Random::new(seed), &text)];
        for text in texts.into_iter().flatten() {
            let mut asks = generate::asks(seed, &text);
            asks.retain(|ask| ask.call == generate::Call::Undefined);
            let result = run::sheet(&right, &text, seed, &asks, &mut tally);
            assert!(result.is_ok(), "{seed}");
        }
        if seed % 50 == 49 && missing(&tally).is_empty() {
            return;
        }
    }
    panic!("{:?}", missing(&tally));
}

#[test]
fn every_way_astray_is_found() {
    let mut left = Astray::ALL.to_vec();
    for seed in 0..1_000 {
        let Some(text) = sheet_about(seed) else {
            continue;
        };
        let mut asks = generate::asks(seed, &text);
        asks.retain(|ask| ask.call == generate::Call::Undefined);
        left.retain(|astray| run::sheet(astray, &text, seed, &asks, &mut Tally::default()).is_ok());
        if left.is_empty() {
            return;
        }
    }
    panic!("{left:?}");
}
