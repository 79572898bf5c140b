//! The second evaluator prints what each vector says.

use second_evaluator::calls::{
    board_program, profile_program, program, rows_program, undefined_program,
};
use second_evaluator::harness::vectors::{
    board_vectors, origin_vectors, profile_vectors, row_vectors, vectors, Vector,
};

/// The names of those for which something else is printed.
fn wrong(vectors: Vec<Vector>, printed: fn(&[u8]) -> Vec<u8>) -> Vec<String> {
    assert!(!vectors.is_empty());
    let wrong = vectors
        .into_iter()
        .filter(|vector| printed(&vector.text) != vector.printed);
    wrong.map(|vector| vector.name).collect()
}

#[test]
fn every_vector_prints_what_it_says() {
    let wrong = wrong(vectors().unwrap(), program);
    assert!(wrong.is_empty(), "{wrong:#?}");
}

#[test]
fn every_vector_prints_the_rows_that_it_says() {
    let wrong = wrong(row_vectors().unwrap(), rows_program);
    assert!(wrong.is_empty(), "{wrong:#?}");
}

#[test]
fn every_vector_is_held_to_the_profile_as_it_says() {
    let wrong = wrong(profile_vectors().unwrap(), profile_program);
    assert!(wrong.is_empty(), "{wrong:#?}");
}

#[test]
fn every_vector_prints_the_origins_that_it_says() {
    let wrong = wrong(origin_vectors().unwrap(), undefined_program);
    assert!(wrong.is_empty(), "{wrong:#?}");
}

#[test]
fn every_list_of_edits_is_answered_as_it_says() {
    let wrong = wrong(board_vectors().unwrap(), board_program);
    assert!(wrong.is_empty(), "{wrong:#?}");
}
