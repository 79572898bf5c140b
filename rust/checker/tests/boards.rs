//! Boards: made, edited, refused, and what is left of what they are lent.

use ocl_checker::calls::{self, Answer};
use ocl_checker::{edit_board, make_board, report, Board, Memory, Refusal, Refused};
use ocl_checker::{LEAST_BOARD, LEAST_VERDICTS, LEAST_WORDS};

/// The example of document 01, and a rule that sees another row.
const SHEET: &[u8] =
    b"C\t0\t-\nC\t1\t0\nA\t0\t0\t5\tInt\nA\t1\t0\t6\tInt\nO\t0\t1\nO\t1\t0\nV\t0\t0\t9\n\
    R\t0\t0\nX\tself.a5 < 12\nR\t1\t1\nX\tself.a6\n";

fn refused(refusal: Refusal, place: u64) -> Refused {
    Refused {
        number: refusal.number(),
        steps: 0,
        place,
    }
}

#[test]
fn a_setter_sees_fresh_verdicts() {
    let mut memory = Box::new(Memory::new());
    let mut board = Box::new(Board::default());
    let mut verdicts = [b'~'; LEAST_VERDICTS];
    let made = make_board(SHEET, &mut memory, &mut board, &mut verdicts);
    assert_eq!(made, Ok("0 0 t 4\n0 1 u 3\n1 0 u 2\n"));
    let edits: [(&[u8], u64, &str); 5] = [
        (b"V\t1\t0\t13\n", 8, "0 0 t 4\n0 1 f 4\n1 0 u 2\n"),
        (b"V\t0\t1\t-500\n", 2, "0 0 t 4\n0 1 f 4\n1 0 -500 2\n"),
        (b"V\t0\t0\t-\n", 7, "0 0 u 3\n0 1 f 4\n1 0 -500 2\n"),
        (b"V\t0\t0\t-\n", 7, "0 0 u 3\n0 1 f 4\n1 0 -500 2\n"),
        (b"V\t0\t1\t-\n", 2, "0 0 u 3\n0 1 f 4\n1 0 u 2\n"),
    ];
    for (edit, steps, lines) in edits {
        let edited = edit_board(SHEET, edit, &mut memory, &mut board, &mut verdicts).unwrap();
        assert_eq!((edited.steps, edited.verdicts), (steps, lines));
    }
    // Behind them stands what stood behind longer ones.
    assert!(verdicts[24..].starts_with(b" 2\n~"));
    // The board made again is the sheet's.
    let mut output = [0; LEAST_VERDICTS];
    let made = make_board(SHEET, &mut memory, &mut board, &mut verdicts);
    assert_eq!(made, report(SHEET, &mut memory, &mut output));
}

#[test]
fn a_refusal_says_why_and_leaves_the_board() {
    let mut memory = Box::new(Memory::new());
    let mut board = Box::new(Board::new());
    let mut verdicts = [b'~'; LEAST_VERDICTS];
    make_board(SHEET, &mut memory, &mut board, &mut verdicts).unwrap();
    let edits: [(&[u8], Refusal); 9] = [
        (b"", Refusal::BadLine),
        (b"V\t0\t0\t7", Refusal::BadLine),
        (b"V\t0\t0\tu\n", Refusal::BadLine),
        (b"V\t96\t0\t7\n", Refusal::OutOfLimits),
        (b"V\t2\t0\tS(2,1)\n", Refusal::OutOfOrder),
        (b"V\t2\t0\t-\n", Refusal::UnknownReference),
        (b"V\t0\t2\t-\n", Refusal::UnknownReference),
        (b"V\t0\t0\tt\n", Refusal::ValueMismatch),
        (b"O\t2\t0\n", Refusal::BadLine),
    ];
    for (edit, refusal) in edits {
        let answer = edit_board(SHEET, edit, &mut memory, &mut board, &mut verdicts);
        assert_eq!(answer, Err(refused(refusal, 1)), "{edit:?}");
    }
    let edit = b"V\t0\t0\t12\n";
    let edited = edit_board(SHEET, edit, &mut memory, &mut board, &mut verdicts).unwrap();
    assert_eq!(edited.verdicts, "0 0 f 4\n0 1 u 3\n1 0 u 2\n");
    let line = refused(Refusal::BoardFull, 1).to_string();
    assert!(line.starts_with("line 1: board full (21): "), "{line}");
}

#[test]
fn a_refused_sheet_has_no_board() {
    let mut memory = Box::new(Memory::new());
    let mut board = Box::new(Board::new());
    let mut verdicts = [b'~'; LEAST_VERDICTS];
    let sheet = b"C\t0\t-\nC\t1\t7\n";
    let unknown = refused(Refusal::UnknownReference, 2);
    let made = make_board(sheet, &mut memory, &mut board, &mut verdicts);
    assert_eq!(made, Err(unknown));
    let edited = edit_board(sheet, b"?", &mut memory, &mut board, &mut verdicts);
    assert_eq!(edited, Err(unknown));
    assert!(verdicts.iter().all(|byte| *byte == b'~'));
}

#[test]
fn too_little_is_refused_and_left_alone() {
    let lengths = [
        LEAST_WORDS,
        LEAST_WORDS,
        LEAST_WORDS,
        LEAST_BOARD,
        LEAST_VERDICTS,
    ];
    for short in 0..5 {
        let mut lengths = lengths;
        lengths[short] -= 1;
        let [first, second, third, board, bytes] = lengths;
        let mut words = [first, second, third].map(|length| vec![7; length]);
        let mut board = vec![7; board];
        let mut verdicts = vec![b'~'; bytes];
        for edit in [None, Some(b"V\t0\t0\t7\n")] {
            let words = words.each_mut().map(Vec::as_mut_slice);
            let Answer { number, length, .. } = match edit {
                None => calls::make_board(SHEET, words, &mut board, &mut verdicts),
                Some(edit) => calls::edit_board(SHEET, edit, words, &mut board, &mut verdicts),
            };
            assert_eq!((number, length), (1, 0));
        }
        assert!(words.iter().flatten().chain(&board).all(|word| *word == 7));
        assert!(verdicts.iter().all(|byte| *byte == b'~'));
    }
}

#[test]
fn what_is_no_board_only_has_to_end() {
    for fill in [0, 1, 7, u64::MAX] {
        let mut words = [LEAST_WORDS; 3].map(|length| vec![7; length]);
        let mut board = vec![fill; LEAST_BOARD + 9];
        let mut verdicts = vec![b'~'; LEAST_VERDICTS];
        let lent = words.each_mut().map(Vec::as_mut_slice);
        let answer = calls::edit_board(SHEET, b"V\t0\t0\t7\n", lent, &mut board, &mut verdicts);
        assert!(answer.length <= LEAST_VERDICTS as u64);
        assert!(words.iter().flatten().all(|word| *word == 0));
        assert!(board[LEAST_BOARD..].iter().all(|word| *word == fill));
    }
}
