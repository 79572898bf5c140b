//! Making a board and editing it (F-10).

#[path = "common/text.rs"]
mod text;

use second_evaluator::calls::{edit_board, make_board, Answer, LEAST_BOARD, LEAST_VERDICTS};
use text::text;

/// A board and the slices that go with it.
struct Board {
    text: Vec<u8>,
    words: [Vec<u64>; 3],
    board: Vec<u64>,
    verdicts: Vec<u8>,
}

impl Board {
    fn of(sheet: &str, room: usize) -> Board {
        Board {
            text: text(sheet),
            words: [8_192, 8_193, 9_000].map(|length| vec![7; length]),
            board: vec![7; LEAST_BOARD + 5],
            verdicts: vec![b'~'; room],
        }
    }

    /// The answer, with all that was lent checked; in short, number, steps, place, length.
    fn call(&mut self, line: Option<&str>) -> [u64; 4] {
        let before = (self.board.clone(), self.verdicts.clone());
        for words in &mut self.words {
            words.fill(7);
        }
        let words = self.words.each_mut().map(Vec::as_mut_slice);
        let (board, verdicts) = (&mut self.board, &mut self.verdicts);
        let answer = match line {
            None => make_board(&self.text, words, board, verdicts),
            Some(line) => {
                let line = line.replace(' ', "\t");
                edit_board(&self.text, line.as_bytes(), words, board, verdicts)
            }
        };
        let Answer {
            number,
            steps,
            place,
            length,
        } = answer;
        let wiped = if number == 1 { 0 } else { 8_192 };
        for words in &self.words {
            assert!(words[..wiped].iter().all(|word| *word == 0));
            assert!(words[wiped..].iter().all(|word| *word == 7));
        }
        assert_eq!(self.board[LEAST_BOARD..], before.0[LEAST_BOARD..]);
        assert_eq!(
            self.verdicts[length as usize..],
            before.1[length as usize..]
        );
        if number != 0 {
            assert_eq!((&self.board, &self.verdicts), (&before.0, &before.1));
        }
        [number, steps, place, length]
    }

    fn make(&mut self) -> [u64; 4] {
        self.call(None)
    }

    /// An edit that is a line.
    fn edit(&mut self, line: &str) -> [u64; 4] {
        self.call(Some(&format!("{line}\n")))
    }

    fn verdicts(&self, answer: [u64; 4]) -> &str {
        std::str::from_utf8(&self.verdicts[..answer[3] as usize]).unwrap()
    }
}

/// The example of document 01.
const SHEET: &str = "C 0 -|C 1 0|A 0 0 5 Int|O 0 1|O 1 0|V 0 0 9|R 0 0|N 0 self|N 1 attr 0 5|\
    N 2 int 12|N 3 less 1 2";

#[test]
fn a_setter_sees_fresh_verdicts() {
    let mut board = Board::of(SHEET, LEAST_VERDICTS);
    let made = board.make();
    assert_eq!(made, [0, 0, 0, 16]);
    assert_eq!(board.verdicts(made), "0 0 t 4\n0 1 u 3\n");
    let set = board.edit("V 1 0 13");
    assert_eq!(set, [0, 8, 0, 16]);
    assert_eq!(board.verdicts(set), "0 0 t 4\n0 1 f 4\n");
    let cleared = board.edit("V 0 0 -");
    assert_eq!(cleared, [0, 7, 0, 16]);
    assert_eq!(board.verdicts(cleared), "0 0 u 3\n0 1 f 4\n");
    // Nothing stood there any more, and the same value again.
    assert_eq!(board.edit("V 0 0 -"), [0, 7, 0, 16]);
    assert_eq!(board.edit("V 1 0 13"), [0, 7, 0, 16]);
    assert_eq!(board.verdicts(cleared), "0 0 u 3\n0 1 f 4\n");
    assert_eq!(board.make(), [0, 0, 0, 16]);
    assert_eq!(board.verdicts(made), "0 0 t 4\n0 1 u 3\n");
}

/// Edits that are refused, and the number.
const REFUSED: [(&str, u64); 32] = [
    ("", 3),
    ("V 0 0 S(1)", 3),
    ("\n", 3),
    ("V 0 0 S(1)\nV 0 0 -\n", 3),
    ("V 0 0 S(1)\n\n", 3),
    ("O 0 0\n", 3),
    ("v 0 0 S(1)\n", 3),
    ("V 0 0\n", 3),
    ("V 0 0 S(1) 1\n", 3),
    ("V 00 0 S(1)\n", 3),
    ("V 0 0 u\n", 3),
    ("V 0 0 S(u)\n", 3),
    ("V 0 0 --\n", 3),
    ("V 0 0 - \n", 3),
    ("V 96 0 x\n", 3),
    ("V 96 0 -\n", 4),
    ("V 0 64 -\n", 4),
    ("V 0 0 S(2147483648)\n", 4),
    ("V 0 0 S(S(S(S())))\n", 4),
    ("V 95 0 S(2147483648)\n", 4),
    ("V 0 0 S(2,1)\n", 5),
    ("V 0 0 S(1,1)\n", 5),
    ("V 95 0 S(1,1)\n", 5),
    ("V 2 0 -\n", 6),
    ("V 0 2 -\n", 6),
    ("V 0 0 S(@2)\n", 6),
    ("V 1 0 S(@2)\n", 6),
    ("V 0 1 -\n", 7),
    ("V 1 0 -\n", 7),
    ("V 0 0 7\n", 7),
    ("V 1 1 t\n", 7),
    ("V 1 0 S(1)\n", 7),
];

#[test]
fn every_refusal_of_an_edit_is_at_1() {
    let sheet = "C 0 -|C 1 -|A 0 0 5 S(Any)|A 1 1 6 Int|O 0 0|O 1 1|R 0 0|N 0 self|N 1 attr 0 5";
    let mut board = Board::of(sheet, LEAST_VERDICTS);
    assert_eq!(board.make(), [0, 0, 0, 8]);
    for (line, number) in REFUSED {
        assert_eq!(board.call(Some(line)), [number, 0, 1, 0], "{line:?}");
    }
    let set = board.edit("V 0 0 S(1,@1)");
    assert_eq!(
        (set, board.verdicts(set)),
        ([0, 2, 0, 14], "0 0 S(1,@1) 2\n")
    );
}

#[test]
fn the_text_is_judged_before_the_edit() {
    let untyped = format!("{SHEET}|R 1 0|N 0 var 1");
    for (sheet, refusal) in [("C 0 -|C 1 1", [6, 0, 2, 0]), (&*untyped, [9, 0, 13, 0])] {
        let mut board = Board::of(sheet, LEAST_VERDICTS);
        assert_eq!(board.make(), refusal);
        for edit in ["", "V 0 0 7", "V 0 0 -", "?"] {
            assert_eq!(board.edit(edit), refusal);
        }
    }
    let mut board = Board::of(SHEET, LEAST_VERDICTS);
    board.text = vec![b'\n'; 49_153];
    assert_eq!(board.make(), [2, 0, 0, 0]);
    assert_eq!(board.edit("?"), [2, 0, 0, 0]);
}

#[test]
fn short_slices_come_first() {
    for slice in 0..5 {
        let mut board = Board::of("C 1 1", LEAST_VERDICTS);
        match slice {
            3 => board.board.truncate(LEAST_BOARD - 1),
            4 => board.verdicts.truncate(LEAST_VERDICTS - 1),
            slice => board.words[slice].truncate(8_191),
        }
        let mut call = |line| {
            let words = board.words.each_mut().map(Vec::as_mut_slice);
            let (text, bytes, verdicts) = (&board.text, &mut board.board, &mut board.verdicts);
            match line {
                Some(line) => edit_board(text, line, words, bytes, verdicts).number,
                None => make_board(text, words, bytes, verdicts).number,
            }
        };
        assert_eq!((call(None), call(Some(b"?"))), (1, 1), "{slice}");
        assert!(board.words.iter().flatten().all(|word| *word == 7));
    }
}

/// A Sequence of so many Integers of eleven bytes.
fn long(count: usize) -> String {
    format!("Q({})", vec!["-2147483648"; count].join(","))
}

#[test]
fn verdicts_may_fill_their_bytes_but_not_exceed_them() {
    let sheet = "C 0 -|A 0 0 5 Q(Int)|O 0 0|O 1 0|R 0 0|N 0 self|N 1 attr 0 5";
    let mut board = Board::of(sheet, LEAST_VERDICTS);
    assert_eq!(board.make(), [0, 0, 0, 16]);
    // A line of n such Integers has 12 n + 9 bytes, one of `u` has 8.
    let first = format!("V 0 0 {}", long(127));
    assert_eq!(board.edit(&first), [0, 4, 0, 1_541]);
    let more = |count| format!("V 1 0 {}", long(count));
    assert_eq!(board.edit(&more(85)), [18, 0, 0, 0]);
    assert_eq!(board.edit(&more(84)), [0, 4, 0, 2_550]);
    assert_eq!(board.edit("V 0 0 -"), [0, 4, 0, 1_025]);
    // Lent more, they may be longer.
    board.verdicts.extend([b'~'; 100]);
    assert_eq!(board.edit(&first), [0, 4, 0, 2_550]);
}

#[test]
fn a_full_board_is_21() {
    let values = (0..1_024).map(|n| format!("V {} {} 7|", n / 64, n % 64));
    let rows = (0..64).map(|row| format!("A {row} 0 {row} Any|"));
    let objects = (0..17).map(|object| format!("O {object} 0|"));
    let lines: String = rows.chain(objects).chain(values).collect();
    let sheet = format!("C 0 -|{lines}R 0 0|N 0 true");
    let mut board = Board::of(&sheet, LEAST_VERDICTS);
    let length = board.make()[3];
    assert_eq!(board.edit("V 16 0 7"), [21, 0, 1, 0]);
    assert_eq!(board.edit("V 16 0 S()"), [7, 0, 1, 0]);
    assert_eq!(board.edit("V 16 0 -"), [0, 0, 0, length]);
    assert_eq!(board.edit("V 3 9 t"), [0, 0, 0, length]);
    assert_eq!(board.edit("V 3 9 -"), [0, 0, 0, length]);
    assert_eq!(board.edit("V 16 0 7"), [0, 0, 0, length]);
    assert_eq!(board.edit("V 3 9 t"), [21, 0, 1, 0]);
}

#[test]
fn what_is_no_board_only_has_to_end() {
    let mut board = Board::of(SHEET, LEAST_VERDICTS);
    for fill in [0, 1, 7, u64::MAX] {
        board.board.fill(fill);
        let words = board.words.each_mut().map(Vec::as_mut_slice);
        let line = b"V\t0\t0\t7\n";
        let answer = edit_board(
            &board.text,
            line,
            words,
            &mut board.board,
            &mut board.verdicts,
        );
        assert!(answer.length <= LEAST_VERDICTS as u64);
    }
}

/// What the examples in C and Rust print for `examples/cap.edits`.
#[test]
fn the_cap_is_corrected_as_it_is_written_down() {
    let read = |name: &str| {
        let examples = concat!(env!("CARGO_MANIFEST_DIR"), "/../examples");
        std::fs::read_to_string(format!("{examples}/{name}")).unwrap()
    };
    let mut board = Board::of("", LEAST_VERDICTS);
    board.text = read("cap.sheet").into_bytes();
    let made = board.make();
    let mut last = board.verdicts(made).to_string();
    assert_eq!(last, read("cap.report"));
    let mut printed = last.clone();
    for edit in read("cap.edits").split_inclusive('\n') {
        let answer = board.call(Some(edit));
        let [number, steps, place, _] = answer;
        if number != 0 {
            printed += &format!("refused: {number} at {place}\n");
            continue;
        }
        printed += &format!("{steps} steps\n");
        let now = board.verdicts(answer).to_string();
        let lines = last.split_inclusive('\n').zip(now.split_inclusive('\n'));
        printed.extend(lines.filter(|(old, new)| old != new).map(|(_, new)| new));
        last = now;
    }
    assert_eq!(printed, read("cap.corrected"));
}
