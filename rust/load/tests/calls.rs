//! The record and the printed line, as they are linked.

use thread_load::{print, Load, Window, LINE, LONGEST, MOST};

#[test]
fn a_run_begins_with_the_first_full_window() {
    let mut window = Window::new(2);
    assert_eq!(window.load(), None);
    assert!(window.push(7));
    assert_eq!(window.load(), None);
    assert!(window.push(0));
    assert_eq!(window.load(), Some(Load { sum: 7, first: 1 }));
    // The same sum again is not earlier; a larger one is.
    assert!(window.push(7));
    assert_eq!(window.load(), Some(Load { sum: 7, first: 1 }));
    assert!(window.push(1));
    assert_eq!(window.load(), Some(Load { sum: 8, first: 3 }));
    assert_eq!((window.count, window.sum), (4, 8));
}

#[test]
fn a_length_that_is_not_taken_changes_nothing() {
    let mut window = Window::new(64);
    assert!(window.push(LONGEST));
    let before = window;
    assert!(!window.push(LONGEST + 1) && !window.push(u16::MAX));
    assert_eq!(window, before);
}

#[test]
fn a_million_lengths_and_no_more() {
    let mut window = Window::new(64);
    for number in 1..=MOST {
        assert!(window.push((number % 1_000) as u16), "{number}");
    }
    let before = window;
    assert!(!window.push(1));
    assert_eq!(window, before);
    // 936 to 999 in a row, first at stitch 936.
    let sum = (936..=999).sum();
    assert_eq!(window.load(), Some(Load { sum, first: 936 }));
}

/// Records that no lengths lead to are answered too.
#[test]
fn any_record_is_safe() {
    for width in [0, 1, 64, 65, u64::MAX] {
        for count in [0, 63, MOST, u64::MAX] {
            let mut window = Window {
                count,
                recent: [u16::MAX; 64],
                sum: count,
                largest: u64::MAX,
                first: 5,
                ..Window::new(width)
            };
            let before = window;
            if !window.push(3) {
                assert_eq!(window, before);
            }
        }
    }
}

#[test]
fn only_the_line_is_written() {
    let mut output = [b'~'; LINE];
    assert_eq!(print(b"1\n0\n", &mut output), "0 1\n");
    assert_eq!(output[4..], [b'~'; LINE - 4]);
    assert_eq!(print(b"", &mut output), "! 3 1\n");
    assert_eq!(output[6..], [b'~'; LINE - 6]);
}
