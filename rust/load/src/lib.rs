//! Thread load along a run: the largest sum of so many neighbouring stitch
//! lengths, and the stitch at which it first begins. What the functions answer is
//! proved; this crate only calls them.
//!
//! A [`Window`] takes one length at a time, as the machine sews:
//!
//! ```
//! use thread_load::{Load, Window};
//!
//! let mut window = Window::new(3);
//! for length in [5, 2, 7, 7, 1, 0, 9] {
//!     assert!(window.push(length));
//! }
//! assert_eq!(window.load(), Some(Load { sum: 16, first: 2 }));
//! ```
//!
//! [`print`] answers for a whole text of lengths what the program `thread_load`
//! prints for it:
//!
//! ```
//! let mut output = [0; thread_load::LINE];
//! assert_eq!(thread_load::print(b"2\n10\n30\n25\n", &mut output), "55 2\n");
//! assert_eq!(thread_load::print(b"2\n10\n", &mut output), "! 25 0\n");
//! ```

#![no_std]

/// This crate's version, which is that of the library it is made for.
pub const VERSION: &str = env!("CARGO_PKG_VERSION");
/// The widest window.
pub const WIDEST: u64 = 64;
/// The longest stitch.
pub const LONGEST: u16 = 1_000;
/// The most lengths that a window takes.
pub const MOST: u64 = 1_000_000;
/// The bytes lent for a printed line. Every line fits.
pub const LINE: usize = 64;

/// The running record. It is plain data: a copy of it goes on by itself.
#[repr(C)]
#[derive(Clone, Copy, PartialEq, Eq, Debug)]
pub struct Window {
    /// How many neighbours make a run, from 1 to [`WIDEST`].
    pub width: u64,
    /// How many lengths were taken.
    pub count: u64,
    /// The last of them: length number n, from 0, stands at n modulo 64.
    pub recent: [u16; 64],
    /// The sum of the last `width` lengths, of all while they are fewer.
    pub sum: u64,
    /// The largest sum of a run so far.
    pub largest: u64,
    /// The number, from 1, of the first length of the earliest such run; 0 while
    /// there is no run.
    pub first: u64,
}

/// The largest sum, and the number, from 1, of the first stitch of the earliest
/// run that has it.
#[derive(Clone, Copy, PartialEq, Eq, Debug)]
pub struct Load {
    /// The sum.
    pub sum: u64,
    /// The stitch.
    pub first: u64,
}

impl Window {
    /// A window that has taken nothing. A width outside 1 to [`WIDEST`] makes a
    /// record that says nothing of runs; using it is safe all the same.
    pub const fn new(width: u64) -> Window {
        Window {
            width,
            count: 0,
            recent: [0; 64],
            sum: 0,
            largest: 0,
            first: 0,
        }
    }

    /// Takes one length more, and says whether it did. A length over [`LONGEST`],
    /// or one behind [`MOST`] others, is not taken, and nothing changes.
    #[must_use]
    pub fn push(&mut self, length: u16) -> bool {
        calls::push(self, length)
    }

    /// The load of the lengths so far; none while they are fewer than the width.
    pub fn load(&self) -> Option<Load> {
        (self.first != 0).then_some(Load {
            sum: self.largest,
            first: self.first,
        })
    }
}

/// The line that the program prints for a text: sum and first stitch, or `!` with
/// number and place. It stands at the front of the output; what is behind it stays
/// as it was.
pub fn print<'o>(text: &[u8], output: &'o mut [u8; LINE]) -> &'o str {
    let length = calls::text(text, output);
    core::str::from_utf8(&output[..length]).expect("what is printed is ASCII")
}

mod calls {
    #![allow(unsafe_code)]

    use super::{Window, LINE};

    extern "C" {
        fn load_push(window: *mut Window, length: u16) -> bool;
        // A slice is a pointer and a length.
        fn load_text(text: *const u8, text_length: usize, output: *mut u8) -> usize;
    }

    pub fn push(window: &mut Window, length: u16) -> bool {
        // SAFETY: the record is the one that the call declares, lives as long as the
        // call, and is lent to it alone. The call asks nothing else of its caller.
        unsafe { load_push(window, length) }
    }

    pub fn text(text: &[u8], output: &mut [u8; LINE]) -> usize {
        // SAFETY: the text is a slice that lives as long as the call; the output has
        // as many bytes as the call may write, and is lent to it alone.
        unsafe { load_text(text.as_ptr(), text.len(), output.as_mut_ptr()) }
    }
}
