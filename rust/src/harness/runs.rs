//! Thread load: the product's running record, its call over a whole text and its
//! program, compared with what `load` says.

use super::shrink::shrink;
use super::vectors::{vectors_of, Vector};
use crate::generate::random::Random;
use crate::load::{largest, program, read, Load, LONGEST, MOST};
use std::io::{self, ErrorKind};
use std::os::fd::OwnedFd;
use std::os::unix::net::UnixDatagram;
use std::path::Path;
use std::process::{Command, Stdio};

/// The bytes lent for a printed line.
pub const LINE: usize = 64;
/// The most bytes that the program reads at once.
const PIECE: usize = 8_192;
/// A record is looked at after each of the first so many lengths, and after the last.
const CLOSELY: usize = 300;

/// The running record, field by field.
#[derive(Clone, Copy, PartialEq, Eq, Debug)]
pub struct Record {
    pub width: u64,
    pub count: u64,
    pub recent: [u16; 64],
    pub sum: u64,
    pub largest: u64,
    pub first: u64,
}

impl Record {
    pub fn new(width: u64) -> Record {
        Record {
            width,
            count: 0,
            recent: [0; 64],
            sum: 0,
            largest: 0,
            first: 0,
        }
    }
}

/// An implementation of the record and of the call over a whole text.
pub trait Loads: Sync {
    fn push(&self, record: &mut Record, length: u16) -> bool;
    fn print(&self, text: &[u8], output: &mut [u8; LINE]) -> usize;
}

/// The product's, linked from its static library.
#[cfg(feature = "linked")]
pub struct Linked;

#[cfg(feature = "linked")]
impl Loads for Linked {
    fn push(&self, record: &mut Record, length: u16) -> bool {
        let mut window = thread_load::Window {
            width: record.width,
            count: record.count,
            recent: record.recent,
            sum: record.sum,
            largest: record.largest,
            first: record.first,
        };
        let taken = window.push(length);
        *record = Record {
            width: window.width,
            count: window.count,
            recent: window.recent,
            sum: window.sum,
            largest: window.largest,
            first: window.first,
        };
        taken
    }

    fn print(&self, text: &[u8], output: &mut [u8; LINE]) -> usize {
        thread_load::print(text, output).len()
    }
}

/// How an implementation differs on a text, if it does. The garbage that is lent
/// follows from the seed.
pub fn differs(loads: &dyn Loads, text: &[u8], seed: u64) -> Option<String> {
    let expected = program(text);
    let garbage = [Random::new(seed).word() as u8; LINE];
    let mut output = garbage;
    let length = loads.print(text, &mut output);
    if output.get(..length) != Some(expected.as_bytes()) {
        let printed = String::from_utf8_lossy(&output[..length.min(LINE)]);
        return Some(format!("expected {expected}printed {printed}"));
    }
    if output[length..] != garbage[length..] {
        return Some("bytes behind the line are written".to_string());
    }
    let (window, lengths) = read(text).ok()?;
    record_differs(loads, window, &lengths)
}

/// How the record differs from the definition over all lengths so far.
fn record_differs(loads: &dyn Loads, window: usize, lengths: &[u64]) -> Option<String> {
    let mut record = Record::new(window as u64);
    for (at, length) in lengths.iter().enumerate() {
        let taken = loads.push(&mut record, *length as u16);
        let so_far = &lengths[..=at];
        let closely = at < CLOSELY || at + 1 == lengths.len();
        if !taken || (closely && !stands_for(&record, window, so_far)) {
            return Some(format!("after length {}: {taken}, {record:?}", at + 1));
        }
    }
    let full = lengths.len() == MOST;
    let refused = [LONGEST as u16 + 1, u16::MAX, 1];
    for length in &refused[..if full { 3 } else { 2 }] {
        let before = record;
        if loads.push(&mut record, *length) || record != before {
            return Some(format!("{length} is taken, or changes {before:?}"));
        }
    }
    None
}

/// Whether each field is what the lengths make it.
fn stands_for(record: &Record, window: usize, lengths: &[u64]) -> bool {
    let last = &lengths[lengths.len().saturating_sub(window)..];
    let best = largest(window, lengths);
    let (sum, first) = best.map_or((0, 0), |Load { sum, first }| (sum, first as u64));
    let recent = (lengths.iter().enumerate().rev().take(64))
        .all(|(at, length)| u64::from(record.recent[at % 64]) == *length);
    recent
        && (record.width, record.count) == (window as u64, lengths.len() as u64)
        && (record.sum, record.largest, record.first) == (last.iter().sum(), sum, first)
}

/// What the program prints for a text that it gets in these pieces. Each goes as a
/// datagram, which one read takes whole; an empty one is the end of the input.
pub fn printed(product: &Path, pieces: &[&[u8]]) -> io::Result<Vec<u8>> {
    let (ours, its) = UnixDatagram::pair()?;
    let child = Command::new(product)
        .stdin(Stdio::from(OwnedFd::from(its)))
        .stdout(Stdio::piped())
        .spawn()?;
    let whole = pieces.iter().flat_map(|piece| piece.chunks(PIECE));
    for piece in whole.chain([&[][..]]) {
        match ours.send(piece) {
            // A program may leave the rest of a text unread.
            Err(error) if has_ended(error.kind()) => break,
            sent => sent?,
        };
    }
    Ok(child.wait_with_output()?.stdout)
}

fn has_ended(kind: ErrorKind) -> bool {
    matches!(
        kind,
        ErrorKind::ConnectionRefused | ErrorKind::ConnectionReset | ErrorKind::BrokenPipe
    )
}

/// How the program differs on a text in these pieces, if it does.
pub fn program_differs(product: &Path, pieces: &[&[u8]]) -> io::Result<Option<String>> {
    let (printed, expected) = (printed(product, pieces)?, program(&pieces.concat()));
    let differs = printed != expected.as_bytes();
    let shown = String::from_utf8_lossy(&printed);
    Ok(differs.then(|| format!("expected {expected}printed {shown}")))
}

/// The text with as few lines as still show the difference.
pub fn shortened(loads: &dyn Loads, text: &[u8], seed: u64) -> Vec<u8> {
    shrink(text, |text| differs(loads, text, seed).is_some())
}

/// The runs among the vectors.
pub fn vectors() -> io::Result<Vec<Vector>> {
    vectors_of("load_vectors", "run")
}
