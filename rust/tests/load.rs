//! Thread load: the second implementation prints what each vector says, and the
//! comparison finds every fault of a stand-in, and none where there is none.

use second_evaluator::generate::runs::run;
use second_evaluator::harness::runs::{differs, vectors, Loads, Record, LINE};
use second_evaluator::load::{program, thread_load};

#[derive(Clone, Copy, PartialEq, Eq, Debug)]
enum Fault {
    None,
    /// A later run of the same sum takes the place of an earlier one.
    LaterTie,
    /// The oldest length stays in the sum.
    OldestStays,
    /// A run has one neighbour more.
    OneMore,
    /// A length of 1,001 is taken.
    OverLongest,
    /// A length that is not taken is counted.
    Counted,
    /// The ring has another length.
    Ring,
    /// The place is one line off.
    Place,
    /// A byte behind the line is written.
    Behind,
    /// A zero may lead.
    LeadingZero,
}

const FAULTS: [Fault; 9] = [
    Fault::LaterTie,
    Fault::OldestStays,
    Fault::OneMore,
    Fault::OverLongest,
    Fault::Counted,
    Fault::Ring,
    Fault::Place,
    Fault::Behind,
    Fault::LeadingZero,
];

struct StandIn(Fault);

impl StandIn {
    fn better(&self, record: &Record) -> bool {
        let tie = self.0 == Fault::LaterTie && record.sum == record.largest;
        record.first == 0 || record.sum > record.largest || tie
    }
}

impl Loads for StandIn {
    fn push(&self, record: &mut Record, length: u16) -> bool {
        let longest = 1_000 + u16::from(self.0 == Fault::OverLongest);
        if length > longest || record.count == 1_000_000 {
            record.count += u64::from(self.0 == Fault::Counted);
            return false;
        }
        let width = record.width + u64::from(self.0 == Fault::OneMore);
        if record.count >= width && self.0 != Fault::OldestStays {
            record.sum -= u64::from(record.recent[((record.count - width) % 64) as usize]);
        }
        let kept = length ^ u16::from(self.0 == Fault::Ring && record.count == 3);
        record.recent[(record.count % 64) as usize] = kept;
        record.sum += u64::from(length);
        record.count += 1;
        if record.count >= width && self.better(record) {
            record.largest = record.sum;
            record.first = record.count - width + 1;
        }
        true
    }

    fn print(&self, text: &[u8], output: &mut [u8; LINE]) -> usize {
        let line = match (self.0, thread_load(text)) {
            (Fault::Place, Err(none)) if none.place > 0 => {
                format!("! {} {}\n", none.number, none.place + 1)
            }
            (Fault::LeadingZero, Err(_)) => {
                let lenient = String::from_utf8_lossy(text).replace("\n0", "\n");
                program(lenient.as_bytes())
            }
            _ => program(text),
        };
        output[..line.len()].copy_from_slice(line.as_bytes());
        if self.0 == Fault::Behind {
            output[line.len()] ^= 1;
        }
        line.len()
    }
}

#[test]
fn every_vector_prints_what_it_says() {
    let vectors = vectors().unwrap();
    assert!(!vectors.is_empty());
    for vector in vectors {
        let name = vector.name;
        assert_eq!(program(&vector.text).as_bytes(), vector.printed, "{name}");
        let difference = differs(&StandIn(Fault::None), &vector.text, 1);
        assert_eq!(difference, None, "{name}");
    }
}

#[test]
fn no_fault_is_no_difference() {
    for seed in 0..3_000 {
        let difference = differs(&StandIn(Fault::None), &run(seed), seed);
        assert_eq!(difference, None, "{seed}");
    }
}

#[test]
fn every_fault_is_a_difference() {
    for fault in FAULTS {
        let found = (0..3_000).any(|seed| differs(&StandIn(fault), &run(seed), seed).is_some());
        assert!(found, "{fault:?}");
    }
}
