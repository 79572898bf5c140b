//! Boards that are made, and edits of one that so many of its rules see.

use super::cap::cap;
use super::sheet;

/// The rules of the board, which all take as many steps.
pub const RULES: usize = 60;

/// A sheet, and two edits of the same value that take turns.
pub struct Edits {
    pub name: &'static str,
    /// The rules that see them.
    pub seeing: usize,
    pub text: Vec<u8>,
    pub edits: [Vec<u8>; 2],
}

/// Sheets that boards are made of, a small job and a large one.
pub struct Makings {
    pub name: &'static str,
    pub jobs: [Vec<Vec<u8>>; 2],
}

pub fn makings() -> [Makings; 2] {
    [
        Makings {
            name: "boards of 400 cap sheets",
            jobs: [40, 400].map(|sheets| (0..sheets).map(cap).collect()),
        },
        Makings {
            name: "a board of 60 rules",
            jobs: [6, RULES].map(|rules| vec![quantified(rules, rules)]),
        },
    ]
}

pub fn edits() -> [Edits; 3] {
    [
        edited("an edit that 1 rule sees", 1),
        edited("an edit that 6 rules see", 6),
        edited("an edit that all 60 see", RULES),
    ]
}

fn edited(name: &'static str, seeing: usize) -> Edits {
    Edits {
        name,
        seeing,
        text: quantified(RULES, seeing),
        edits: [1, 2].map(|value| format!("V\t49\t0\t{value}\n").into_bytes()),
    }
}

/// Rules that go through the values of 50 objects in row 0, the first so many of them, or in
/// row 1.
fn quantified(rules: usize, seeing: usize) -> Vec<u8> {
    let mut text = "C 0 -|C 1 0|A 0 0 0 Int|A 1 0 1 Int|".to_string();
    for object in 0..50 {
        text += &format!("O {object} {}|", usize::from(object == 0));
    }
    for object in 0..50 {
        text += &format!("V {object} 0 2|V {object} 1 2|");
    }
    for rule in 0..rules {
        let name = usize::from(rule >= seeing);
        text += &format!("R {rule} 1|N 0 all 0|N 1 var 1|N 2 attr 1 {name}|N 3 int 3|");
        text += "N 4 less 2 3|N 5 forAll 0 1 4|";
    }
    sheet(text)
}
