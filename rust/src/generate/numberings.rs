//! Accepted sheets with their objects numbered anew.

use super::random::Random;
use crate::calls::accepted;
use crate::renumber;

/// A sheet, and the new numbers of its objects.
pub struct Numbering {
    pub text: Vec<u8>,
    to: Vec<u8>,
}

impl Numbering {
    /// The new numbers for the sheet, which may have lost objects by now: these have
    /// numbers in the same order.
    pub fn to(&self, objects: usize) -> Vec<u8> {
        let left = &self.to[..objects];
        let rank = |new: &u8| left.iter().filter(|other| *other < new).count() as u8;
        left.iter().map(rank).collect()
    }

    /// The sheet with its objects numbered anew, and their new numbers; none where the
    /// sheet is not accepted.
    pub fn other(&self) -> Option<(Vec<u8>, Vec<u8>)> {
        let (sheet, _) = accepted(&self.text).ok()?;
        let to = self.to(sheet.model.objects.len());
        Some((renumber::sheet(&self.text, &sheet.model, &to), to))
    }
}

/// Two numbers changed for each other, all one on, or all in any order; none where the
/// sheet is not accepted.
pub fn numbering(random: &mut Random, text: &[u8]) -> Option<Numbering> {
    let (sheet, _) = accepted(text).ok()?;
    let objects = sheet.model.objects.len();
    let mut to: Vec<u8> = (0..objects as u8).collect();
    match random.below(4) {
        0 if objects > 0 => to.swap(random.below(objects), random.below(objects)),
        1 if objects > 0 => to.rotate_left(1),
        _ => random.shuffle(&mut to),
    }
    Some(Numbering {
        text: text.to_vec(),
        to,
    })
}
