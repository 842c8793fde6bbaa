//! Answer lists as the comparisons lend them.

pub use peer::calls::rooms;
use std::fmt::Debug;

/// An answer list as it is lent, full of noise, between entries that are not lent.
pub struct Lent<T> {
    all: Vec<T>,
    before: Vec<T>,
}

/// Entries on each side of a lent list; odd, so that lists begin at odd offsets too.
const BESIDE: usize = 7;

impl<T: Copy + PartialEq + Debug> Lent<T> {
    pub fn new(room: usize, noise: impl Fn(u64) -> T) -> Lent<T> {
        let all: Vec<T> = (0..room + 2 * BESIDE).map(|k| noise((k as u64 + 3).wrapping_mul(0x9E37_79B9_7F4A_7C15) >> 17)).collect();
        Lent { before: all.clone(), all }
    }

    pub fn list(&mut self) -> &mut [T] {
        let end = self.all.len() - BESIDE;
        &mut self.all[BESIDE..end]
    }

    /// Is it what it was, but for these entries at its front?
    pub fn check(&self, what: &str, given: impl Iterator<Item = T>) -> Result<(), String> {
        let mut due = self.before.clone();
        given.enumerate().for_each(|(k, entry)| due[BESIDE + k] = entry);
        match (0..due.len()).find(|k| self.all[*k] != due[*k]) {
            Some(k) => Err(format!("{what}[{}] is {:?}, due is {:?}", k as isize - BESIDE as isize, self.all[k], due[k])),
            None => Ok(()),
        }
    }
}
