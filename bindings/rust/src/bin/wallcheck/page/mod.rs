//! A sheet as a page of text: the shapes' names, one a line, and the formula with brackets and words.

mod formula;
mod printing;
mod reading;
#[cfg(test)]
mod tests;
mod tokens;

pub use printing::{fittings_page, sheet_page, Shown};
pub use reading::{names_fittings, read};
pub use tokens::word;

use crate::faults::Faults;
use kressedach::{Edition, Formula, Operation};
use std::fmt;

/// A place of a page: line and column, from 1.
#[derive(Debug, Clone, Copy, PartialEq, Eq, PartialOrd, Ord)]
pub struct At {
    pub line: usize,
    pub column: usize,
}

/// What is wrong with a page, and where.
#[derive(Debug, PartialEq, Eq)]
pub struct Wrong {
    at: At,
    what: String,
}

impl At {
    pub fn wrong(self, what: impl Into<String>) -> Wrong {
        Wrong { at: self, what: what.into() }
    }
}

impl fmt::Display for Wrong {
    fn fmt(&self, f: &mut fmt::Formatter<'_>) -> fmt::Result {
        write!(f, "line {}, column {}: {}", self.at.line, self.at.column, self.what)
    }
}

/// All that is wrong with a page, in the order of its places. At one place the first is said: what follows may come of it.
fn faults(mut wrongs: Vec<Wrong>) -> Faults {
    wrongs.sort_by_key(|wrong| wrong.at);
    wrongs.dedup_by_key(|wrong| wrong.at);
    wrongs.iter().map(Wrong::to_string).collect()
}

/// What a page says.
#[derive(Debug)]
pub struct Page {
    /// The edition, where the page names one.
    pub edition: Option<Edition>,
    /// The names of its shapes, and where each stands.
    pub names: Vec<(String, At)>,
    /// The formula; a fittings sheet has none.
    pub formula: Option<Formula>,
    /// Where the formula first has an exclusive union.
    pub exclusive: Option<At>,
}

/// The shapes below a number that a formula never uses.
pub fn unused(formula: &Formula, shapes: usize) -> Vec<usize> {
    let mut used = vec![false; shapes];
    for code in formula.codes().iter().filter(|code| Operation::of_code(**code).is_none()) {
        used[usize::from(*code)] = true;
    }
    (0..shapes).filter(|shape| !used[*shape]).collect()
}
