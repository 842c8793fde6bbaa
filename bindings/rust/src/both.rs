//! Running the toggles of two foundries.

use crate::call::call;
use crate::{refusal, Refusal, RunLists, Sheets};
#[cfg(feature = "alloc")]
use crate::{run::Room, Ran};

/// What each of two foundries has.
///
/// ```
/// use kressedach::Both;
/// let lengths = Both { first: &[0, 1][..], second: &[1] }.map(|toggles: &[u16]| toggles.len());
/// assert_eq!(lengths, Both { first: 2, second: 1 });
/// ```
#[derive(Debug, Clone, Copy, PartialEq, Eq, Hash)]
pub struct Both<T> {
    /// What the first foundry has, whose turns are 0 in an order.
    pub first: T,
    /// What the second has, whose turns are 1.
    pub second: T,
}

impl<T> Both<T> {
    /// What becomes of each.
    ///
    /// ```
    /// use kressedach::Both;
    /// assert_eq!(Both { first: 1, second: 2 }.map(|number| number + 1), Both { first: 2, second: 3 });
    /// ```
    pub fn map<U>(self, mut job: impl FnMut(T) -> U) -> Both<U> {
        Both { first: job(self.first), second: job(self.second) }
    }

    /// The first foundry's, then the second's.
    ///
    /// ```
    /// assert_eq!(kressedach::Both { first: 'a', second: 'b' }.into_array(), ['a', 'b']);
    /// ```
    pub fn into_array(self) -> [T; 2] {
        [self.first, self.second]
    }
}

/// The toggles of two foundries, and the order that mixes them.
///
/// ```
/// use kressedach::MixedLists;
/// // the first foundry's turn, the second's, and the first's again
/// let mixed = MixedLists { order: &[0, 1, 0], first: &[0, 1], second: &[1] };
/// assert_eq!(mixed.order.len(), mixed.first.len() + mixed.second.len());
/// ```
#[derive(Debug, Clone, Copy, PartialEq, Eq, Hash)]
pub struct MixedLists<'a> {
    /// A byte a turn, 0 for the first foundry and 1 for the second: as many turns for each as its list is long.
    pub order: &'a [u8],
    /// The first foundry's toggles.
    pub first: &'a [u16],
    /// The second's.
    pub second: &'a [u16],
}

/// Runs the toggles of two foundries on one tree, which is built once.
///
/// Unless the order does not mix the lists, which is refused 13, each foundry gets exactly what [`run`](crate::run()) gives for its list
/// alone, whatever the other's list and the order are.
///
/// ```
/// use kressedach::{run, run_both, Both, MixedLists, Reason};
/// let sheet = b"\x01\0\x02\0\x01\x02\0\x01A\x02\0\x01B\x03\0\x06\0\0\0\x01\xFF\xF2"; // A less B
/// let mixed = MixedLists { order: &[0, 1, 0], first: &[0, 1], second: &[1] };
/// let both = run_both(sheet, mixed);
/// assert_eq!(both.first, run(sheet, &[0, 1]));
/// assert_eq!(both.second?.roots, [false]);
///
/// // one foundry's fault is its own, an order that does not mix the lists goes to both
/// let both = run_both(sheet, MixedLists { first: &[0, 2], ..mixed });
/// assert_eq!(both.first.unwrap_err().to_string(), "refused 10 at entry 1: a shape number that no name has");
/// assert!(both.second.is_ok());
/// let both = run_both(sheet, MixedLists { order: &[0, 2, 0], first: &[0, 2], ..mixed });
/// let reasons = both.map(|foundry| foundry.unwrap_err().reason);
/// assert_eq!(reasons, Both { first: Reason::LengthsDiffer, second: Reason::LengthsDiffer });
/// # Ok::<(), kressedach::Refusal>(())
/// ```
///
/// # Errors
///
/// To both: 1 to 7 and 17 as [`read`](crate::read()), 8, then 13. To one foundry alone: 10.
#[cfg(feature = "alloc")]
pub fn run_both<'a>(sheets: impl Into<Sheets<'a>>, mixed: MixedLists) -> Both<Result<Ran, Refusal>> {
    let mut rooms = Both { first: mixed.first, second: mixed.second }.map(|toggles| Room::of(toggles.len()));
    let mut lists = Both { first: rooms.first.lists(), second: rooms.second.lists() };
    let nodes = run_both_into(sheets, mixed, &mut lists);
    Both { first: nodes.first.map(|nodes| rooms.first.ran(nodes)), second: nodes.second.map(|nodes| rooms.second.ran(nodes)) }
}

/// Runs the toggles of two foundries into lists of each, and gives each the number of its labels.
///
/// A foundry that is refused keeps its lists as they are; the other's answer is whole.
///
/// ```
/// use kressedach::{run_both_into, Both, MixedLists, RunLists};
/// let sheet = b"\x01\0\x02\0\x01\x02\0\x01A\x03\0\x02\0\0";
/// let mut lists = Both {
///     first: RunLists { roots: &mut [7; 2], counts: &mut [7; 2], labels: &mut [7; 2] },
///     second: RunLists { roots: &mut [7; 2], counts: &mut [7; 1], labels: &mut [7; 2] },
/// };
/// let given = run_both_into(sheet, MixedLists { order: &[1, 0, 1], first: &[0], second: &[0, 0] }, &mut lists);
/// assert_eq!(given.first, Ok(1));
/// assert_eq!((&*lists.first.roots, &*lists.first.counts, &*lists.first.labels), (&[1, 7][..], &[0, 7][..], &[1, 7][..]));
/// assert_eq!(given.second.unwrap_err().to_string(), "refused 9 for want of 2 entries: an answer list is too short");
/// assert_eq!((&*lists.second.roots, &*lists.second.counts), (&[7, 7][..], &[7][..]));
/// ```
///
/// # Errors
///
/// To both: 1 to 7 and 17 as [`read`](crate::read()), 8, then 13. To one foundry alone: 10, then 9 for its lists in their order.
#[inline]
pub fn run_both_into<'a>(sheets: impl Into<Sheets<'a>>, mixed: MixedLists, lists: &mut Both<RunLists>) -> Both<Result<usize, Refusal>> {
    let Both { first, second } = lists;
    let r = call!(kressedach_run_both:
        sheets sheets.into(), reads mixed.order, reads mixed.first, reads mixed.second,
        writes first.roots, writes first.counts, writes first.labels,
        writes second.roots, writes second.counts, writes second.labels
    );
    Both { first: r.first, second: r.second }.map(|r| refusal::unless(r.number, r.sheet, r.place, r.nodes))
}
