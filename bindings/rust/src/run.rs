//! Running toggles.

use crate::call::call;
#[cfg(feature = "alloc")]
use crate::MOST_NODES;
use crate::{refusal, Refusal, Sheets};
#[cfg(feature = "alloc")]
use alloc::{vec, vec::Vec};

/// What a run of toggles answers.
///
/// ```
/// let sheet = b"\x01\0\x02\0\x01\x02\0\x01A\x03\0\x02\0\0";
/// assert_eq!(kressedach::run(sheet, &[0])?, kressedach::Ran { roots: vec![true], counts: vec![0], labels: vec![1] });
/// # Ok::<(), kressedach::Refusal>(())
/// ```
#[cfg(feature = "alloc")]
#[derive(Debug, Clone, PartialEq, Eq, Hash)]
pub struct Ran {
    /// For each toggle, whether the solid is inside after it.
    pub roots: Vec<bool>,
    /// For each toggle, how many labels were worked out again.
    pub counts: Vec<u32>,
    /// For each dwarf node, its label after the last toggle: a bit, or a pair (a, b) as 2a + b.
    pub labels: Vec<u8>,
}

/// Runs toggles: every shape is outside at first, and each toggle takes one shape to its other side.
///
/// ```
/// let sheet = b"\x01\0\x02\0\x01\x02\0\x01A\x02\0\x01B\x02\0\x01C\x03\0\x0A\0\0\0\x01\0\x02\xFF\xF0\xFF\xF2";
/// let ran = kressedach::run(sheet, &[0, 1, 2, 0])?;
/// assert_eq!(ran.roots, [true, false, false, false]);
/// assert_eq!(ran.counts, [2, 2, 1, 2]);
/// assert_eq!(ran.labels, [0, 1, 1, 1, 0, 0]);
/// # Ok::<(), kressedach::Refusal>(())
/// ```
///
/// # Errors
///
/// 1 to 7 and 17 as [`read`](crate::read()), 8, then 10.
#[cfg(feature = "alloc")]
pub fn run<'a>(sheets: impl Into<Sheets<'a>>, toggles: &[u16]) -> Result<Ran, Refusal> {
    let mut room = Room::of(toggles.len());
    let nodes = run_into(sheets, toggles, &mut room.lists())?;
    Ok(room.ran(nodes))
}

/// Lists of its own for a run.
#[cfg(feature = "alloc")]
pub(crate) struct Room {
    roots: Vec<u8>,
    counts: Vec<u32>,
    labels: Vec<u8>,
}

#[cfg(feature = "alloc")]
impl Room {
    /// For so many toggles.
    pub(crate) fn of(toggles: usize) -> Room {
        Room { roots: vec![0; toggles], counts: vec![0; toggles], labels: vec![0; MOST_NODES] }
    }

    pub(crate) fn lists(&mut self) -> RunLists<'_> {
        RunLists { roots: &mut self.roots, counts: &mut self.counts, labels: &mut self.labels }
    }

    /// The answer, with so many labels.
    pub(crate) fn ran(self, nodes: usize) -> Ran {
        let Room { roots, counts, mut labels } = self;
        labels.truncate(nodes);
        Ran { roots: roots.into_iter().map(|root| root == 1).collect(), counts, labels }
    }
}

/// The lists that a run answers into.
///
/// ```
/// use kressedach::{run_into, RunLists};
/// let mut lists = RunLists { roots: &mut [7; 1], counts: &mut [7; 1], labels: &mut [7; 1] };
/// run_into(b"\x01\0\x02\0\x01\x02\0\x01A\x03\0\x02\0\0", &[0], &mut lists)?;
/// assert_eq!((lists.roots[0], lists.counts[0], lists.labels[0]), (1, 0, 1));
/// # Ok::<(), kressedach::Refusal>(())
/// ```
#[derive(Debug)]
pub struct RunLists<'a> {
    /// An entry a toggle: 1 where the solid is inside after it.
    pub roots: &'a mut [u8],
    /// An entry a toggle: how many labels were worked out again.
    pub counts: &'a mut [u32],
    /// An entry a dwarf node: its label after the last toggle.
    pub labels: &'a mut [u8],
}

/// Runs toggles into three lists, and gives the number of labels.
///
/// Roots and counts have an entry a toggle, labels an entry a dwarf node.
///
/// ```
/// use kressedach::{run_into, RunLists};
/// let sheet = b"\x01\0\x02\0\x01\x02\0\x01A\x03\0\x02\0\0";
/// let (mut roots, mut counts, mut labels) = ([7; 3], [7; 2], [7; 2]);
/// let mut lists = RunLists { roots: &mut roots, counts: &mut counts, labels: &mut labels };
/// assert_eq!(run_into(sheet, &[0, 0], &mut lists), Ok(1));
/// assert_eq!((roots, counts, labels), ([1, 0, 7], [0, 0], [0, 7]));
/// ```
///
/// # Errors
///
/// 1 to 7 and 17 as [`read`](crate::read()), 8, 10, then 9 for the lists in their order.
#[inline]
pub fn run_into<'a>(sheets: impl Into<Sheets<'a>>, toggles: &[u16], lists: &mut RunLists) -> Result<usize, Refusal> {
    let r = call!(kressedach_run: sheets sheets.into(), reads toggles, writes lists.roots, writes lists.counts, writes lists.labels);
    refusal::unless(r.number, r.sheet, r.place, r.nodes)
}
