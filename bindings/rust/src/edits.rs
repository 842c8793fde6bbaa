//! Running toggles while operations of the formula are changed.

use crate::call::call;
use crate::{refusal, Refusal, RunLists, Sheets};
#[cfg(feature = "alloc")]
use crate::{run::Room, Ran};
#[cfg(feature = "alloc")]
use alloc::{vec, vec::Vec};

/// One operation of the formula becomes another.
///
/// ```
/// use kressedach::{Edit, Operation};
/// // after 2 toggles the operation behind two leaves becomes a union
/// let edit = Edit { after: 2, position: 2, code: Operation::Union.code() };
/// assert_eq!(edit.code, 0xFFF0);
/// ```
#[derive(Debug, Clone, Copy, PartialEq, Eq, Hash)]
pub struct Edit {
    /// After how many toggles. Moments never fall, and edits with equal ones act in their order.
    pub after: u64,
    /// Which operation: its position in postfix order, from 0, also where the sheet has the operation first.
    pub position: u16,
    /// The new operation's code: 0xFFF0 union, 0xFFF1 intersection, 0xFFF2 difference, 0xFFF3 exclusive union.
    pub code: u16,
}

/// What a run with edits answers.
///
/// ```
/// let sheet = b"\x01\0\x02\0\x01\x02\0\x01A\x03\0\x02\0\0";
/// let edited = kressedach::run_edited(sheet, &[0], &[])?;
/// assert_eq!(edited, kressedach::Edited { ran: kressedach::run(sheet, &[0])?, edit_counts: vec![] });
/// # Ok::<(), kressedach::Refusal>(())
/// ```
#[cfg(feature = "alloc")]
#[derive(Debug, Clone, PartialEq, Eq, Hash)]
pub struct Edited {
    /// Roots and counts of the toggles, and the labels after the last toggle and the last edit.
    pub ran: Ran,
    /// For each edit, how many labels were worked out again: its own node's, and those above it while labels change.
    pub edit_counts: Vec<u32>,
}

/// Runs toggles, and changes operations of the formula meanwhile, without a new build.
///
/// An edit acts after so many toggles, when the root of the last of them is given. Each root and label is that of a build of the sheet as
/// edited by then, with the same shapes inside.
///
/// ```
/// use kressedach::{run, run_edited, Edit, Reason};
/// // A less B; then, where the difference stood, a union
/// let sheet = b"\x01\0\x02\0\x01\x02\0\x01A\x02\0\x01B\x03\0\x06\0\0\0\x01\xFF\xF2";
/// let edited = run_edited(sheet, &[0, 1, 1], &[Edit { after: 2, position: 2, code: 0xFFF0 }])?;
/// assert_eq!(edited.ran.roots, [true, false, true]);
/// assert_eq!(edited.edit_counts, [1]);
///
/// // the labels are those of the edited sheet
/// let union = b"\x01\0\x02\0\x01\x02\0\x01A\x02\0\x01B\x03\0\x06\0\0\0\x01\xFF\xF0";
/// assert_eq!(edited.ran.labels, run(union, &[0, 1, 1])?.labels);
///
/// let refusal = run_edited(sheet, &[0], &[Edit { after: 0, position: 1, code: 0xFFF0 }]).unwrap_err();
/// assert_eq!((refusal.reason, refusal.place), (Reason::EditWrong, 0)); // position 1 is the leaf B
/// # Ok::<(), kressedach::Refusal>(())
/// ```
///
/// # Errors
///
/// 1 to 7 and 17 as [`read`](crate::read()), 8, 10 toggle by toggle, then 20 edit by edit.
#[cfg(feature = "alloc")]
pub fn run_edited<'a>(sheets: impl Into<Sheets<'a>>, toggles: &[u16], edits: &[Edit]) -> Result<Edited, Refusal> {
    let moments: Vec<u64> = edits.iter().map(|edit| edit.after).collect();
    let positions: Vec<u16> = edits.iter().map(|edit| edit.position).collect();
    let codes: Vec<u16> = edits.iter().map(|edit| edit.code).collect();
    let lists = EditLists { moments: &moments, positions: &positions, codes: &codes };
    let (mut room, mut edit_counts) = (Room::of(toggles.len()), vec![0; edits.len()]);
    let nodes = run_edited_into(sheets, toggles, lists, &mut EditedLists { run: room.lists(), edit_counts: &mut edit_counts })?;
    Ok(Edited { ran: room.ran(nodes), edit_counts })
}

/// Edits as three lists of one length, an entry an edit in each.
///
/// ```
/// use kressedach::EditLists;
/// // after 1 toggle the operation at position 2 becomes an intersection
/// let edits = EditLists { moments: &[1], positions: &[2], codes: &[0xFFF1] };
/// assert_eq!(edits.moments.len(), edits.codes.len());
/// ```
#[derive(Debug, Clone, Copy)]
pub struct EditLists<'a> {
    /// After how many toggles.
    pub moments: &'a [u64],
    /// The operation's position in postfix order, from 0.
    pub positions: &'a [u16],
    /// The new operation's code.
    pub codes: &'a [u16],
}

/// The lists that a run with edits answers into.
///
/// ```
/// use kressedach::{run_edited_into, EditLists, EditedLists, RunLists};
/// let run = RunLists { roots: &mut [7; 1], counts: &mut [7; 1], labels: &mut [7; 1] };
/// let mut lists = EditedLists { run, edit_counts: &mut [] };
/// let none = EditLists { moments: &[], positions: &[], codes: &[] };
/// assert_eq!(run_edited_into(b"\x01\0\x02\0\x01\x02\0\x01A\x03\0\x02\0\0", &[0], none, &mut lists), Ok(1));
/// ```
#[derive(Debug)]
pub struct EditedLists<'a> {
    /// What a run without edits answers into; the labels are those after the last toggle and the last edit.
    pub run: RunLists<'a>,
    /// An entry an edit: how many labels were worked out again.
    pub edit_counts: &'a mut [u32],
}

/// Runs toggles and edits into four lists, and gives the number of labels.
///
/// Roots and counts have an entry a toggle, labels an entry a dwarf node, edit counts an entry an edit.
///
/// ```
/// use kressedach::{run_edited_into, EditLists, EditedLists, RunLists};
/// let sheet = b"\x01\0\x02\0\x01\x02\0\x01A\x03\0\x06\0\0\0\0\xFF\xF3"; // A exclusive A
/// let (mut roots, mut counts, mut labels, mut edit_counts) = ([7; 3], [7; 2], [7; 4], [7; 2]);
/// let edits = EditLists { moments: &[1], positions: &[2], codes: &[0xFFF1] };
/// let run = RunLists { roots: &mut roots, counts: &mut counts, labels: &mut labels };
/// assert_eq!(run_edited_into(sheet, &[0], edits, &mut EditedLists { run, edit_counts: &mut edit_counts }), Ok(3));
/// assert_eq!((roots, counts, labels, edit_counts), ([0, 7, 7], [1, 7], [1, 1, 1, 7], [1, 7]));
/// ```
///
/// # Errors
///
/// 1 to 7 and 17 as [`read`](crate::read()), 8, 13 for the lists of edits, 10, 20, then 9 for roots, counts, labels, edit counts in this
/// order.
#[inline]
pub fn run_edited_into<'a>(
    sheets: impl Into<Sheets<'a>>,
    toggles: &[u16],
    edits: EditLists,
    lists: &mut EditedLists,
) -> Result<usize, Refusal> {
    let r = call!(kressedach_run_edited:
        sheets sheets.into(), reads toggles, reads edits.moments, reads edits.positions, reads edits.codes,
        writes lists.run.roots, writes lists.run.counts, writes lists.run.labels, writes lists.edit_counts
    );
    refusal::unless(r.number, r.sheet, r.place, r.nodes)
}
