//! Judging another ray caster's wall list.

use crate::call::call;
#[cfg(feature = "alloc")]
use crate::numbering::{Numbered, Numbers};
use crate::{refusal, Lines, Refusal, Sheets};
#[cfg(feature = "alloc")]
use crate::{Crossing, Start};
#[cfg(feature = "alloc")]
use alloc::vec::Vec;

/// An entry of another ray caster's wall list.
///
/// ```
/// use kressedach::{judge, Crossing, Entry, Opinion};
/// let at = |position| Crossing { line: 7, position, shape: 0 };
/// let theirs = [Entry { line: 7, start: 0, end: 40 }];
/// let sheet = b"\x01\0\x02\0\x01\x02\0\x01A\x03\0\x02\0\0";
/// assert_eq!(judge(sheet, &[], &[at(0), at(40)], &theirs)?, Opinion::Right);
/// # Ok::<(), kressedach::Refusal>(())
/// ```
#[derive(Debug, Clone, Copy, PartialEq, Eq, PartialOrd, Ord, Hash)]
pub struct Entry {
    /// The line's number.
    pub line: u32,
    /// Where it begins, in micrometres; or [`OPEN_START`](crate::OPEN_START).
    pub start: i32,
    /// Where it ends; or [`OPEN_END`](crate::OPEN_END).
    pub end: i32,
}

/// The opinion on another ray caster's wall list.
///
/// ```
/// use kressedach::{judge, Opinion};
/// assert_eq!(judge(b"\x01\0\x02\0\x01\x02\0\x01A\x03\0\x02\0\0", &[], &[], &[])?, Opinion::Right); // no lines, no walls
/// # Ok::<(), kressedach::Refusal>(())
/// ```
#[derive(Debug, Clone, Copy, PartialEq, Eq, Hash)]
pub enum Opinion {
    /// Its entries, joined where they touch, are exactly the walls.
    Right,
    /// The index of the first entry after which no right list could begin that way.
    WrongAt(usize),
    /// It only lacks entries: a right list can begin with all of it, and has more.
    Lacking,
}

impl Opinion {
    /// As the library tells it, of a list of so many entries.
    pub(crate) fn of(right: bool, index: usize, length: usize) -> Opinion {
        match right {
            true => Opinion::Right,
            false if index == length => Opinion::Lacking,
            false => Opinion::WrongAt(index),
        }
    }
}

/// Judges another ray caster's wall list.
///
/// It is right exactly if lines never fall, each start is below its end, no entry begins before the one before it on that line has ended,
/// and joining entries that touch gives the walls that [`classify_from`](crate::classify_from) gives for these starts and crossings. Any
/// line numbers will do; an entry on a line that has neither a start nor a crossing is wrong, since there is no metal.
///
/// ```
/// use kressedach::{judge, Crossing, Entry, Opinion};
/// // Block less Bore: line 7 has the walls 0 to 40 and 60 to 100
/// let sheet = b"\x01\0\x02\0\x01\x02\0\x05Block\x02\0\x04Bore\x03\0\x06\0\0\0\x01\xFF\xF2";
/// let at = |position, shape| Crossing { line: 7, position, shape };
/// let crossings = [at(0, 0), at(40, 1), at(60, 1), at(100, 0)];
/// let entry = |start, end| Entry { line: 7, start, end };
/// assert_eq!(judge(sheet, &[], &crossings, &[entry(0, 40), entry(60, 100)])?, Opinion::Right);
///
/// // entries that touch are one wall
/// assert_eq!(judge(sheet, &[], &crossings, &[entry(0, 25), entry(25, 40), entry(60, 100)])?, Opinion::Right);
///
/// // the bore was overlooked; a wall goes on and is not finished; the second wall is not there
/// assert_eq!(judge(sheet, &[], &crossings, &[entry(0, 100)])?, Opinion::WrongAt(0));
/// assert_eq!(judge(sheet, &[], &crossings, &[entry(0, 25), entry(60, 100)])?, Opinion::WrongAt(1));
/// assert_eq!(judge(sheet, &[], &crossings, &[entry(0, 40)])?, Opinion::Lacking);
///
/// // nothing is known of line 8
/// assert_eq!(judge(sheet, &[], &crossings, &[entry(0, 40), Entry { line: 8, start: 60, end: 100 }])?, Opinion::WrongAt(1));
/// # Ok::<(), kressedach::Refusal>(())
/// ```
///
/// # Errors
///
/// As [`classify_from`](crate::classify_from).
#[cfg(feature = "alloc")]
pub fn judge<'a>(sheets: impl Into<Sheets<'a>>, starts: &[Start], crossings: &[Crossing], theirs: &[Entry]) -> Result<Opinion, Refusal> {
    judged(sheets.into(), starts, crossings, theirs, |sheets, lines, theirs| judge_lists(sheets, lines, theirs))
}

/// The opinion on lines of any numbers, by a job that goes by rows.
#[cfg(feature = "alloc")]
pub(crate) fn judged(
    sheets: Sheets,
    starts: &[Start],
    crossings: &[Crossing],
    mut theirs: &[Entry],
    job: impl FnOnce(Sheets, Lines, TheirLists) -> Result<Opinion, Refusal>,
) -> Result<Opinion, Refusal> {
    let mut numbers = Numbers::of(starts, crossings);
    // an entry on a line of which nothing is known is wrong: those after the first such matter no more, and its line alone needs a row
    if let Some(stranger) = theirs.iter().position(|entry| !numbers.has(entry.line)) {
        numbers.add(theirs[stranger].line);
        theirs = &theirs[..=stranger];
    }
    let numbered = Numbered::of(numbers, crate::read(sheets)?.names, starts, crossings);
    let lines = numbered.numbers.rows_of(theirs.iter().map(|entry| entry.line));
    let starts: Vec<i32> = theirs.iter().map(|entry| entry.start).collect();
    let ends: Vec<i32> = theirs.iter().map(|entry| entry.end).collect();
    job(sheets, numbered.lines(), TheirLists { lines: &lines, starts: &starts, ends: &ends })
}

/// Another ray caster's wall list as three lists of one length, an entry a wall in each.
///
/// ```
/// use kressedach::TheirLists;
/// let theirs = TheirLists { lines: &[0, 1], starts: &[-10, -2147483648], ends: &[25, 7] };
/// assert_eq!((theirs.lines[1], theirs.starts[1], theirs.ends[1]), (1, kressedach::OPEN_START, 7));
/// ```
#[derive(Debug, Clone, Copy)]
pub struct TheirLists<'a> {
    /// The line's number.
    pub lines: &'a [u32],
    /// Where it begins, in micrometres; or [`OPEN_START`](crate::OPEN_START).
    pub starts: &'a [i32],
    /// Where it ends; or [`OPEN_END`](crate::OPEN_END).
    pub ends: &'a [i32],
}

/// Judges another ray caster's wall list, with start rows and crossings as [`classify_into`](crate::classify_into) takes them; nothing is
/// allocated, and no list is written.
///
/// ```
/// use kressedach::{judge_lists, Lines, Opinion, Reason, TheirLists};
/// let sheet = b"\x01\0\x02\0\x01\x02\0\x01A\x03\0\x02\0\0";
/// // line 0 starts in air and line 1 inside A
/// let lines = Lines { rows: &[0, 1], lines: &[0, 0, 1], positions: &[-10, 25, 7], shapes: &[0, 0, 0] };
/// let judge = |ends: &[i32]| judge_lists(sheet, lines, TheirLists { lines: &[0, 1], starts: &[-10, -2147483648], ends });
/// assert_eq!(judge(&[25, 7])?, Opinion::Right);
/// assert_eq!(judge(&[25, 9])?, Opinion::WrongAt(1));
/// assert_eq!(judge(&[25]).unwrap_err().reason, Reason::LengthsDiffer);
/// # Ok::<(), kressedach::Refusal>(())
/// ```
///
/// # Errors
///
/// 1 to 7 and 17 as [`read`](crate::read()), 8, 13 for the crossings' lists or theirs, 14, then 10, 15 and 11 crossing by crossing.
#[inline]
pub fn judge_lists<'a>(sheets: impl Into<Sheets<'a>>, lines: Lines, theirs: TheirLists) -> Result<Opinion, Refusal> {
    let r = call!(kressedach_judge:
        sheets sheets.into(), reads lines.rows, reads lines.lines, reads lines.positions, reads lines.shapes,
        reads theirs.lines, reads theirs.starts, reads theirs.ends
    );
    refusal::unless(r.number, r.sheet, r.place, Opinion::of(r.right, r.index, theirs.lines.len()))
}
