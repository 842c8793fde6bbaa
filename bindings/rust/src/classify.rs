//! Classifying lines: where there is metal.

use crate::call::call;
#[cfg(feature = "alloc")]
use crate::numbering::{Numbered, Numbers};
use crate::{refusal, Lines, Refusal, Sheets};
#[cfg(feature = "alloc")]
use crate::{Crossing, Start, Wall};
#[cfg(feature = "alloc")]
use alloc::{vec, vec::Vec};

/// The walls of lines that start in air.
///
/// Lines come by rising number and crossings by rising position within a line. On each line every shape is outside before the first
/// crossing; one that is crossed an odd number of times is inside from then on, and the wall may have an open end. Crossings at one
/// position act together; the shape at a wall's start or end is the lowest whose state they change.
///
/// ```
/// use kressedach::{classify, Crossing, Reason, Wall, OPEN_END, OPEN_SHAPE};
/// // A union B: where A ends, B begins
/// let sheet = b"\x01\0\x02\0\x01\x02\0\x01A\x02\0\x01B\x03\0\x06\0\0\0\x01\xFF\xF0";
/// let at = |position, shape| Crossing { line: 7, position, shape };
/// let due = Wall { line: 7, start: 0, end: 90, start_shape: 0, end_shape: 1 };
/// assert_eq!(classify(sheet, &[at(0, 0), at(50, 0), at(50, 1), at(90, 1)])?, [due]);
///
/// // B is not left
/// let open = Wall { end: OPEN_END, end_shape: OPEN_SHAPE, ..due };
/// assert_eq!(classify(sheet, &[at(0, 0), at(50, 0), at(50, 1)])?, [open]);
///
/// let refusal = classify(sheet, &[at(0, 0), at(-1, 0)]).unwrap_err();
/// assert_eq!((refusal.reason, refusal.place), (Reason::Falls, 1));
/// # Ok::<(), kressedach::Refusal>(())
/// ```
///
/// # Errors
///
/// 1 to 7 and 17 as [`read`](crate::read()), 8, then 10, 15 and 11 crossing by crossing.
#[cfg(feature = "alloc")]
pub fn classify<'a>(sheets: impl Into<Sheets<'a>>, crossings: &[Crossing]) -> Result<Vec<Wall>, Refusal> {
    classify_from(sheets, &[], crossings)
}

/// The walls of lines of which some start in metal.
///
/// `starts` are the shapes in which lines start, in any order; all others are outside there. A line may have a start and no crossing. The
/// crossings are those of [`classify`].
///
/// ```
/// use kressedach::{classify_from, Crossing, Reason, Start, Wall, OPEN_END, OPEN_SHAPE, OPEN_START};
/// // Block less Bore, and the block is cut: line 7 starts in it, line 9 lies in it from end to end
/// let sheet = b"\x01\0\x02\0\x01\x02\0\x05Block\x02\0\x04Bore\x03\0\x06\0\0\0\x01\xFF\xF2";
/// let (block, bore) = (0, 1);
/// let starts = [Start { line: 7, shape: block }, Start { line: 9, shape: block }];
/// let at = |position, shape| Crossing { line: 7, position, shape };
/// let walls = classify_from(sheet, &starts, &[at(40, bore), at(60, bore), at(100, block)])?;
/// let due = [
///     Wall { line: 7, start: OPEN_START, end: 40, start_shape: OPEN_SHAPE, end_shape: bore },
///     Wall { line: 7, start: 60, end: 100, start_shape: bore, end_shape: block },
///     Wall { line: 9, start: OPEN_START, end: OPEN_END, start_shape: OPEN_SHAPE, end_shape: OPEN_SHAPE },
/// ];
/// assert_eq!(walls, due);
///
/// let refusal = classify_from(sheet, &[Start { line: 7, shape: 2 }], &[]).unwrap_err();
/// assert_eq!((refusal.reason, refusal.place), (Reason::RowsWrong, 0));
/// # Ok::<(), kressedach::Refusal>(())
/// ```
///
/// Each line number gets a start row, in rising order, with a byte for each name; so any line numbers will do.
///
/// # Errors
///
/// As [`classify`]; before 10, 14 for a start in a shape that no name has.
#[cfg(feature = "alloc")]
pub fn classify_from<'a>(sheets: impl Into<Sheets<'a>>, starts: &[Start], crossings: &[Crossing]) -> Result<Vec<Wall>, Refusal> {
    classified(sheets.into(), starts, crossings, |sheets, lines, walls| classify_into(sheets, lines, walls))
}

/// The walls of lines of any numbers, by a job that goes by rows.
#[cfg(feature = "alloc")]
pub(crate) fn classified(
    sheets: Sheets,
    starts: &[Start],
    crossings: &[Crossing],
    job: impl FnOnce(Sheets, Lines, &mut WallLists) -> Result<usize, Refusal>,
) -> Result<Vec<Wall>, Refusal> {
    let names = crate::read(sheets)?.names;
    let numbered = Numbered::of(Numbers::of(starts, crossings), names, starts, crossings);
    let mut room = Room::of(numbered.lines().room(names));
    let count = job(sheets, numbered.lines(), &mut room.lists())?;
    Ok((0..count).map(|k| room.wall(k)).map(|wall| Wall { line: numbered.numbers.0[wall.line as usize], ..wall }).collect())
}

/// Lists of its own for walls.
#[cfg(feature = "alloc")]
pub(crate) struct Room {
    pub(crate) lines: Vec<u32>,
    pub(crate) starts: Vec<i32>,
    pub(crate) ends: Vec<i32>,
    pub(crate) start_shapes: Vec<u16>,
    pub(crate) end_shapes: Vec<u16>,
}

#[cfg(feature = "alloc")]
impl Room {
    /// Of so many entries each.
    pub(crate) fn of(room: usize) -> Room {
        let (starts, ends, start_shapes, end_shapes) = (vec![0; room], vec![0; room], vec![0; room], vec![0; room]);
        Room { lines: vec![0; room], starts, ends, start_shapes, end_shapes }
    }

    pub(crate) fn lists(&mut self) -> WallLists<'_> {
        let Room { lines, starts, ends, start_shapes, end_shapes } = self;
        WallLists { lines, starts, ends, start_shapes, end_shapes }
    }

    fn wall(&self, k: usize) -> Wall {
        let (start_shape, end_shape) = (self.start_shapes[k], self.end_shapes[k]);
        Wall { line: self.lines[k], start: self.starts[k], end: self.ends[k], start_shape, end_shape }
    }
}

/// Five lists that walls are written to, an entry a wall in each.
///
/// ```
/// use kressedach::{classify_into, Lines, WallLists};
/// let lines = Lines { rows: &[1], lines: &[0], positions: &[7], shapes: &[0] };
/// let (lists, starts, ends) = (&mut [9; 1], &mut [9; 1], &mut [9; 1]);
/// let mut walls = WallLists { lines: lists, starts, ends, start_shapes: &mut [9; 1], end_shapes: &mut [9; 1] };
/// assert_eq!(classify_into(b"\x01\0\x02\0\x01\x02\0\x01A\x03\0\x02\0\0", lines, &mut walls), Ok(1));
/// assert_eq!((walls.starts[0], walls.ends[0], walls.end_shapes[0]), (-2147483648, 7, 0));
/// ```
#[derive(Debug)]
pub struct WallLists<'a> {
    /// The line's number.
    pub lines: &'a mut [u32],
    /// Where it begins, in micrometres; or [`OPEN_START`](crate::OPEN_START).
    pub starts: &'a mut [i32],
    /// Where it ends; or [`OPEN_END`](crate::OPEN_END).
    pub ends: &'a mut [i32],
    /// The shape at its start; or [`OPEN_SHAPE`](crate::OPEN_SHAPE).
    pub start_shapes: &'a mut [u16],
    /// The shape at its end; or [`OPEN_SHAPE`](crate::OPEN_SHAPE).
    pub end_shapes: &'a mut [u16],
}

/// The walls of lines with these start rows and crossings, into five lists; gives their number.
///
/// Each answer list needs room for half as many entries as crossings, rounded down, and one more for each row: [`Lines::room`].
///
/// ```
/// use kressedach::{classify_into, Lines, WallLists};
/// let sheet = b"\x01\0\x02\0\x01\x02\0\x01A\x03\0\x02\0\0";
/// let (mut lines, mut starts, mut ends, mut start_shapes, mut end_shapes) = ([9; 3], [9; 3], [9; 3], [9; 3], [9; 3]);
/// let mut walls = WallLists {
///     lines: &mut lines,
///     starts: &mut starts,
///     ends: &mut ends,
///     start_shapes: &mut start_shapes,
///     end_shapes: &mut end_shapes,
/// };
/// // line 0 starts in air and line 1 inside A
/// let two = Lines { rows: &[0, 1], lines: &[0, 0, 1], positions: &[-10, 25, 7], shapes: &[0, 0, 0] };
/// assert_eq!(classify_into(sheet, two, &mut walls), Ok(2));
/// assert_eq!((lines, starts, ends), ([0, 1, 9], [-10, -2147483648, 9], [25, 7, 9]));
/// assert_eq!((start_shapes, end_shapes), ([0, 65535, 9], [0, 0, 9]));
/// ```
///
/// # Errors
///
/// 1 to 7 and 17 as [`read`](crate::read()), 8, 13, 14, then 10, 15 and 11 crossing by crossing, then 9 for the lists of `walls` in their
/// order.
#[inline]
pub fn classify_into<'a>(sheets: impl Into<Sheets<'a>>, lines: Lines, walls: &mut WallLists) -> Result<usize, Refusal> {
    let r = call!(kressedach_classify:
        sheets sheets.into(), reads lines.rows, reads lines.lines, reads lines.positions, reads lines.shapes,
        writes walls.lines, writes walls.starts, writes walls.ends, writes walls.start_shapes, writes walls.end_shapes
    );
    refusal::unless(r.number, r.sheet, r.place, r.walls)
}
