//! The crossing maker for many lines and one drawing.

use crate::call::call;
use crate::{refusal, Probe, Reason, Refusal, ShapeLists};
#[cfg(feature = "alloc")]
use crate::{Lines, Shape};
#[cfg(feature = "alloc")]
use alloc::{vec, vec::Vec};
use core::error::Error;
use core::fmt;

/// What many lines have of some shapes: the lists that [`classify_into`](crate::classify_into) takes, as they are.
///
/// ```
/// use kressedach::{cross_many, ManyCrossed, Probe, Shape};
/// let block = Shape::Box { lows: [0.0; 3], highs: [5.0; 3] };
/// let crossed = cross_many(&[Probe { origin: [-1.0, 1.0, 1.0], direction: [1.0, 0.0, 0.0] }], &[block])?;
/// assert_eq!(crossed, ManyCrossed { rows: vec![0], lines: vec![0, 0], positions: vec![1000, 6000], shapes: vec![0, 0] });
/// # Ok::<(), kressedach::LineRefusal>(())
/// ```
#[cfg(feature = "alloc")]
#[derive(Debug, Clone, PartialEq, Eq, Hash)]
pub struct ManyCrossed {
    /// A start row a line, and in each a byte a shape: 1 where the line starts inside it.
    pub rows: Vec<u8>,
    /// The line of each crossing, numbered from 0 as the lines are given: never falling.
    pub lines: Vec<u32>,
    /// Where the line is crossed, in micrometres: within a line rising.
    pub positions: Vec<i32>,
    /// The shape of each crossing: at one position by rising number.
    pub shapes: Vec<u16>,
}

#[cfg(feature = "alloc")]
impl ManyCrossed {
    /// As [`classify_into`](crate::classify_into) takes them.
    ///
    /// ```
    /// use kressedach::ManyCrossed;
    /// let crossed = ManyCrossed { rows: vec![0], lines: vec![0, 0], positions: vec![1000, 6000], shapes: vec![0, 0] };
    /// assert_eq!(crossed.lines().positions, [1000, 6000]);
    /// ```
    pub fn lines(&self) -> Lines<'_> {
        Lines { rows: &self.rows, lines: &self.lines, positions: &self.positions, shapes: &self.shapes }
    }
}

/// How many entries are given.
///
/// ```
/// use kressedach::{cross_many_into, ManyCounts, ManyLists, ShapeLists};
/// let mut lists = ManyLists { rows: &mut [], lines: &mut [], positions: &mut [], shapes: &mut [] };
/// let none = ShapeLists { kinds: &[], numbers: &[] };
/// let counts = cross_many_into(&[0.0, 0.0, 0.0, 1.0, 0.0, 0.0], none, &mut lists)?;
/// assert_eq!(counts, ManyCounts { lines: 1, crossings: 0 });
/// # Ok::<(), kressedach::LineRefusal>(())
/// ```
#[derive(Debug, Clone, Copy, PartialEq, Eq, Hash)]
pub struct ManyCounts {
    /// Rows, each with an entry a shape: one a line.
    pub lines: usize,
    /// In each of lines, positions and shapes: one a crossing.
    pub crossings: usize,
}

/// Four lists that the answer of many lines is written to.
///
/// ```
/// use kressedach::{cross_many_into, ManyLists, ShapeLists};
/// let mut lists = ManyLists { rows: &mut [9; 1], lines: &mut [9; 1], positions: &mut [9; 1], shapes: &mut [9; 1] };
/// let below = ShapeLists { kinds: &[0], numbers: &[5.0, 0.0, 0.0, 0.0, 0.0, 0.0] };
/// cross_many_into(&[0.0, 0.0, 0.0, 1.0, 0.0, 0.0], below, &mut lists)?;
/// assert_eq!((lists.rows[0], lists.lines[0], lists.positions[0], lists.shapes[0]), (1, 0, 5000, 0));
/// # Ok::<(), kressedach::LineRefusal>(())
/// ```
#[derive(Debug)]
pub struct ManyLists<'a> {
    /// The start rows, an entry a line and shape.
    pub rows: &'a mut [u8],
    /// Line numbers, an entry a crossing; a shape has two at most on each line.
    pub lines: &'a mut [u32],
    /// Positions, an entry a crossing.
    pub positions: &'a mut [i32],
    /// Shapes, an entry a crossing.
    pub shapes: &'a mut [u16],
}

/// Why many lines have no answer: a refusal, and the line that it is of.
///
/// It prints as a sentence that a person can act on:
///
/// ```
/// use kressedach::{cross_many, Axis, LineRefusal, Probe, Reason, Refusal, Shape};
/// let along = Probe { origin: [0.0; 3], direction: [1.0, 0.0, 0.0] };
/// let still = Probe { direction: [0.0; 3], ..along };
/// let below = Shape::HalfSpace { axis: Axis::X, face: 5.0 };
/// let refusal = cross_many(&[along, still], &[below]).unwrap_err();
/// assert_eq!(refusal.to_string(), "refused 16 for line 1: a number of the line is not finite, or its direction is all zero");
///
/// let slow = Probe { direction: [1e-9, 0.0, 0.0], ..along };
/// let refusal = cross_many(&[along, along, slow], &[below]).unwrap_err();
/// assert_eq!((refusal.line, refusal.refusal.place), (Some(2), 0));
/// assert!(refusal.to_string().starts_with("refused 16 at shape 0 on line 2: an axis above 2, a number that is not finite,"));
///
/// let of = |reason, place| LineRefusal { line: None, refusal: Refusal { reason, sheet: None, place } }.to_string();
/// assert_eq!(of(Reason::RowsWrong, 0), "refused 14: more than 4294967296 lines");
/// assert_eq!(of(Reason::ShapeWrong, 256), "refused 16: more than 256 shapes");
/// assert_eq!(of(Reason::ListTooShort, 7), "refused 9 for want of 7 entries: an answer list is too short");
/// ```
#[derive(Debug, Clone, Copy, PartialEq, Eq, Hash)]
pub struct LineRefusal {
    /// The number of the line that is at fault, or that a shape is at fault on; none where the refusal is of no line.
    pub line: Option<usize>,
    /// The number, and the place that it fixes.
    pub refusal: Refusal,
}

impl fmt::Display for LineRefusal {
    fn fmt(&self, f: &mut fmt::Formatter<'_>) -> fmt::Result {
        let (number, place) = (self.refusal.number(), self.refusal.place);
        match self.line {
            Some(line) if place == 65535 => write!(f, "refused {number} for line {line}: {}", self.refusal.meaning()),
            Some(line) => write!(f, "refused {number} at shape {place} on line {line}: {}", self.refusal.meaning()),
            None if self.refusal.reason == Reason::RowsWrong => write!(f, "refused 14: more than 4294967296 lines"),
            None => self.refusal.fmt(f),
        }
    }
}

impl Error for LineRefusal {}

impl From<LineRefusal> for Refusal {
    fn from(refused: LineRefusal) -> Refusal {
        refused.refusal
    }
}

impl Probe {
    /// As the library takes it among many: six numbers, origin and then direction.
    ///
    /// ```
    /// let probe = kressedach::Probe { origin: [1.0, 2.0, 3.0], direction: [0.0, 0.0, 1.0] };
    /// assert_eq!(probe.numbers(), [1.0, 2.0, 3.0, 0.0, 0.0, 1.0]);
    /// ```
    pub fn numbers(&self) -> [f64; 6] {
        let ([a, b, c], [d, e, f]) = (self.origin, self.direction);
        [a, b, c, d, e, f]
    }
}

/// Crosses half-spaces and boxes with many lines: what [`cross`](crate::cross()) gives for each, one after another.
///
/// ```
/// use kressedach::{classify_into, cross_many, Probe, Shape, WallLists};
/// let block = Shape::Box { lows: [0.0, 0.0, 0.0], highs: [100.0, 40.0, 40.0] };
/// let bore = Shape::Box { lows: [40.0, 10.0, -1.0], highs: [60.0, 30.0, 41.0] };
/// let along = |y| Probe { origin: [-10.0, y, 20.0], direction: [1.0, 0.0, 0.0] };
/// let crossed = cross_many(&[along(5.0), along(20.0)], &[block, bore])?;
/// assert_eq!((crossed.rows.as_slice(), crossed.lines.as_slice()), (&[0; 4][..], &[0, 0, 1, 1, 1, 1][..]));
/// assert_eq!(crossed.positions, [10000, 110000, 10000, 50000, 70000, 110000]);
/// assert_eq!(crossed.shapes, [0, 0, 0, 1, 1, 0]);
///
/// // from the drawing's numbers to walls: Block less Bore
/// let sheet = b"\x01\0\x02\0\x01\x02\0\x05Block\x02\0\x04Bore\x03\0\x06\0\0\0\x01\xFF\xF2";
/// let (mut lines, mut starts, mut ends, mut start_shapes, mut end_shapes) = ([9; 5], [9; 5], [9; 5], [9; 5], [9; 5]);
/// let mut walls = WallLists {
///     lines: &mut lines,
///     starts: &mut starts,
///     ends: &mut ends,
///     start_shapes: &mut start_shapes,
///     end_shapes: &mut end_shapes,
/// };
/// assert_eq!(classify_into(sheet, crossed.lines(), &mut walls)?, 3);
/// assert_eq!((lines, starts, ends), ([0, 1, 1, 9, 9], [10000, 10000, 70000, 9, 9], [110000, 50000, 110000, 9, 9]));
/// # Ok::<(), kressedach::Refusal>(())
/// ```
///
/// # Errors
///
/// 16 for more than 256 shapes, 14 for more than 4294967296 lines, then line by line 16: for the line, then for the first shape at fault.
#[cfg(feature = "alloc")]
pub fn cross_many(probes: &[Probe], shapes: &[Shape]) -> Result<ManyCrossed, LineRefusal> {
    let (kinds, numbers): (Vec<u8>, Vec<[f64; 6]>) = shapes.iter().map(Shape::parts).unzip();
    let lines: Vec<[f64; 6]> = probes.iter().map(Probe::numbers).collect();
    given(lines.as_flattened(), ShapeLists { kinds: &kinds, numbers: numbers.as_flattened() })
}

/// So many start bytes at a time: few enough for a processor's cache, with room for two crossings for each.
#[cfg(feature = "alloc")]
const MOST_BYTES: usize = 1 << 17;

/// The answer in lists of its own: block by block, each with room enough, so that the library need not count before it writes.
#[cfg(feature = "alloc")]
pub(crate) fn given(lines: &[f64], shapes: ShapeLists) -> Result<ManyCrossed, LineRefusal> {
    let (count, each) = (lines.len().div_ceil(6), shapes.kinds.len());
    // the whole is refused where a block is, with its own number, place and line, and whatever the room
    let refused = || {
        let mut none = ManyLists { rows: &mut [], lines: &mut [], positions: &mut [], shapes: &mut [] };
        cross_many_into(lines, shapes, &mut none).expect_err("the whole is refused where a block is")
    };
    if each > 256 || count > 1 << 32 {
        return Err(refused());
    }
    let in_a_block = (MOST_BYTES / each.max(1)).max(1);
    let room = 2 * each * count.min(in_a_block);
    let mut all = ManyCrossed { rows: vec![0; count * each], lines: vec![], positions: vec![], shapes: vec![] };
    let (mut on, mut positions, mut crossed) = (vec![0; room], vec![0; room], vec![0; room]);
    for (k, block) in lines.chunks(6 * in_a_block).enumerate() {
        let first = k * in_a_block;
        let rows = &mut all.rows[first * each..];
        let mut lists = ManyLists { rows, lines: &mut on, positions: &mut positions, shapes: &mut crossed };
        let crossings = cross_many_into(block, shapes, &mut lists).map_err(|_| refused())?.crossings;
        all.lines.extend(on[..crossings].iter().map(|line| first as u32 + line));
        all.positions.extend_from_slice(&positions[..crossings]);
        all.shapes.extend_from_slice(&crossed[..crossings]);
    }
    Ok(all)
}

/// Crosses half-spaces and boxes with many lines into lent lists.
///
/// Each line has six of `lines`: origin, direction. A line begun counts, and a number that it lacks is not finite.
///
/// `rows` needs an entry a line and shape, the others one a crossing. Two crossings a shape and line are always room enough: with that room
/// the lines are gone through once to judge them and once to write, with less once more between, to count their crossings.
///
/// ```
/// use kressedach::{cross_many_into, ManyCounts, ManyLists, ShapeLists, BOX};
/// let lines = [0.0, 1.0, 1.0, 1.0, 0.0, 0.0, 0.0, 5.0, 1.0, 1.0, 0.0, 0.0, 0.0, 1.0, 1.0, -1.0, 0.0, 0.0];
/// let (mut rows, mut numbers, mut positions, mut shapes) = ([9; 4], [9; 5], [9; 5], [9; 5]);
/// let mut lists = ManyLists { rows: &mut rows, lines: &mut numbers, positions: &mut positions, shapes: &mut shapes };
/// let block = ShapeLists { kinds: &[BOX], numbers: &[5.0, 0.0, 0.0, 6.0, 2.0, 2.0] };
/// let counts = cross_many_into(&lines, block, &mut lists)?;
/// assert_eq!(counts, ManyCounts { lines: 3, crossings: 4 });
/// assert_eq!((rows, numbers), ([0, 0, 0, 9], [0, 0, 2, 2, 9]));
/// assert_eq!((positions, shapes), ([5000, 6000, -6000, -5000, 9], [0, 0, 0, 0, 9]));
/// # Ok::<(), kressedach::LineRefusal>(())
/// ```
///
/// # Errors
///
/// 16 for more than 256 shapes, 14 for more than 4294967296 lines, then line by line 16: for the line, then for the first shape at fault;
/// then 9 for the lists in their order.
#[inline]
pub fn cross_many_into(lines: &[f64], shapes: ShapeLists, lists: &mut ManyLists) -> Result<ManyCounts, LineRefusal> {
    let r = call!(kressedach_cross_many:
        reads shapes.kinds, reads shapes.numbers, reads lines,
        writes lists.rows, writes lists.lines, writes lists.positions, writes lists.shapes
    );
    let line = (r.number == Reason::ShapeWrong.number() && r.place != 256).then_some(r.line);
    let counts = ManyCounts { lines: r.lines, crossings: r.crossings };
    refusal::unless(r.number, 0, r.place, counts).map_err(|refusal| LineRefusal { line, refusal })
}
