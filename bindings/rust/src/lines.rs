//! Lines: where they start, where they cross shapes, and their walls.

/// Where a wall starts that is open at its start: its line starts in metal. No crossing stands there.
///
/// ```
/// use kressedach::{classify_from, Start, OPEN_START};
/// let walls = classify_from(b"\x01\0\x02\0\x01\x02\0\x01A\x03\0\x02\0\0", &[Start { line: 0, shape: 0 }], &[])?;
/// assert_eq!(walls[0].start, OPEN_START);
/// # Ok::<(), kressedach::Refusal>(())
/// ```
pub const OPEN_START: i32 = i32::MIN;

/// Where a wall ends that is open at its end: its line ends in metal. No crossing stands there.
///
/// ```
/// use kressedach::{classify, Crossing, OPEN_END};
/// let walls = classify(b"\x01\0\x02\0\x01\x02\0\x01A\x03\0\x02\0\0", &[Crossing { line: 0, position: 5, shape: 0 }])?;
/// assert_eq!((walls[0].start, walls[0].end), (5, OPEN_END));
/// # Ok::<(), kressedach::Refusal>(())
/// ```
pub const OPEN_END: i32 = i32::MAX;

/// The shape at an open end: no surface bounds the wall there, and no shape has this number.
///
/// ```
/// use kressedach::{classify, Crossing, OPEN_SHAPE};
/// let walls = classify(b"\x01\0\x02\0\x01\x02\0\x01A\x03\0\x02\0\0", &[Crossing { line: 0, position: 5, shape: 0 }])?;
/// assert_eq!((walls[0].start_shape, walls[0].end_shape), (0, OPEN_SHAPE));
/// # Ok::<(), kressedach::Refusal>(())
/// ```
pub const OPEN_SHAPE: u16 = 65535;

/// A line goes through the surface of a shape.
///
/// Crossings are ordered as classifying wants them: by line, then by position; at one position, where any order will do, by shape.
///
/// ```
/// use kressedach::Crossing;
/// let crossing = |line, position| Crossing { line, position, shape: 0 };
/// let mut crossings = [crossing(2, -5), crossing(1, 90), crossing(1, -10)];
/// crossings.sort();
/// assert_eq!(crossings, [crossing(1, -10), crossing(1, 90), crossing(2, -5)]);
/// ```
#[derive(Debug, Clone, Copy, PartialEq, Eq, PartialOrd, Ord, Hash)]
pub struct Crossing {
    /// The line's number.
    pub line: u32,
    /// Where on the line, in micrometres: between [`OPEN_START`] and [`OPEN_END`].
    pub position: i32,
    /// The shape's number.
    pub shape: u16,
}

/// A line starts inside a shape.
///
/// ```
/// use kressedach::{classify_from, Start};
/// let starts = [Start { line: 7, shape: 0 }];
/// assert_eq!(classify_from(b"\x01\0\x02\0\x01\x02\0\x01A\x03\0\x02\0\0", &starts, &[])?.len(), 1);
/// # Ok::<(), kressedach::Refusal>(())
/// ```
#[derive(Debug, Clone, Copy, PartialEq, Eq, PartialOrd, Ord, Hash)]
pub struct Start {
    /// The line's number.
    pub line: u32,
    /// The shape's number.
    pub shape: u16,
}

/// A longest stretch of a line that is inside the solid.
///
/// Where a line starts in metal, its first wall has an open start: it starts at [`OPEN_START`], and the shape there is [`OPEN_SHAPE`]. Where
/// metal goes on after the last crossing of a line, its last wall has an open end: it ends at [`OPEN_END`], with the same shape.
///
/// Walls are ordered as they are given: by line, then by start.
///
/// ```
/// use kressedach::{classify, Crossing, Wall};
/// let at = |position| Crossing { line: 7, position, shape: 0 };
/// let walls = classify(b"\x01\0\x02\0\x01\x02\0\x01A\x03\0\x02\0\0", &[at(0), at(40), at(60), at(100)])?;
/// assert_eq!(walls[0], Wall { line: 7, start: 0, end: 40, start_shape: 0, end_shape: 0 });
/// assert!(walls[0] < walls[1]);
/// # Ok::<(), kressedach::Refusal>(())
/// ```
#[derive(Debug, Clone, Copy, PartialEq, Eq, PartialOrd, Ord, Hash)]
pub struct Wall {
    /// The line's number.
    pub line: u32,
    /// Where it begins, in micrometres; or [`OPEN_START`].
    pub start: i32,
    /// Where it ends: after its start, and before the next wall of the line; or [`OPEN_END`].
    pub end: i32,
    /// The shape at its start: the lowest number whose state differs before and after that position; or [`OPEN_SHAPE`].
    pub start_shape: u16,
    /// The shape at its end, told the same way.
    pub end_shape: u16,
}

impl Wall {
    /// Its end less its start, in micrometres: up to 4294967295, which no 32-bit number with a sign holds. An open wall has no length of
    /// its own: this is then the way to the end mark.
    ///
    /// ```
    /// use kressedach::Wall;
    /// let wall = Wall { line: 0, start: -2000000000, end: 2000000000, start_shape: 0, end_shape: 0 };
    /// assert_eq!(wall.length(), 4000000000);
    /// ```
    pub fn length(&self) -> u32 {
        self.end.abs_diff(self.start)
    }

    /// Whether its line starts or ends in it: it goes on farther than is known, and its [`length`](Wall::length) says nothing.
    ///
    /// ```
    /// use kressedach::{Wall, OPEN_END, OPEN_SHAPE};
    /// let wall = Wall { line: 0, start: 5, end: 90, start_shape: 0, end_shape: 0 };
    /// assert!(!wall.is_open());
    /// assert!(Wall { end: OPEN_END, end_shape: OPEN_SHAPE, ..wall }.is_open());
    /// ```
    pub fn is_open(&self) -> bool {
        self.start == OPEN_START || self.end == OPEN_END
    }
}

/// Lines as the library takes them: start rows, and crossings as three lists of one length.
///
/// There is a start row for each line, from line 0 on, and in each a byte for each name: 1 where the line starts inside that shape, else 0.
/// So a line in air has a row of zeros, and there are as many lines as rows. A line may have no crossing.
///
/// ```
/// use kressedach::Lines;
/// // of one name: line 0 starts in air and line 1 inside it
/// let lines = Lines { rows: &[0, 1], lines: &[0, 0, 1], positions: &[-10, 25, 7], shapes: &[0, 0, 0] };
/// assert_eq!(lines.room(1), 3);
/// ```
#[derive(Debug, Clone, Copy, PartialEq, Eq, Hash)]
pub struct Lines<'a> {
    /// The start rows, one after another.
    pub rows: &'a [u8],
    /// The line of each crossing: never falling, and below the number of rows.
    pub lines: &'a [u32],
    /// Where it stands: within a line never falling.
    pub positions: &'a [i32],
    /// The shape that is crossed.
    pub shapes: &'a [u16],
}

impl Lines<'_> {
    /// How many entries each list of walls needs, for sheets of so many names: half as many as crossings, rounded down, and one more for
    /// each row.
    ///
    /// ```
    /// let lines = kressedach::Lines { rows: &[0; 6], lines: &[0, 0, 2], positions: &[1, 2, 3], shapes: &[0, 0, 1] };
    /// assert_eq!(lines.room(2), 1 + 3);
    /// ```
    pub fn room(&self, names: usize) -> usize {
        self.lines.len() / 2 + self.rows.len() / names.max(1)
    }
}
