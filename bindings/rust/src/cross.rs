//! The crossing maker for one line, half-spaces and boxes, from the drawing's own numbers.

use crate::call::call;
use crate::{ffi, refusal, Refusal};
#[cfg(feature = "alloc")]
use crate::{Crossing, Start};
#[cfg(feature = "alloc")]
use alloc::{vec, vec::Vec};

/// An axis of the drawing.
///
/// ```
/// use kressedach::{Axis, Shape};
/// // what lies below z = 25
/// assert_eq!(Shape::HalfSpace { axis: Axis::Z, face: 25.0 }.parts().0, 2);
/// ```
#[derive(Debug, Clone, Copy, PartialEq, Eq, Hash)]
pub enum Axis {
    /// The first.
    X = 0,
    /// The second.
    Y = 1,
    /// The third.
    Z = 2,
}

/// A shape of the drawing, in millimetres.
///
/// ```
/// use kressedach::{cross, Probe, Shape};
/// let block = Shape::Box { lows: [0.0, 0.0, 0.0], highs: [100.0, 40.0, 40.0] };
/// let along = Probe { origin: [-10.0, 20.0, 20.0], direction: [1.0, 0.0, 0.0] };
/// assert_eq!(cross(along, &[block])?.positions, [10000, 110000]);
/// # Ok::<(), kressedach::Refusal>(())
/// ```
#[derive(Debug, Clone, Copy, PartialEq)]
pub enum Shape {
    /// Solid below a face that lies across an axis.
    HalfSpace {
        /// The axis.
        axis: Axis,
        /// Where on the axis the face lies.
        face: f64,
    },
    /// Solid between three lows and three highs.
    Box {
        /// The least x, y and z.
        lows: [f64; 3],
        /// The greatest x, y and z: each above its low.
        highs: [f64; 3],
    },
}

/// The byte that stands for a box in a list of kinds; 0 to 2 stand for a half-space on that axis.
///
/// ```
/// use kressedach::{Shape, BOX};
/// assert_eq!(Shape::Box { lows: [0.0; 3], highs: [1.0; 3] }.parts().0, BOX);
/// ```
pub const BOX: u8 = 255;

impl Shape {
    /// As the library takes it: a byte, and six numbers. A half-space has its face in the first of them; the others are not looked at.
    ///
    /// ```
    /// use kressedach::{Axis, Shape, BOX};
    /// assert_eq!(Shape::HalfSpace { axis: Axis::Y, face: 5.0 }.parts(), (1, [5.0, 0.0, 0.0, 0.0, 0.0, 0.0]));
    /// assert_eq!(Shape::Box { lows: [1.0, 2.0, 3.0], highs: [4.0, 5.0, 6.0] }.parts(), (BOX, [1.0, 2.0, 3.0, 4.0, 5.0, 6.0]));
    /// ```
    pub fn parts(&self) -> (u8, [f64; 6]) {
        match *self {
            Shape::HalfSpace { axis, face } => (axis as u8, [face, 0.0, 0.0, 0.0, 0.0, 0.0]),
            Shape::Box { lows: [a, b, c], highs: [d, e, f] } => (BOX, [a, b, c, d, e, f]),
        }
    }
}

/// A probe line, in millimetres. It has no end: positions behind the origin count as those before it do.
///
/// ```
/// use kressedach::{cross, Axis, Probe, Shape};
/// let probe = Probe { origin: [10.0, 0.0, 0.0], direction: [1.0, 0.0, 0.0] };
/// assert_eq!(cross(probe, &[Shape::HalfSpace { axis: Axis::X, face: 4.0 }])?.positions, [-6000]);
/// # Ok::<(), kressedach::Refusal>(())
/// ```
#[derive(Debug, Clone, Copy, PartialEq)]
pub struct Probe {
    /// Where positions are counted from.
    pub origin: [f64; 3],
    /// Where the line goes; not all zero. With a direction of length 1 positions are in micrometres.
    pub direction: [f64; 3],
}

/// What a line has of some shapes.
///
/// ```
/// use kressedach::{cross, Crossed, Probe, Shape};
/// let block = Shape::Box { lows: [0.0; 3], highs: [5.0; 3] };
/// let crossed = cross(Probe { origin: [-1.0, 1.0, 1.0], direction: [1.0, 0.0, 0.0] }, &[block])?;
/// assert_eq!(crossed, Crossed { starts: vec![0], positions: vec![1000, 6000], shapes: vec![0, 0] });
/// # Ok::<(), kressedach::Refusal>(())
/// ```
#[cfg(feature = "alloc")]
#[derive(Debug, Clone, PartialEq, Eq, Hash)]
pub struct Crossed {
    /// The start row, a byte a shape: 1 where the line starts inside it.
    pub starts: Vec<u8>,
    /// Where the line is crossed, in micrometres, rising.
    pub positions: Vec<i32>,
    /// The shape of each crossing: at one position by rising number.
    pub shapes: Vec<u16>,
}

#[cfg(feature = "alloc")]
impl Crossed {
    /// The crossings, for a line of this number: what [`classify`](crate::classify()) and [`classify_from`](crate::classify_from) take.
    ///
    /// ```
    /// use kressedach::{Crossed, Crossing};
    /// let crossed = Crossed { starts: vec![0], positions: vec![10, 90], shapes: vec![0, 0] };
    /// assert!(crossed.crossings(7).eq([10, 90].map(|position| Crossing { line: 7, position, shape: 0 })));
    /// ```
    pub fn crossings(&self, line: u32) -> impl Iterator<Item = Crossing> + '_ {
        self.positions.iter().zip(&self.shapes).map(move |(position, shape)| Crossing { line, position: *position, shape: *shape })
    }

    /// The shapes in which it starts, for a line of this number: what [`classify_from`](crate::classify_from) takes.
    ///
    /// ```
    /// use kressedach::{Crossed, Start};
    /// let crossed = Crossed { starts: vec![0, 1], positions: vec![], shapes: vec![] };
    /// assert!(crossed.inside(7).eq([Start { line: 7, shape: 1 }]));
    /// ```
    pub fn inside(&self, line: u32) -> impl Iterator<Item = Start> + '_ {
        self.starts.iter().zip(0..).filter(|(byte, _)| **byte == 1).map(move |(_, shape)| Start { line, shape })
    }
}

/// How many entries are given.
///
/// ```
/// use kressedach::{cross_balls_into, Counts, LineLists};
/// let mut lists = LineLists { starts: &mut [9; 1], positions: &mut [9; 2], shapes: &mut [9; 2] };
/// assert_eq!(cross_balls_into(&[0, 0, 5, 100], &mut lists), Ok(Counts { shapes: 1, crossings: 2 }));
/// ```
#[derive(Debug, Clone, Copy, PartialEq, Eq, Hash)]
pub struct Counts {
    /// In the start row: one a shape.
    pub shapes: usize,
    /// In each of positions and shapes: one a crossing.
    pub crossings: usize,
}

/// Three lists that a line's answer is written to.
///
/// ```
/// use kressedach::{cross_balls_into, LineLists};
/// let mut lists = LineLists { starts: &mut [9; 1], positions: &mut [9; 2], shapes: &mut [9; 2] };
/// cross_balls_into(&[0, 0, 5, 100], &mut lists)?;
/// assert_eq!((lists.starts[0], lists.positions[1], lists.shapes[1]), (0, 105, 0));
/// # Ok::<(), kressedach::Refusal>(())
/// ```
#[derive(Debug)]
pub struct LineLists<'a> {
    /// The start row, an entry a shape.
    pub starts: &'a mut [u8],
    /// Positions, an entry a crossing; a shape has two at most.
    pub positions: &'a mut [i32],
    /// Shapes, an entry a crossing.
    pub shapes: &'a mut [u16],
}

/// Crosses half-spaces and boxes with one line, from the drawing's own numbers: to the bit the same for every caller.
///
/// The position of a face is face less origin, divided by the direction's component, times 1000, each operation rounded once, and then
/// the nearest whole number, halves to even. A box has two crossings or none, and starts outside. A half-space has one crossing, and
/// starts inside where the line goes up its axis; where the line is level with the face it has none, and starts inside if the origin is
/// below it.
///
/// ```
/// use kressedach::{classify, classify_from, cross, Axis, Probe, Shape, Wall, OPEN_SHAPE, OPEN_START};
/// let block = Shape::Box { lows: [0.0, 0.0, 0.0], highs: [100.0, 40.0, 40.0] };
/// let bore = Shape::Box { lows: [40.0, 10.0, -1.0], highs: [60.0, 30.0, 41.0] };
/// let along = Probe { origin: [-10.0, 20.0, 20.0], direction: [1.0, 0.0, 0.0] };
/// let crossed = cross(along, &[block, bore])?;
/// assert_eq!(crossed.starts, [0, 0]);
/// assert_eq!((crossed.positions.as_slice(), crossed.shapes.as_slice()), (&[10000, 50000, 70000, 110000][..], &[0, 1, 1, 0][..]));
///
/// // from the drawing's numbers to walls: Block less Bore
/// let sheet = b"\x01\0\x02\0\x01\x02\0\x05Block\x02\0\x04Bore\x03\0\x06\0\0\0\x01\xFF\xF2";
/// let crossings: Vec<_> = crossed.crossings(0).collect();
/// let wall = |start, end, start_shape, end_shape| Wall { line: 0, start, end, start_shape, end_shape };
/// assert_eq!(classify(sheet, &crossings)?, [wall(10000, 50000, 0, 1), wall(70000, 110000, 1, 0)]);
///
/// // below a face at x = 25: the line starts inside, and is out from there on; Below alone
/// let crossed = cross(along, &[Shape::HalfSpace { axis: Axis::X, face: 25.0 }])?;
/// assert_eq!((crossed.starts.as_slice(), crossed.positions.as_slice()), (&[1][..], &[35000][..]));
/// let sheet = b"\x01\0\x02\0\x01\x02\0\x05Below\x03\0\x02\0\0";
/// let (starts, crossings): (Vec<_>, Vec<_>) = (crossed.inside(0).collect(), crossed.crossings(0).collect());
/// assert_eq!(classify_from(sheet, &starts, &crossings)?, [wall(OPEN_START, 35000, OPEN_SHAPE, 0)]);
///
/// let still = Probe { origin: [0.0; 3], direction: [0.0; 3] };
/// let refusal = cross(still, &[block]).unwrap_err();
/// assert_eq!(refusal.to_string(), "refused 16 for the line: a number of the line is not finite, or its direction is all zero");
/// # Ok::<(), kressedach::Refusal>(())
/// ```
///
/// # Errors
///
/// 16: more than 256 shapes, then the line, then the first shape at fault.
#[cfg(feature = "alloc")]
pub fn cross(probe: Probe, shapes: &[Shape]) -> Result<Crossed, Refusal> {
    let (kinds, numbers): (Vec<u8>, Vec<[f64; 6]>) = shapes.iter().map(Shape::parts).unzip();
    given(shapes.len(), |lists| cross_into(probe, ShapeLists { kinds: &kinds, numbers: numbers.as_flattened() }, lists))
}

/// Half-spaces and boxes as the library takes them.
///
/// There is a shape for each of `kinds`, and each has six of `numbers`. A number that the list lacks is not finite; numbers past the last
/// shape are not looked at.
///
/// ```
/// use kressedach::{ShapeLists, BOX};
/// // below z = 25, and a box
/// let numbers = [25.0, 0.0, 0.0, 0.0, 0.0, 0.0, 5.0, 0.0, 0.0, 6.0, 2.0, 2.0];
/// let shapes = ShapeLists { kinds: &[2, BOX], numbers: &numbers };
/// assert_eq!(shapes.numbers.len(), 6 * shapes.kinds.len());
/// ```
#[derive(Debug, Clone, Copy, PartialEq)]
pub struct ShapeLists<'a> {
    /// 0 to 2 a half-space on that axis, [`BOX`] a box, any other at fault.
    pub kinds: &'a [u8],
    /// Of each six: a half-space has its face first, and the others are not looked at; a box has its lows and then its highs.
    pub numbers: &'a [f64],
}

/// Crosses half-spaces and boxes with one line into lent lists.
///
/// ```
/// use kressedach::{cross_into, Counts, LineLists, Probe, ShapeLists, BOX};
/// let probe = Probe { origin: [0.0, 1.0, 1.0], direction: [1.0, 0.0, 0.0] };
/// let (mut starts, mut positions, mut shapes) = ([9; 2], [9; 3], [9; 3]);
/// let mut lists = LineLists { starts: &mut starts, positions: &mut positions, shapes: &mut shapes };
/// let block = ShapeLists { kinds: &[BOX], numbers: &[5.0, 0.0, 0.0, 6.0, 2.0, 2.0] };
/// let counts = cross_into(probe, block, &mut lists)?;
/// assert_eq!(counts, Counts { shapes: 1, crossings: 2 });
/// assert_eq!((starts, positions, shapes), ([0, 9], [5000, 6000, 9], [0, 0, 9]));
/// # Ok::<(), kressedach::Refusal>(())
/// ```
///
/// # Errors
///
/// 16 for more than 256 shapes, the line, the first shape at fault; then 9 for the lists in their order.
#[inline]
pub fn cross_into(probe: Probe, shapes: ShapeLists, lists: &mut LineLists) -> Result<Counts, Refusal> {
    let ([ox, oy, oz], [dx, dy, dz]) = (probe.origin, probe.direction);
    let r = call!(kressedach_cross:
        is ox, is oy, is oz, is dx, is dy, is dz, reads shapes.kinds, reads shapes.numbers,
        writes lists.starts, writes lists.positions, writes lists.shapes
    );
    counted(r)
}

#[inline]
pub(crate) fn counted(r: ffi::CrossReport) -> Result<Counts, Refusal> {
    refusal::unless(r.number, 0, r.place, Counts { shapes: r.shapes, crossings: r.crossings })
}

/// A job's answer in lists of its own, with room for two crossings a shape.
#[cfg(feature = "alloc")]
pub(crate) fn given(shapes: usize, job: impl FnOnce(&mut LineLists) -> Result<Counts, Refusal>) -> Result<Crossed, Refusal> {
    let (mut starts, mut positions, mut numbers) = (vec![0; shapes], vec![0; 2 * shapes], vec![0; 2 * shapes]);
    let counts = job(&mut LineLists { starts: &mut starts, positions: &mut positions, shapes: &mut numbers })?;
    positions.truncate(counts.crossings);
    numbers.truncate(counts.crossings);
    Ok(Crossed { starts, positions, shapes: numbers })
}
