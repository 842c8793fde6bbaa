//! The crossing maker for one line and balls, in whole micrometres.

use crate::call::call;
use crate::cross::counted;
#[cfg(feature = "alloc")]
use crate::cross::{given, Crossed};
use crate::{Counts, LineLists, Refusal};
#[cfg(feature = "alloc")]
use alloc::vec::Vec;

/// A ball beside a line that is parallel to an axis, in whole micrometres.
///
/// ```
/// use kressedach::{cross_balls, Ball};
/// assert_eq!(cross_balls(&[Ball { offsets: [0, 0], radius: 5, centre: 100 }])?.positions, [95, 105]);
/// # Ok::<(), kressedach::Refusal>(())
/// ```
#[derive(Debug, Clone, Copy, PartialEq, Eq, Hash)]
pub struct Ball {
    /// How far the line lies from the centre on the two other axes, each -1000000 to 1000000.
    pub offsets: [i32; 2],
    /// 1 to 1000000.
    pub radius: i32,
    /// Where on the line the centre lies, -1000000000 to 1000000000.
    pub centre: i32,
}

/// Crosses balls with one line that is parallel to an axis, in whole micrometres.
///
/// A ball is crossed at its centre less and plus the half chord, which is rounded down; where that is 0 it is not crossed. Every ball
/// starts outside.
///
/// ```
/// use kressedach::{cross_balls, Ball};
/// let vent = Ball { offsets: [300, -400], radius: 1300, centre: 50000 };
/// let crossed = cross_balls(&[vent])?;
/// assert_eq!((crossed.starts, crossed.positions, crossed.shapes), (vec![0], vec![48800, 51200], vec![0, 0]));
///
/// let refusal = cross_balls(&[vent, Ball { radius: 0, ..vent }]).unwrap_err();
/// assert_eq!(refusal.to_string(), "refused 18 at ball 1: an offset, a radius or a centre out of its range");
/// # Ok::<(), kressedach::Refusal>(())
/// ```
///
/// # Errors
///
/// 18: more than 256 balls, then the first with a number out of its range.
#[cfg(feature = "alloc")]
pub fn cross_balls(balls: &[Ball]) -> Result<Crossed, Refusal> {
    let numbers: Vec<[i32; 4]> = balls.iter().map(|ball| [ball.offsets[0], ball.offsets[1], ball.radius, ball.centre]).collect();
    given(balls.len(), |lists| cross_balls_into(numbers.as_flattened(), lists))
}

/// Crosses balls with one line into lent lists. Each ball has four numbers: both offsets, radius, centre. A ball begun counts, and a number
/// that it lacks is out of range.
///
/// ```
/// use kressedach::{cross_balls_into, LineLists};
/// let (mut starts, mut positions, mut shapes) = ([9; 2], [9; 3], [9; 3]);
/// let mut lists = LineLists { starts: &mut starts, positions: &mut positions, shapes: &mut shapes };
/// assert_eq!(cross_balls_into(&[3, 0, 5, 100], &mut lists)?.crossings, 2);
/// assert_eq!((starts, positions, shapes), ([0, 9], [96, 104, 9], [0, 0, 9]));
/// # Ok::<(), kressedach::Refusal>(())
/// ```
///
/// # Errors
///
/// 18 for more than 256 balls, then for the first with a number out of its range; then 9 for the lists in their order.
#[inline]
pub fn cross_balls_into(numbers: &[i32], lists: &mut LineLists) -> Result<Counts, Refusal> {
    counted(call!(kressedach_cross_balls: reads numbers, writes lists.starts, writes lists.positions, writes lists.shapes))
}
