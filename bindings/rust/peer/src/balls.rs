//! Document 02, K9: one line's crossings of balls, the line parallel to an axis, in whole micrometres.

use crate::crossings::{answer, Crossed, Cut};
use crate::{refuse, Refused};

/// The job, on four numbers a ball: two offsets of line from centre, radius, centre along the line. A ball begun counts. Start row,
/// positions, shapes are its answer lists.
pub fn cross(numbers: &[i32], rooms: [usize; 3]) -> Result<Crossed, Refused> {
    if numbers.chunks(4).count() > 256 {
        return refuse(18, 256);
    }
    answer(18, numbers.chunks(4).map(cut), rooms)
}

/// None where a number is out of its range or lacking. "Every ball starts outside."
fn cut(ball: &[i32]) -> Option<Cut> {
    let &[u, v, radius, centre] = ball else { return None };
    let offsets = -1000000..=1000000;
    if !(offsets.contains(&u) && offsets.contains(&v) && (1..=1000000).contains(&radius)) {
        return None;
    }
    if !(-1000000000..=1000000000).contains(&centre) {
        return None;
    }
    let squared = |x: i32| i64::from(x) * i64::from(x);
    let half = match squared(radius) - squared(u) - squared(v) {
        difference if difference < 0 => 0,
        difference => root(difference) as i32,
    };
    Some((false, if half == 0 { vec![] } else { vec![centre - half, centre + half] }))
}

/// The greatest whole number whose square is not above one that is not negative, from an f64 that is near it.
fn root(number: i64) -> i64 {
    let mut root = (number as f64).sqrt() as i64;
    while root * root > number {
        root -= 1;
    }
    while (root + 1) * (root + 1) <= number {
        root += 1;
    }
    root
}
