//! Document 02, K4: one line's crossings from the drawing's own numbers, with the machine's own f64.

use crate::{enough, refuse, Refused};

/// A probe line, in millimetres.
#[derive(Debug, Clone, Copy, PartialEq)]
pub struct Probe {
    pub origin: [f64; 3],
    pub direction: [f64; 3],
}

/// The shapes as they are lent: a byte a shape (0 to 2 a half-space on that axis, 255 a box), and six numbers a shape, of which a
/// half-space has its face in the first, and a box its three lows and then its three highs.
#[derive(Debug, Clone, Copy)]
pub struct Shapes<'a> {
    pub kinds: &'a [u8],
    pub numbers: &'a [f64],
}

/// One line's answer: a byte a shape, and the crossings, each a position and a shape's number.
#[derive(Debug, Clone, PartialEq, Eq)]
pub struct Crossed {
    pub starts: Vec<u8>,
    pub crossings: Vec<(i32, u16)>,
}

/// What a line has of one shape: whether it starts inside, and where it is crossed.
pub(crate) type Cut = (bool, Vec<i32>);

/// The job: start row, positions, shapes are its answer lists.
pub fn cross(probe: Probe, shapes: Shapes, rooms: [usize; 3]) -> Result<Crossed, Refused> {
    let count = shapes.kinds.len();
    if count > 256 {
        return refuse(16, 256);
    }
    let numbers = [probe.origin, probe.direction].concat();
    if numbers.iter().any(|x| !x.is_finite()) || probe.direction == [0.0; 3] {
        return refuse(16, 65535);
    }
    answer(16, (0..count).map(|k| cut(probe, shapes.kinds[k], &six(shapes.numbers, k))), rooms)
}

/// The first shape at fault, with this number; else the answer in its order, and 9.
pub(crate) fn answer(number: u8, cuts: impl Iterator<Item = Option<Cut>>, rooms: [usize; 3]) -> Result<Crossed, Refused> {
    let mut crossed = Crossed { starts: Vec::new(), crossings: Vec::new() };
    for (shape, cut) in cuts.enumerate() {
        let Some((inside, positions)) = cut else { return refuse(number, shape) };
        crossed.starts.push(u8::from(inside));
        crossed.crossings.extend(positions.into_iter().map(|position| (position, shape as u16)));
    }
    crossed.crossings.sort();
    enough(rooms, [crossed.starts.len(), crossed.crossings.len(), crossed.crossings.len()])?;
    Ok(crossed)
}

/// The six numbers of shape k: one that the list lacks is not finite.
fn six(numbers: &[f64], k: usize) -> [f64; 6] {
    std::array::from_fn(|j| numbers.get(6 * k + j).copied().unwrap_or(f64::NAN))
}

/// None where the shape is at fault.
fn cut(probe: Probe, kind: u8, numbers: &[f64; 6]) -> Option<Cut> {
    match kind {
        0..=2 => half_space(probe, usize::from(kind), numbers[0]),
        255 => solid_box(probe, numbers),
        _ => None,
    }
}

/// "Solid below the face."
fn half_space(probe: Probe, axis: usize, face: f64) -> Option<Cut> {
    if !face.is_finite() {
        return None;
    }
    if probe.direction[axis] == 0.0 {
        return Some((probe.origin[axis] < face, vec![]));
    }
    Some((probe.direction[axis] > 0.0, vec![position(probe, axis, face)?]))
}

/// "Entered at the greatest, over the axes, of its lesser positions and left at the least of its greater ones."
fn solid_box(probe: Probe, numbers: &[f64; 6]) -> Option<Cut> {
    let (lows, highs) = numbers.split_at(3);
    if numbers.iter().any(|x| !x.is_finite()) || (0..3).any(|axis| lows[axis] >= highs[axis]) {
        return None;
    }
    let mut missed = false;
    let mut enters = Vec::new();
    let mut leaves = Vec::new();
    for axis in 0..3 {
        if probe.direction[axis] == 0.0 {
            missed |= !(lows[axis] < probe.origin[axis] && probe.origin[axis] < highs[axis]);
        } else {
            let both = [position(probe, axis, lows[axis])?, position(probe, axis, highs[axis])?];
            enters.extend(both.iter().min());
            leaves.extend(both.iter().max());
        }
    }
    let (first, last) = (enters.into_iter().max()?, leaves.into_iter().min()?);
    Some((false, if first < last && !missed { vec![first, last] } else { vec![] }))
}

/// "The nearest whole number, halves to even"; None where it is not finite or outside -2147483647 to 2147483646.
fn position(probe: Probe, axis: usize, face: f64) -> Option<i32> {
    let distance = (face - probe.origin[axis]) / probe.direction[axis] * 1000.0;
    let nearest = distance.round_ties_even();
    (-2147483647.0..=2147483646.0).contains(&nearest).then_some(nearest as i32)
}
