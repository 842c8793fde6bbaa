//! One line's crossings: half-spaces and boxes with rounding worked out from the bits, balls by Newton's iteration; crossings are put into
//! order as keys of position and shape.

use super::{enough, Refused};
use kressedach::{LineLists, Probe, BOX};

/// What a line has of one shape: whether it starts inside, and its crossings by their marks, 2147483648 more than their positions.
type Cut = Option<(bool, [Option<u32>; 2])>;

/// Half-spaces and boxes on one line.
pub fn cross(probe: &Probe, kinds: &[u8], numbers: &[f64], lists: &mut LineLists) -> Result<[usize; 2], Refused> {
    if kinds.len() > 256 {
        return Err((16, 256));
    }
    let finite = probe.origin.iter().chain(&probe.direction).all(|x| x.is_finite());
    if !finite || probe.direction == [0.0; 3] {
        return Err((16, 65535));
    }
    gather(16, kinds.len(), lists, |k| cut(probe, kinds, numbers, k))
}

/// The first shape at fault on a line that is not.
pub fn first_fault(probe: &Probe, kinds: &[u8], numbers: &[f64]) -> Option<usize> {
    (0..kinds.len()).find(|k| cut(probe, kinds, numbers, *k).is_none())
}

fn cut(probe: &Probe, kinds: &[u8], numbers: &[f64], k: usize) -> Cut {
    let number = |at: usize| numbers.get(at).copied().unwrap_or(f64::NAN);
    match kinds[k] {
        axis @ 0..=2 => half_space(probe, usize::from(axis), number(6 * k)),
        BOX => solid_box(probe, [0, 1, 2, 3, 4, 5].map(|j| number(6 * k + j))),
        _ => None,
    }
}

/// Balls beside one line.
pub fn cross_balls(numbers: &[i32], lists: &mut LineLists) -> Result<[usize; 2], Refused> {
    if numbers.len() > 1024 {
        return Err((18, 256));
    }
    gather(18, numbers.len().div_ceil(4), lists, |k| ball(numbers.get(4 * k..4 * k + 4)?))
}

fn gather(refusal: u8, count: usize, lists: &mut LineLists, cut: impl Fn(usize) -> Cut) -> Result<[usize; 2], Refused> {
    let (mut starts, mut keys, mut crossings) = ([0u8; 256], [0u64; 512], 0);
    for (k, start) in starts[..count].iter_mut().enumerate() {
        let Some((inside, marks)) = cut(k) else { return Err((refusal, k)) };
        *start = u8::from(inside);
        for mark in marks.into_iter().flatten() {
            keys[crossings] = u64::from(mark) << 8 | k as u64;
            crossings += 1;
        }
    }
    enough([lists.starts.len(), lists.positions.len(), lists.shapes.len()], [count, crossings, crossings])?;
    let keys = &mut keys[..crossings];
    keys.sort_unstable();
    lists.starts[..count].copy_from_slice(&starts[..count]);
    for (position, key) in lists.positions.iter_mut().zip(keys.iter()) {
        *position = ((key >> 8) as i64 - 2147483648) as i32;
    }
    for (shape, key) in lists.shapes.iter_mut().zip(keys.iter()) {
        *shape = (key & 255) as u16;
    }
    Ok([count, crossings])
}

fn half_space(probe: &Probe, axis: usize, face: f64) -> Cut {
    let (origin, component) = (probe.origin[axis], probe.direction[axis]);
    if !face.is_finite() {
        return None;
    }
    if component == 0.0 {
        return Some((origin < face, [None; 2]));
    }
    Some((component > 0.0, [Some(mark(face, origin, component)?), None]))
}

fn solid_box(probe: &Probe, numbers: [f64; 6]) -> Cut {
    let [a, b, c, d, e, f] = numbers;
    let pairs = [(a, d), (b, e), (c, f)];
    if pairs.iter().any(|(low, high)| !(low.is_finite() && high.is_finite() && low < high)) {
        return None;
    }
    let (mut missed, mut enter, mut leave) = (false, 0, u32::MAX);
    for (axis, (low, high)) in pairs.into_iter().enumerate() {
        let (origin, component) = (probe.origin[axis], probe.direction[axis]);
        if component == 0.0 {
            missed |= !(low < origin && origin < high);
            continue;
        }
        let (first, second) = (mark(low, origin, component)?, mark(high, origin, component)?);
        enter = enter.max(first.min(second));
        leave = leave.min(first.max(second));
    }
    Some((false, if enter < leave && !missed { [Some(enter), Some(leave)] } else { [None; 2] }))
}

/// The mark of a face's position: the nearest whole number, halves to even, from the bits.
fn mark(face: f64, origin: f64, component: f64) -> Option<u32> {
    let bits = ((face - origin) / component * 1000.0).to_bits();
    let field = bits >> 52 & 0x7FF;
    let size = match field {
        0..=1021 => 0,
        1022..=1053 => {
            let (digits, below) = (bits & 0xF_FFFF_FFFF_FFFF | 1 << 52, 1075 - field);
            let (whole, rest, half) = (digits >> below, digits & ((1 << below) - 1), 1 << (below - 1));
            whole + u64::from(rest > half || rest == half && whole & 1 == 1)
        }
        _ => 1 << 31,
    };
    match bits >> 63 {
        0 if size <= 2147483646 => Some((2147483648 + size) as u32),
        1 if size <= 2147483647 => Some((2147483648 - size) as u32),
        _ => None,
    }
}

fn ball(ball: &[i32]) -> Cut {
    let &[u, v, radius, centre] = ball else { return None };
    let small = |x: i32| (-1_000_000..=1_000_000).contains(&x);
    if !(small(u) && small(v) && small(radius) && radius >= 1 && (-1_000_000_000..=1_000_000_000).contains(&centre)) {
        return None;
    }
    let squared = |x: i32| u64::from(x.unsigned_abs()) * u64::from(x.unsigned_abs());
    let half = match squared(radius).checked_sub(squared(u) + squared(v)) {
        Some(difference) => root(difference),
        None => 0,
    };
    let at = (i64::from(centre) + 2147483648) as u32;
    Some((false, if half == 0 { [None; 2] } else { [Some(at - half), Some(at + half)] }))
}

fn root(n: u64) -> u32 {
    let mut r = 1u64 << 20;
    while n < r * r {
        r = (r + n / r) / 2;
    }
    r as u32
}
