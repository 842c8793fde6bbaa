//! Probe lines, shapes and balls made from a seed: good, damaged and extreme ones.

use crate::crossings::Probe;
use crate::make::Dice;

/// Numbers that a drawing should not have, or that lie at an end of what there is.
pub const EXTREME: [f64; 18] = [
    f64::NAN,
    f64::INFINITY,
    f64::NEG_INFINITY,
    0.0,
    -0.0,
    5e-324,
    -5e-324,
    1e-310,
    -2.225073858507201e-308,
    f64::MIN_POSITIVE,
    f64::EPSILON,
    1e16,
    -1e16,
    9007199254740993.0,
    1e300,
    -1e300,
    f64::MAX,
    f64::MIN,
];

/// A number of a drawing: on a lattice of half micrometres, so that positions lie halfway and faces meet; or anywhere.
pub(crate) fn length(dice: &mut Dice) -> f64 {
    match dice.below(12) {
        0..=4 => (dice.below(41) as f64 - 20.0) * 0.0005,
        5..=7 => (dice.below(41) as f64 - 20.0) * 0.5,
        8 => (dice.below(200_001) as f64 - 100_000.0) * 0.001,
        9 => f64::from_bits(dice.throw() % 0x7FF0_0000_0000_0000),
        10 => dice.of_these(&EXTREME),
        _ => (dice.throw() as i64 as f64) / 2f64.powi(30 + dice.below(40) as i32),
    }
}

/// A component of a direction, of either sign.
pub(crate) fn component(dice: &mut Dice) -> f64 {
    let size = match dice.below(10) {
        0..=3 => 1.0,
        4 => 40.0,
        5 => 0.001 * (1 + dice.below(3000)) as f64,
        6 => dice.of_these(&[5e-324, 1e-310, f64::MIN_POSITIVE, 1e-9, 1e300]),
        _ => (1 + dice.below(9)) as f64,
    };
    if dice.once_in(2) {
        size
    } else {
        -size
    }
}

/// A probe line: parallel to an axis, or slanted; one in twelve with a number that is extreme, or with no direction.
pub fn probe(dice: &mut Dice) -> Probe {
    let zero = |dice: &mut Dice| dice.of_these(&[0.0, -0.0]);
    let kept = dice.below(8);
    let mut direction = [0; 3].map(|_| component(dice));
    for (axis, component) in direction.iter_mut().enumerate() {
        if kept < 3 && axis != kept || kept == 3 && dice.once_in(2) {
            *component = zero(dice);
        }
    }
    let mut origin = [0; 3].map(|_| if dice.once_in(3) { 0.0 } else { length(dice) });
    if dice.once_in(10) {
        origin = [0.0; 3];
    }
    if !dice.once_in(12) {
        origin.iter_mut().filter(|x| !x.is_finite() || x.abs() > 1e6).for_each(|x| *x = 0.25);
    } else {
        match dice.below(7) {
            axis @ 0..=2 => origin[axis] = dice.of_these(&EXTREME),
            axis @ 3..=5 => direction[axis - 3] = dice.of_these(&EXTREME),
            _ => direction = [0; 3].map(|_| zero(dice)),
        }
    }
    Probe { origin, direction }
}

/// The least number above one; that itself where there is none.
pub fn next_up(x: f64) -> f64 {
    match x.to_bits() {
        _ if x.is_nan() || x == f64::INFINITY => x,
        _ if x == 0.0 => f64::from_bits(1),
        bits if x < 0.0 => f64::from_bits(bits - 1),
        bits => f64::from_bits(bits + 1),
    }
}

/// The greatest number below one; that itself where there is none.
pub fn next_down(x: f64) -> f64 {
    -next_up(-x)
}

/// A face whose position on this axis lies within a few numbers of an end of the range, or of a half.
fn near_an_end(dice: &mut Dice, probe: &Probe, axis: usize) -> f64 {
    let end = dice.of_these(&[2147483646.0, 2147483646.5, 2147483647.0, -2147483647.0, -2147483647.5, -2147483648.0, 0.5, 1.5, -2.5]);
    let mut face = end / 1000.0 * probe.direction[axis] + probe.origin[axis];
    for _ in 0..dice.below(4) {
        face = next_up(face);
    }
    for _ in 0..dice.below(4) {
        face = next_down(face);
    }
    face
}

/// Six numbers of a shape of this kind, for a line.
fn six(dice: &mut Dice, probe: &Probe, kind: u8) -> [f64; 6] {
    if kind < 3 {
        let face = if dice.once_in(3) { near_an_end(dice, probe, usize::from(kind)) } else { length(dice) };
        return [face, f64::NAN, 0.0, f64::INFINITY, 5.0, -0.0];
    }
    let (mut lows, mut highs) = ([0.0; 3], [0.0; 3]);
    for axis in 0..3 {
        let (a, b) = match dice.below(10) {
            // around the origin, so that the line meets it
            0..=4 => {
                let width = 0.0005 * (1 + dice.below(20_000)) as f64;
                let low = probe.origin[axis] - width * dice.of_these(&[0.0, 0.25, 0.5, 1.0, -1.0]);
                (low, low + width)
            }
            5 => (near_an_end(dice, probe, axis), length(dice)),
            _ => (length(dice), length(dice)),
        };
        // now and then as it comes, which may be a low that is not below its high
        (lows[axis], highs[axis]) = if a > b && !dice.once_in(40) { (b, a) } else { (a, b) };
    }
    [lows[0], lows[1], lows[2], highs[0], highs[1], highs[2]]
}

/// Shapes for a line: a byte a shape, and six numbers a shape, now and then one list too short or too long.
pub fn shapes(dice: &mut Dice, probe: &Probe) -> (Vec<u8>, Vec<f64>) {
    let count = if dice.once_in(60) { dice.of_these(&[0, 255, 256, 257, 300]) } else { dice.size(24) };
    so_many_shapes(dice, probe, count)
}

/// So many of them.
pub fn so_many_shapes(dice: &mut Dice, probe: &Probe, count: usize) -> (Vec<u8>, Vec<f64>) {
    let mild = dice.below(4) > 0;
    let (mut kinds, mut numbers) = (Vec::new(), Vec::new());
    for _ in 0..count {
        let kind = if dice.once_in(400) { dice.of_these(&[3, 4, 127, 254]) } else { dice.of_these(&[0, 1, 2, 255, 255, 255]) };
        let mut six = six(dice, probe, kind);
        if mild {
            // nothing at fault: a box around the origin, or a face near it
            let at_fault = |x: &f64| !x.is_finite() || x.abs() > 1e5;
            if kind == 255 && (six.iter().any(at_fault) || (0..3).any(|axis| six[axis] >= six[axis + 3])) {
                six = [-1.0, -2.0, -0.5, 1.5, 2.0, 1.0];
            } else if at_fault(&six[0]) {
                six[0] = 3.0005;
            }
        }
        kinds.push(kind);
        numbers.extend(six);
    }
    match dice.below(40) {
        0 => numbers.truncate(numbers.len().saturating_sub(1 + dice.below(8))),
        1 => numbers.push(f64::NAN),
        _ => {}
    }
    (kinds, numbers)
}

/// A number of a ball: small, or at or just past an end of its range.
fn number(dice: &mut Dice, low: i32, high: i32, wild: bool) -> i32 {
    match dice.below(if wild { 7 } else { 6 }) {
        0 => dice.of_these(&[low, low + 1, high - 1, high]),
        1 => low + dice.below((i64::from(high) - i64::from(low) + 1) as usize) as i32,
        6 => dice.of_these(&[low - 1, high + 1, i32::MIN, i32::MAX]),
        _ => (dice.below(21) as i32 - 10).clamp(low, high),
    }
}

/// Two offsets and a radius for which the difference of the squares is a square, or close to one.
fn around_a_square(dice: &mut Dice) -> [i32; 3] {
    let (m, n) = (2 + dice.below(30) as i32, 1 + dice.below(29) as i32);
    let (m, n) = (m.max(n + 1), n);
    let most = 1_000_000 / (m * m + n * n);
    let k = 1 + dice.below(most as usize) as i32;
    let (leg, radius) = (2 * m * n * k, (m * m + n * n) * k);
    let near = |dice: &mut Dice, x: i32| (x + dice.of_these(&[0, 0, 0, 1, -1])).clamp(-1_000_000, 1_000_000);
    let (u, v) = (near(dice, leg), near(dice, 0));
    let (u, v) = if dice.once_in(2) { (u, v) } else { (v, -u) };
    [u, v, near(dice, radius).max(1)]
}

/// Balls for a line, four numbers a ball; now and then one that is only begun.
pub fn balls(dice: &mut Dice) -> Vec<i32> {
    let count = if dice.once_in(60) { dice.of_these(&[0, 255, 256, 257, 300]) } else { dice.size(24) };
    let wild = dice.once_in(6);
    let mut numbers = Vec::new();
    for _ in 0..count {
        let [u, v, radius] = match dice.below(3) {
            0 => around_a_square(dice),
            _ => {
                let [u, v] = [0; 2].map(|_| number(dice, -1_000_000, 1_000_000, wild));
                [u, v, number(dice, 1, 1_000_000, wild)]
            }
        };
        numbers.extend([u, v, radius, number(dice, -1_000_000_000, 1_000_000_000, wild)]);
    }
    if dice.once_in(30) {
        numbers.truncate(numbers.len().saturating_sub(1 + dice.below(3)));
    }
    numbers
}
