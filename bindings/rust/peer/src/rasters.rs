//! Many lines for one drawing, made from a seed. A line differs from the one before it on some axes and keeps the others, as on a grid.

use crate::crossings::Probe;
use crate::drawings::{self, component, length, next_down, next_up, EXTREME};
use crate::make::Dice;

/// Lines, six numbers each, and the shapes that they go through.
#[derive(Debug, Clone)]
pub struct Raster {
    pub lines: Vec<f64>,
    pub kinds: Vec<u8>,
    pub numbers: Vec<f64>,
}

/// A number's sign is changed, that of a zero too; or it becomes the next number up or down.
fn nudged(dice: &mut Dice, x: f64) -> f64 {
    dice.of_these(&[-x, next_up(x), next_down(x)])
}

/// The origin's number on an axis, after the one of the line before.
fn next_origin(dice: &mut Dice, before: f64) -> f64 {
    match dice.below(6) {
        0 => dice.of_these(&[0.0, -0.0]),
        1 => before + 0.5,
        2 => nudged(dice, before),
        _ => Some(length(dice)).filter(|x| x.abs() < 1e5).unwrap_or(0.25),
    }
}

/// The direction's number on an axis, after the one of the line before.
fn next_component(dice: &mut Dice, before: f64) -> f64 {
    match dice.below(6) {
        0 | 1 => dice.of_these(&[0.0, -0.0]),
        2 => nudged(dice, before),
        3 => dice.of_these(&[1.0, -1.0, 0.5]),
        _ => Some(component(dice)).filter(|x| x.abs() > 1e-3).unwrap_or(-2.0),
    }
}

/// The line after this one. Mostly one axis changes; now and then none does, or all do.
fn next(dice: &mut Dice, before: &Probe, home: &Probe) -> Probe {
    let mut probe = *before;
    let axis = dice.below(3);
    match dice.below(12) {
        0 => {}
        1 => probe = *home,
        2..=6 => probe.origin[axis] = next_origin(dice, before.origin[axis]),
        7 | 8 => probe.direction[axis] = next_component(dice, before.direction[axis]),
        9 => {
            probe.origin[axis] = next_origin(dice, before.origin[axis]);
            probe.direction[axis] = next_component(dice, before.direction[axis]);
        }
        10 => probe.origin = before.origin.map(|x| next_origin(dice, x)),
        _ => probe.direction = before.direction.map(|x| next_component(dice, x)),
    }
    if probe.direction == [0.0; 3] {
        probe.direction[axis] = 1.0;
    }
    probe
}

/// A line with one number that is extreme, or with no direction.
fn damaged(dice: &mut Dice, mut probe: Probe) -> Probe {
    match dice.below(8) {
        axis @ 0..=2 => probe.origin[axis] = dice.of_these(&EXTREME),
        axis @ 3..=5 => probe.direction[axis - 3] = dice.of_these(&EXTREME),
        _ => probe.direction = [0; 3].map(|_| dice.of_these(&[0.0, -0.0])),
    }
    probe
}

fn numbers(probes: &[Probe]) -> Vec<f64> {
    probes.iter().flat_map(|probe| [probe.origin, probe.direction]).flatten().collect()
}

/// The line that the others come from: mostly with no component so small that a face near by has no position.
fn home(dice: &mut Dice) -> Probe {
    let mut probe = drawings::probe(dice);
    if !dice.once_in(5) {
        probe.direction.iter_mut().filter(|c| **c != 0.0 && c.abs() < 1e-3).for_each(|c| *c = 0.5f64.copysign(*c));
    }
    probe
}

/// Lines and shapes: a third of them with a line or two that are damaged, now and then with a last line that is only begun.
pub fn raster(dice: &mut Dice) -> Raster {
    let home = home(dice);
    let shapes = match dice.below(80) {
        0 => dice.of_these(&[255, 256, 257, 300]),
        1 | 2 => dice.of_these(&[0, 31, 32, 33, 63, 64, 65]),
        _ => dice.size(24),
    };
    let (kinds, faces) = drawings::so_many_shapes(dice, &home, shapes);
    let count = if dice.once_in(60) { 0 } else { dice.size(40) };
    let mut probes = vec![home; count];
    for k in 1..count {
        probes[k] = next(dice, &probes[k - 1], &home);
    }
    if dice.once_in(3) && count > 0 {
        for _ in 0..1 + dice.below(2) {
            let k = dice.below(count);
            probes[k] = damaged(dice, probes[k]);
        }
    }
    let mut lines = numbers(&probes);
    if dice.once_in(30) {
        lines.truncate(lines.len().saturating_sub(1 + dice.below(7)));
    }
    Raster { lines, kinds, numbers: faces }
}

/// So many shapes and lines of which nothing is at fault: a plate with ribs on a square grid, where `half_every` is not 0 every so many-th
/// a half-space instead; and a line through each point of a grid of `side` points a side, along the third axis or aslant.
pub fn plate(shapes: usize, half_every: usize, side: usize, aslant: bool) -> Raster {
    let grid = (1..).find(|grid| grid * grid >= shapes).unwrap_or(1);
    let (step, rib) = (160.0 / grid as f64, 130.0 / grid as f64);
    let mut raster = Raster { lines: Vec::new(), kinds: Vec::new(), numbers: Vec::new() };
    for k in 0..shapes {
        let (x, y) = ((k % grid) as f64 * step, (k / grid) as f64 * step);
        let (kind, six) = if half_every > 0 && (k + 1) % half_every == 0 {
            ((k / half_every % 3) as u8, [x, f64::NAN, 0.0, 0.0, 0.0, 0.0])
        } else if k == 0 {
            (255, [-5.0, -5.0, 5.0, 165.0, 165.0, 15.0])
        } else {
            (255, [x, y, 0.0, x + rib, y + rib, 20.0 + (k % 7) as f64])
        };
        raster.kinds.push(kind);
        raster.numbers.extend(six);
    }
    let direction = if aslant { [0.3, 0.2, 0.93] } else { [0.0, 0.0, 1.0] };
    let at = |k: usize| -10.0 + 180.0 * k as f64 / side as f64;
    let probes: Vec<Probe> = (0..side * side).map(|k| Probe { origin: [at(k % side), at(k / side), -100.0], direction }).collect();
    raster.lines = numbers(&probes);
    raster
}

/// The same shapes, and as many lines anywhere and aslant in any way: none keeps an axis of the one before it.
pub fn scattered(shapes: usize, half_every: usize, side: usize) -> Raster {
    let (dice, mut raster) = (&mut Dice::of(18, shapes as u64), plate(shapes, half_every, side, true));
    for line in raster.lines.chunks_mut(6) {
        let mut anywhere = |least: f64, most: f64| least + (most - least) * dice.below(1 << 30) as f64 / f64::from(1 << 30);
        line.copy_from_slice(&[anywhere(-10.0, 170.0), anywhere(-10.0, 170.0), -100.0, anywhere(0.1, 0.4), anywhere(0.1, 0.4), 1.0]);
        (line[2], line[5]) = (anywhere(-110.0, -90.0), anywhere(0.8, 1.0));
    }
    raster
}
