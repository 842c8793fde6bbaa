//! The lines: start rows and crossings, refusals 10, 11 and 13 to 15, and the walls.

use crate::formula::Formula;
use crate::{refuse, Refused};

/// Start rows and the three lists of crossings as they come, of any lengths.
#[derive(Debug, Clone, Copy)]
pub struct Crossings<'a> {
    pub rows: &'a [u8],
    pub lines: &'a [u32],
    pub positions: &'a [i32],
    pub shapes: &'a [u16],
}

#[derive(Debug, Clone, Copy, PartialEq, Eq)]
pub struct Crossing {
    pub line: u32,
    pub position: i32,
    pub shape: u16,
}

#[derive(Debug, Clone, Copy, PartialEq, Eq)]
pub struct Wall {
    pub line: u32,
    pub start: i32,
    pub end: i32,
    pub start_shape: u16,
    pub end_shape: u16,
}

/// 13, then 14, then 10, 15 and 11 item by item.
pub fn judge(names: usize, lists: Crossings) -> Result<Vec<Crossing>, Refused> {
    let count = lists.lines.len();
    if lists.positions.len() != count || lists.shapes.len() != count {
        return refuse(13, 0);
    }
    let rows = (lists.rows.len() / names) as u64;
    if lists.rows.len() % names != 0 || rows > 4294967296 || lists.rows.iter().any(|byte| *byte != 0 && *byte != 1) {
        return refuse(14, 0);
    }
    let all: Vec<Crossing> =
        (0..count).map(|k| Crossing { line: lists.lines[k], position: lists.positions[k], shape: lists.shapes[k] }).collect();
    for (index, here) in all.iter().enumerate() {
        if usize::from(here.shape) >= names {
            return refuse(10, index);
        }
        if here.position == -2147483648 || here.position == 2147483647 || u64::from(here.line) >= rows {
            return refuse(15, index);
        }
        let falls = |before: Crossing| here.line < before.line || here.line == before.line && here.position < before.position;
        if index > 0 && falls(all[index - 1]) {
            return refuse(11, index);
        }
    }
    Ok(all)
}

/// A position of a line: the lowest shape whose state differs before and after it, and whether there is metal after it.
/// The end marks are positions too; "an open end's shape is 65535".
struct Position {
    at: i32,
    shape: u16,
    metal: bool,
}

fn positions(formula: &Formula, row: &[u8], line: &[Crossing]) -> Vec<Position> {
    let mut inside: Vec<bool> = row.iter().map(|byte| *byte == 1).collect();
    let mut all = vec![Position { at: -2147483648, shape: 65535, metal: formula.inside(&inside) }];
    for together in line.chunk_by(|a, b| a.position == b.position) {
        let before = inside.clone();
        together.iter().for_each(|crossing| inside[usize::from(crossing.shape)] ^= true);
        let changed = (0..row.len()).find(|shape| before[*shape] != inside[*shape]);
        all.push(Position { at: together[0].position, shape: changed.unwrap_or(65535) as u16, metal: formula.inside(&inside) });
    }
    all.push(Position { at: 2147483647, shape: 65535, metal: false });
    all
}

/// "A wall is a longest stretch of positive length inside": the stretches between neighbouring positions that are inside, joined where
/// they touch. "Each wall gains the shape at its start and at its end." "Lines are numbered by their rows, and a line may have no crossing."
pub fn walls(formula: &Formula, names: usize, rows: &[u8], crossings: &[Crossing]) -> Vec<Wall> {
    let mut walls = Vec::new();
    let mut rest = crossings;
    for (number, row) in rows.chunks(names).enumerate() {
        let line = number as u32;
        let (here, later) = rest.split_at(rest.iter().take_while(|crossing| crossing.line == line).count());
        rest = later;
        let all = positions(formula, row, here);
        let mut joined: Vec<(&Position, &Position)> = Vec::new();
        for neighbours in all.windows(2).filter(|neighbours| neighbours[0].metal) {
            match joined.last_mut() {
                Some(before) if before.1.at == neighbours[0].at => before.1 = &neighbours[1],
                _ => joined.push((&neighbours[0], &neighbours[1])),
            }
        }
        walls.extend(joined.into_iter().map(|(start, end)| Wall {
            line,
            start: start.at,
            end: end.at,
            start_shape: start.shape,
            end_shape: end.shape,
        }));
    }
    walls
}
