//! A drawing's lines, many at once: what the job for one line (document 02, K4) gives for each, one after another, as the lists that
//! classifying takes (K3).

use crate::crossings::{cross, Probe, Shapes};
use crate::{enough, refuse, Refused};

/// What lines have of some shapes: a row a line, with a byte a shape, and the crossings, each a line's number, a position and a shape's
/// number.
#[derive(Debug, Clone, PartialEq, Eq)]
pub struct CrossedLines {
    pub lines: usize,
    pub rows: Vec<u8>,
    pub crossings: Vec<(u32, i32, u16)>,
}

/// A refusal, and the number of the line that it is of; 0 where it is of none.
#[derive(Debug, Clone, Copy, PartialEq, Eq)]
pub struct LineRefused {
    pub refused: Refused,
    pub line: usize,
}

/// The job, on six numbers a line: origin, direction. Rows, lines, positions, shapes are its answer lists. "16, place 256, for more than 256
/// shapes, also with no line; 14, place 0, for more than 4294967296 lines; then line by line 16. Then 9 for rows, lines, positions, shapes."
pub fn cross_many(lines: &[f64], shapes: Shapes, rooms: [usize; 4]) -> Result<CrossedLines, LineRefused> {
    let of_line = |line| move |refused| LineRefused { refused, line };
    let each = lines.chunks(6);
    if shapes.kinds.len() > 256 {
        return refuse(16, 256).map_err(of_line(0));
    }
    if each.len() > 4294967296 {
        return refuse(14, 0).map_err(of_line(0));
    }
    let mut all = CrossedLines { lines: each.len(), rows: Vec::new(), crossings: Vec::new() };
    for (line, numbers) in each.enumerate() {
        let crossed = cross(probe(numbers), shapes, [usize::MAX; 3]).map_err(of_line(line))?;
        all.rows.extend(crossed.starts);
        all.crossings.extend(crossed.crossings.into_iter().map(|(position, shape)| (line as u32, position, shape)));
    }
    let needed = all.crossings.len();
    enough(rooms, [all.rows.len(), needed, needed, needed]).map_err(of_line(0))?;
    Ok(all)
}

/// "A line begun counts, and a number that it lacks is not finite."
fn probe(numbers: &[f64]) -> Probe {
    let number = |at: usize| numbers.get(at).copied().unwrap_or(f64::NAN);
    Probe { origin: [number(0), number(1), number(2)], direction: [number(3), number(4), number(5)] }
}
