//! Lines of any numbers, as the library takes them: it numbers lines by their rows.

use crate::{Crossing, Lines, Start};
use alloc::{vec, vec::Vec};

/// Starts and crossings as the library takes them.
pub(crate) struct Numbered {
    pub(crate) numbers: Numbers,
    rows: Vec<u8>,
    lines: Vec<u32>,
    positions: Vec<i32>,
    shapes: Vec<u16>,
}

impl Numbered {
    /// For sheets of so many names, of lines that have these numbers.
    pub(crate) fn of(numbers: Numbers, names: usize, starts: &[Start], crossings: &[Crossing]) -> Numbered {
        let rows = numbers.rows(starts, names);
        let lines = numbers.rows_of(crossings.iter().map(|crossing| crossing.line));
        let positions = crossings.iter().map(|crossing| crossing.position).collect();
        let shapes = crossings.iter().map(|crossing| crossing.shape).collect();
        Numbered { numbers, rows, lines, positions, shapes }
    }

    pub(crate) fn lines(&self) -> Lines<'_> {
        Lines { rows: &self.rows, lines: &self.lines, positions: &self.positions, shapes: &self.shapes }
    }
}

/// The numbers of some lines, each once, rising: a line's row is where its number stands here.
pub(crate) struct Numbers(pub(crate) Vec<u32>);

impl Numbers {
    pub(crate) fn of(starts: &[Start], crossings: &[Crossing]) -> Numbers {
        let mut numbers: Vec<u32> = crossings.chunk_by(|before, here| before.line == here.line).map(|one| one[0].line).collect();
        numbers.extend(starts.iter().map(|start| start.line));
        numbers.sort_unstable();
        numbers.dedup();
        Numbers(numbers)
    }

    pub(crate) fn has(&self, line: u32) -> bool {
        self.0.binary_search(&line).is_ok()
    }

    /// One line more, which is not there yet.
    pub(crate) fn add(&mut self, line: u32) {
        self.0.insert(self.row(line), line);
    }

    fn row(&self, line: u32) -> usize {
        self.0.partition_point(|number| *number < line)
    }

    /// The row of each of these lines. They mostly come by rising number, so it is mostly the row of the one before, or the next.
    pub(crate) fn rows_of(&self, lines: impl Iterator<Item = u32>) -> Vec<u32> {
        let mut row = 0;
        let here = |line: u32| {
            let is_its = |row: usize| self.0.get(row) == Some(&line);
            row = if is_its(row) { row } else { Some(row + 1).filter(|next| is_its(*next)).unwrap_or_else(|| self.row(line)) };
            row as u32
        };
        lines.map(here).collect()
    }

    /// A byte a shape, a row a line. A shape that no name has makes a byte that is neither 0 nor 1, for the library to refuse.
    pub(crate) fn rows(&self, starts: &[Start], names: usize) -> Vec<u8> {
        let mut rows = vec![0; self.0.len() * names];
        for start in starts {
            let (row, shape) = (self.row(start.line) * names, usize::from(start.shape));
            match shape < names {
                true => rows[row + shape] |= 1,
                false => rows[row] |= 2,
            }
        }
        rows
    }
}
