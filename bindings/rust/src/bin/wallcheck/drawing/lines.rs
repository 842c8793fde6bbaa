//! The lines of a drawing, from CSV.

use super::numbers::{Decimals, Numbers};
use crate::csv;
use crate::faults::Faults;
use crate::lists;
use kressedach::{Ball, Probe};

pub const LINE: [&str; 7] = ["line", "x", "y", "z", "dx", "dy", "dz"];

/// A line: its number, its row in the file, where it goes; and its origin in micrometres where that is whole.
pub struct Line {
    pub number: u32,
    pub row: usize,
    pub probe: Probe,
    pub origin: [Option<i64>; 3],
}

/// Reads the lines of a file, part by part.
#[derive(Default)]
pub struct LineReader {
    /// The number of the line before.
    last: Option<u32>,
    decimals: Decimals,
}

impl LineReader {
    /// The lines of a part with its heading, before which so many rows of the file stand; each is judged, or changed, once it is read.
    pub fn read(
        &mut self,
        before: usize,
        text: &str,
        mut judged: impl FnMut(&mut Line) -> Result<(), String>,
    ) -> Result<Vec<Line>, Faults> {
        let due = LINE.join(",");
        let (heading, rows) = csv::headed_after(before, text, &due)?;
        let places = LINE.map(|column| heading.place(column));
        if heading.fields.len() != LINE.len() || places.contains(&None) {
            return Err(heading.wrong(&due).into());
        }
        let (places, mut lines) = (places.map(Option::unwrap_or_default), Vec::new());
        rows.each(&heading, |row, fields| {
            let field = |at: usize| fields[places[at]].as_ref();
            let number = lists::number(field(0), "line")?;
            if let Some(before) = self.last.replace(number).filter(|before| *before >= number) {
                return Err(format!("line {number} comes after line {before}"));
            }
            let mut numbers = Numbers { row, separator: heading.separator, decimals: &mut self.decimals };
            let mut both = |at: usize| numbers.real_and_micrometres(LINE[at], field(at));
            let [(x, a), (y, b), (z, c)] = [both(1)?, both(2)?, both(3)?];
            let [(dx, _), (dy, _), (dz, _)] = [both(4)?, both(5)?, both(6)?];
            let mut line = Line { number, row, probe: Probe { origin: [x, y, z], direction: [dx, dy, dz] }, origin: [a, b, c] };
            judged(&mut line)?;
            lines.push(line);
            Ok(())
        })?;
        Ok(lines)
    }
}

impl Line {
    /// The axis to which it is parallel, with a direction of length 1.
    pub fn along(&self) -> Option<usize> {
        let direction = self.probe.direction;
        (0..3).find(|axis| (0..3).all(|other| direction[other].abs() == if other == *axis { 1.0 } else { 0.0 }))
    }

    /// A ball as the line has it, which is parallel to an axis. What is too large for the library is out of every range.
    pub fn ball(&self, centre: [i64; 3], radius: i64) -> Result<Ball, String> {
        let wrong = |what: &str| format!("row {}: {what}", self.row);
        let parallel = "where there are balls, a line has 1 or -1 in one of dx, dy, dz and 0 in the others";
        let along = self.along().ok_or_else(|| wrong(parallel))?;
        let [Some(x), Some(y), Some(z)] = self.origin else {
            return Err(wrong("where there are balls, x, y and z are in whole micrometres, with three decimals at most"));
        };
        let off = |axis: usize| [x, y, z][axis].saturating_sub(centre[axis]);
        let number = |wide: i64| i32::try_from(wide).unwrap_or(i32::MAX);
        let forward = off(along).saturating_neg();
        let centre = if self.probe.direction[along] > 0.0 { forward } else { off(along) };
        Ok(Ball { offsets: [off((along + 1) % 3), off((along + 2) % 3)].map(number), radius: number(radius), centre: number(centre) })
    }
}
