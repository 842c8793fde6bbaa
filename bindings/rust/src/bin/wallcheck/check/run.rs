//! Lines in blocks: each is crossed, classified and written, and nothing is kept of it but what a summary counts.

use super::blocks::Takes;
use super::directions::Lengths;
use super::faces::face;
use super::solids::{Solids, Spare};
use crate::answer::Waiting;
use crate::drawing::Line;
use crate::files::{Files, Source};
use crate::stop::Stop;
use crate::wall_table::{WallTable, Wanted};
use kressedach::{classify_into, in_parts, Lines, Shape, Wall, WallLists};
use std::io::Write;

/// By what lines are judged.
pub struct Judged<'a> {
    pub files: &'a Files<'a>,
    pub names: &'a [&'a str],
    pub solids: Solids<'a>,
    /// The half-spaces and boxes that the formula uses, each with the number of its name.
    pub used: Vec<(u16, Shape)>,
    /// How many threads share the lines of a block.
    pub threads: usize,
}

/// Lines on their way to walls.
pub struct Run<'a> {
    by: &'a Judged<'a>,
    wanted: Wanted,
    lengths: Lengths,
    shapes: Source<'a>,
    lines: Source<'a>,
    waiting: Waiting,
    table: WallTable<'a>,
    seen: Seen,
    spare: Spare,
    text: Vec<u8>,
}

impl Takes for Run<'_> {
    fn judge(&mut self, line: &mut Line) -> Result<(), String> {
        self.lengths.judge(line)
    }

    /// The walls of a block of lines, written.
    fn take(&mut self, lines: &[Line]) -> Result<(), Stop> {
        for part in in_parts(self.by.threads, lines, |lines| self.walls(lines).map(|walls| (lines, walls))) {
            let (lines, walls) = part?;
            for wall in walls {
                let line = &lines[wall.line as usize];
                self.table.put(&mut self.text, &Wall { line: line.number, ..wall }, Some(&line.probe));
            }
        }
        self.seen.lines += lines.len() as u64;
        if self.wanted.summary {
            self.look_at(lines);
        }
        self.waiting.write_all(&self.text).map_err(|e| self.waiting.wrong(e))?;
        self.text.clear();
        Ok(())
    }
}

/// What was seen of lines.
#[derive(Default)]
struct Seen {
    lines: u64,
    in_a_face: u64,
    first_in_a_face: Option<String>,
}

impl<'a> Run<'a> {
    pub fn of(
        by: &'a Judged<'a>,
        wanted: Wanted,
        lengths: Lengths,
        (shapes, lines): (Source<'a>, Source<'a>),
        waiting: Waiting,
    ) -> Run<'a> {
        let table = WallTable::of(wanted, by.names);
        let text = wanted.heading().into_bytes();
        Run { by, wanted, lengths, shapes, lines, waiting, table, seen: Seen::default(), spare: Spare::default(), text }
    }

    /// The walls of lines, by their places among them.
    fn walls(&self, lines: &[Line]) -> Result<Vec<Wall>, Stop> {
        self.spare.lend(|block| {
            self.by.solids.cross(lines, block).map_err(|fault| fault.stop(self.shapes, self.lines))?;
            self.walls_of(block.lines(), lines.len())
        })
    }

    /// The walls of so many lines that were crossed.
    fn walls_of(&self, crossed: Lines, lines: usize) -> Result<Vec<Wall>, Stop> {
        let room = crossed.lines.len() / 2 + lines;
        let mut lists = WallLists {
            lines: &mut vec![0; room],
            starts: &mut vec![0; room],
            ends: &mut vec![0; room],
            start_shapes: &mut vec![0; room],
            end_shapes: &mut vec![0; room],
        };
        let classified = classify_into(self.by.files.sheets(), crossed, &mut lists);
        let count = classified.map_err(|refusal| self.by.files.refused_or(self.lines, refusal, None))?;
        let wall = |k: usize| Wall {
            line: lists.lines[k],
            start: lists.starts[k],
            end: lists.ends[k],
            start_shape: lists.start_shapes[k],
            end_shape: lists.end_shapes[k],
        };
        Ok((0..count).map(wall).collect())
    }

    /// Counts the lines that lie in a face of a shape that the formula uses.
    fn look_at(&mut self, lines: &[Line]) {
        for line in lines {
            let mut faces = self.by.used.iter().filter_map(|(name, shape)| Some((name, face(&line.probe, shape)?)));
            if let Some((name, face)) = faces.next() {
                self.seen.in_a_face += 1;
                let first = || format!(" (the first is line {}, in {face} of {})", line.number, self.by.names[usize::from(*name)]);
                self.seen.first_in_a_face.get_or_insert_with(first);
            }
        }
    }

    /// What is written, the exit status, and what is said on standard error.
    pub fn end(mut self) -> Result<(Waiting, u8, String), Stop> {
        self.waiting.write_all(&self.text).map_err(|e| self.waiting.wrong(e))?;
        let (seen, mut said) = (&self.seen, String::new());
        if let Some(divided) = self.lengths.said() {
            said += &format!("wallcheck: {}: {divided}\n", self.lines.shown());
        }
        if self.wanted.summary {
            let in_a_face = format!("{}{}", seen.in_a_face, seen.first_in_a_face.as_deref().unwrap_or_default());
            said += &self.table.summary(seen.lines, &format!("lines that lie in a face: {in_a_face}\n"));
        }
        Ok((self.waiting, self.table.status(), said))
    }
}
