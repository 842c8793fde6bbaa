//! The crossings of a drawing's shapes with lines, block by block.

use crate::answer::{Answer, Waiting};
use crate::asked::Asked;
use crate::check::blocks::{Blocks, Takes};
use crate::check::directions::Others;
use crate::check::solids::{Solids, Spare};
use crate::csv;
use crate::drawing::{Drawing, Fault, Line};
use crate::files::Source;
use crate::shown;
use crate::stop::{say, Stop};
use crate::threads;
use kressedach::{in_parts, Lines};
use std::io::Write;

pub fn cross(asked: &Asked) -> Result<Answer, Stop> {
    let (shapes, lines, threads) = (asked.file(0), asked.file(1), threads::asked(asked)?);
    let (text, blocks) = (shapes.text()?, Blocks::of(lines)?);
    let drawing = Drawing::of(&text).map_err(|wrong| shapes.wrong(wrong))?;
    let mut crossing = Crossing::of(&drawing, asked.has("--starts"), threads, (shapes, lines), Waiting::begin(asked.output()));
    blocks.give(drawing.solids.len(), threads, &mut crossing)?;
    crossing.end().map(Answer::waited)
}

/// Lines on their way to crossings, or to the shapes in which they start.
struct Crossing<'a> {
    drawing: &'a Drawing,
    solids: Solids<'a>,
    starts: bool,
    threads: usize,
    shapes: Source<'a>,
    lines: Source<'a>,
    waiting: Waiting,
    /// The shapes' labels, each with the row's end.
    labels: Vec<Vec<u8>>,
    spare: Spare,
    text: Vec<u8>,
    lengths: Others,
    /// The first line that starts in a shape and that shape, and how many lines do.
    inside: Option<(u32, usize)>,
    inside_lines: u64,
    /// Why there are no crossings. What is wrong with a row is said first, so the rows after it are read all the same.
    refused: Option<Stop>,
}

impl Takes for Crossing<'_> {
    fn judge(&mut self, line: &mut Line) -> Result<(), String> {
        self.lengths.look_at(line);
        Ok(())
    }

    fn take(&mut self, lines: &[Line]) -> Result<(), Stop> {
        if self.refused.is_some() {
            return Ok(());
        }
        for part in in_parts(self.threads, lines, |lines| self.part(lines)) {
            match part {
                Ok(part) => self.put(part),
                Err(fault) => {
                    self.refused = Some(fault.stop(self.shapes, self.lines));
                    return Ok(());
                }
            }
        }
        self.waiting.write_all(&self.text).map_err(|e| self.waiting.wrong(e))?;
        self.text.clear();
        Ok(())
    }
}

/// What some of the lines have: rows; the first of them that starts in a shape and that shape, and how many do.
#[derive(Default)]
struct Part {
    text: Vec<u8>,
    inside: Option<(u32, usize)>,
    inside_lines: u64,
}

impl<'a> Crossing<'a> {
    fn of(drawing: &'a Drawing, starts: bool, threads: usize, (shapes, lines): (Source<'a>, Source<'a>), waiting: Waiting) -> Crossing<'a> {
        let columns = if starts { "line" } else { "line,position" };
        Crossing {
            drawing,
            solids: Solids::as_drawn(drawing),
            starts,
            threads,
            shapes,
            lines,
            waiting,
            labels: drawing.labels.iter().map(|label| (csv::quoted(label).into_owned() + "\n").into_bytes()).collect(),
            spare: Spare::default(),
            text: format!("{columns},{}\n", drawing.by).into_bytes(),
            lengths: Others::default(),
            inside: None,
            inside_lines: 0,
            refused: None,
        }
    }

    fn part(&self, lines: &[Line]) -> Result<Part, Fault> {
        self.spare.lend(|block| {
            self.solids.cross(lines, block)?;
            let mut part = Part::default();
            self.put_starts(lines, block.lines(), &mut part);
            if !self.starts {
                self.put_crossings(lines, block.lines(), &mut part.text);
            }
            Ok(part)
        })
    }

    fn put(&mut self, part: Part) {
        self.text.extend(part.text);
        self.inside = self.inside.or(part.inside);
        self.inside_lines += part.inside_lines;
    }

    /// Counts the lines that start in shapes, and puts them behind the text where they are asked for.
    fn put_starts(&self, lines: &[Line], crossed: Lines, part: &mut Part) {
        // mostly there is none: rows are looked at together first
        if crossed.rows.iter().fold(0, |any, start| any | start) == 0 {
            return;
        }
        for (line, row) in lines.iter().zip(crossed.rows.chunks_exact(self.labels.len())) {
            let mut inside = row.iter().zip(0..).filter(|(start, _)| **start == 1).map(|(_, shape)| shape).peekable();
            part.inside_lines += u64::from(inside.peek().is_some());
            part.inside = part.inside.or(inside.peek().map(|shape| (line.number, *shape)));
            for shape in inside.filter(|_| self.starts) {
                csv::put(&mut part.text, line.number.into());
                part.text.push(b',');
                part.text.extend_from_slice(&self.labels[shape]);
            }
        }
    }

    fn put_crossings(&self, lines: &[Line], crossed: Lines, text: &mut Vec<u8>) {
        for ((line, position), shape) in crossed.lines.iter().zip(crossed.positions).zip(crossed.shapes) {
            csv::put(text, lines[*line as usize].number.into());
            text.push(b',');
            csv::put(text, (*position).into());
            text.push(b',');
            text.extend_from_slice(&self.labels[usize::from(*shape)]);
        }
    }

    /// What is written; and what is worth a word is said.
    fn end(mut self) -> Result<Waiting, Stop> {
        if let Some(refused) = self.refused {
            return Err(refused);
        }
        self.waiting.write_all(&self.text).map_err(|e| self.waiting.wrong(e))?;
        if let Some(lengths) = self.lengths.said() {
            say(&format!("wallcheck: {}: {lengths}\n", self.lines.shown()));
        }
        if let Some((line, shape)) = self.inside.filter(|_| !self.starts) {
            say(&self.starts_said(line, shape));
        }
        Ok(self.waiting)
    }

    /// That lines start in shapes: without their starts what lies there would be air.
    fn starts_said(&self, line: u32, shape: usize) -> String {
        let label = shown::quoted(&self.drawing.labels[shape]);
        let others = match self.inside_lines {
            1 => String::new(),
            many => format!(", and {many} lines in all start in shapes"),
        };
        let why = "'walls' needs what 'cross --starts' gives, by its --starts; 'check' uses it by itself";
        format!("wallcheck: {}: line {line} starts in {label}{others}: {why}\n", self.lines.shown())
    }
}
