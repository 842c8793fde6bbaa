//! The lines of a file in blocks, so that memory does not grow with it.

use super::pieces::Pieces;
use super::progress::Progress;
use crate::drawing::{Line, LineReader};
use crate::faults::Faults;
use crate::files::Source;
use crate::stop::Stop;

/// So many start bytes of a block for each thread: few enough for a processor's cache, and more than a line has.
const MOST_BYTES: usize = 1 << 17;

/// Whoever is given lines, block by block.
pub trait Takes {
    /// Judges a line once it is read, or changes it.
    fn judge(&mut self, line: &mut Line) -> Result<(), String>;

    fn take(&mut self, lines: &[Line]) -> Result<(), Stop>;
}

/// A file of lines.
pub struct Blocks<'a> {
    source: Source<'a>,
    pieces: Pieces<'a>,
}

impl<'a> Blocks<'a> {
    pub fn of(source: Source<'a>) -> Result<Blocks<'a>, Stop> {
        Ok(Blocks { source, pieces: Pieces::of(source)? })
    }

    /// Gives all lines of the file, of which each has so many start bytes, in blocks that so many threads share. Where a row is wrong no more
    /// lines are given, and the others are looked at for more of it.
    pub fn give(mut self, names: usize, threads: usize, to: &mut impl Takes) -> Result<(), Stop> {
        let (mut reader, mut progress, mut faults) = (LineReader::default(), Progress::begin(), Faults::default());
        let (in_a_block, mut done) = ((MOST_BYTES / names.max(1)).max(1) * threads, 0);
        while let Some(piece) = self.pieces.next()? {
            let lines = match reader.read(piece.before, &piece.text, |line| to.judge(line)) {
                Ok(lines) => lines,
                Err(wrong) => {
                    let good_heading = LineReader::default().read(0, self.pieces.heading(), |_| Ok(())).is_ok();
                    match faults.add_all(wrong) && good_heading {
                        true => continue,
                        false => break,
                    }
                }
            };
            for block in lines.chunks(in_a_block).take_while(|_| faults.is_empty()) {
                to.take(block)?;
                done += block.len() as u64;
                progress.at(done);
            }
        }
        faults.or(()).map_err(|faults| self.source.wrong(faults))
    }
}
