//! A list that is read some rows at a time, so that memory does not grow with it.

use crate::files::Source;
use crate::stop::Stop;
use std::io::Read;

/// How many bytes are read at once; and no row is longer than this.
const SIZE: usize = 1 << 18;
const LONGEST_ROW: usize = 1 << 20;

/// A list, piece by piece.
pub struct Pieces<'a> {
    source: Source<'a>,
    from: Box<dyn Read>,
    size: usize,
    /// What was read and not given yet.
    held: Vec<u8>,
    ended: bool,
    /// How many rows were given.
    rows: usize,
    heading: Option<String>,
}

/// Some whole rows of a list below its heading, and how many rows of the file stand before them all, the heading left out.
pub struct Piece {
    pub text: String,
    pub before: usize,
}

impl<'a> Pieces<'a> {
    pub fn of(source: Source<'a>) -> Result<Pieces<'a>, Stop> {
        // for tests, whose lists are short
        let size = std::env::var("WALLCHECK_PIECE").ok().and_then(|size| size.parse().ok()).unwrap_or(SIZE);
        Ok(Pieces { source, from: source.reader()?, size, held: vec![], ended: false, rows: 0, heading: None })
    }

    /// The next piece. The first one is given even if it is empty, for whoever judges the heading.
    pub fn next(&mut self) -> Result<Option<Piece>, Stop> {
        let (mut rows, mut before) = (self.whole_rows()?, self.rows);
        while self.heading.is_none() && !self.ended && rows.iter().all(|byte| b" \t\r\n,;\"\xEF\xBB\xBF".contains(byte)) {
            self.rows += count(&rows);
            (rows, before) = (self.whole_rows()?, self.rows);
        }
        if rows.is_empty() && self.heading.is_some() {
            return Ok(None);
        }
        self.rows += count(&rows);
        let Some(heading) = &self.heading else {
            let text = self.source.text_of(rows)?;
            let heading = text.lines().find(|line| line.bytes().any(|letter| letter.is_ascii_alphanumeric()));
            self.heading = Some(heading.unwrap_or_default().to_string() + "\n");
            return Ok(Some(Piece { text, before }));
        };
        let mut text = heading.clone();
        match std::str::from_utf8(&rows) {
            Ok(rows) => text += rows,
            Err(e) => return Err(self.source.wrong(format!("row {}: is not text in UTF-8", before + 1 + count(&rows[..e.valid_up_to()])))),
        }
        Ok(Some(Piece { text, before: before - 1 }))
    }

    /// The heading, once the first piece is given.
    pub fn heading(&self) -> &str {
        self.heading.as_deref().unwrap_or_default()
    }

    /// Rows with their ends; of a last one the end may be missing.
    fn whole_rows(&mut self) -> Result<Vec<u8>, Stop> {
        loop {
            let due = self.size.max(1);
            let got = self.from.by_ref().take(due as u64).read_to_end(&mut self.held).map_err(|e| self.source.wrong(e.to_string()))?;
            self.ended = got < due;
            let end = self.held.iter().rposition(|byte| *byte == b'\n').map_or(0, |last| last + 1);
            if self.ended {
                return Ok(std::mem::take(&mut self.held));
            }
            if end > 0 {
                let rest = self.held.split_off(end);
                return Ok(std::mem::replace(&mut self.held, rest));
            }
            if self.held.len() > LONGEST_ROW {
                return Err(self.source.wrong(format!("row {}: longer than {LONGEST_ROW} bytes", self.rows + 1)));
            }
        }
    }
}

fn count(bytes: &[u8]) -> usize {
    bytes.iter().filter(|byte| **byte == b'\n').count()
}
