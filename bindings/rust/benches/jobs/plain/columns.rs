//! Lines as columns: a column is a crossing, or the start of a line that has a shape inside there. Each turns its shapes from itself to its
//! line's last column, so that lines do not touch each other.

use super::walls::Lines;

/// Columns that a block holds: so many words of 64.
pub const WORDS: usize = 8;
pub const BLOCK: usize = 64 * WORDS;
type Bits = [u64; WORDS];

/// Stands for a line's start among the columns.
pub const START: u16 = 65535;

const TOP: u64 = 1 << 63;

/// All bytes, one over the other: 0 if every line starts in air, more than 1 if a byte is neither 0 nor 1.
pub fn over(rows: &[u8]) -> u8 {
    rows.iter().fold(0, |all, byte| all | byte)
}

/// Which columns a block has.
pub struct Block {
    /// The block's first crossing.
    pub first: usize,
    /// Each column's crossing, counted from the first; or a start.
    pub which: [u16; BLOCK],
    /// The line of each start.
    pub starts: [u32; BLOCK],
    /// A bit a column: is it its line's last?
    pub lasts: Bits,
    pub columns: usize,
}

impl Default for Block {
    fn default() -> Block {
        Block { first: 0, which: [0; BLOCK], starts: [0; BLOCK], lasts: [u64::MAX; WORDS], columns: 0 }
    }
}

impl Block {
    /// Does its last line go on in the next block?
    pub fn goes_on(&self) -> bool {
        self.columns == BLOCK && self.lasts[WORDS - 1] & TOP == 0
    }
}

/// The next crossing, and the next row with a shape inside, or the number of rows.
#[derive(Clone, Copy)]
pub struct Cursor {
    crossing: usize,
    row: usize,
}

/// The columns of a call. Where every line starts in air, rows are not looked at.
pub struct Columns<'a> {
    l: Lines<'a>,
    names: usize,
    count: usize,
    air: bool,
}

impl<'a> Columns<'a> {
    pub fn of(names: usize, l: Lines<'a>, air: bool) -> Columns<'a> {
        Columns { l, names, count: l.rows.len() / names, air }
    }

    pub fn first(&self) -> Cursor {
        Cursor { crossing: 0, row: if self.air { self.count } else { self.inside_from(0) } }
    }

    pub fn done(&self, at: Cursor) -> bool {
        at.crossing == self.l.lines.len() && at.row == self.count
    }

    /// The first row from one on with a shape inside, or the number of rows.
    fn inside_from(&self, row: usize) -> usize {
        let rest = self.l.rows[row * self.names..].chunks_exact(self.names);
        row + rest.take_while(|row| over(row) == 0).count()
    }

    /// The columns of the block that begins at a cursor; gives where the next one begins. A full block of crossings alone is cut at the last
    /// line's end in its last word, if there is one.
    pub fn plan(&self, block: &mut Block, from: Cursor) -> Cursor {
        (block.first, block.lasts, block.columns) = (from.crossing, [0; WORDS], 0);
        let mut at = from;
        loop {
            at.crossing = self.plan_crossings(block, at);
            if block.columns == BLOCK && at.row == from.row && block.lasts[WORDS - 1] != 0 {
                let beyond = block.lasts[WORDS - 1].leading_zeros() as usize;
                block.columns -= beyond;
                at.crossing -= beyond;
                return at;
            }
            if block.columns == BLOCK || at.row == self.count {
                return at;
            }
            let column = block.columns;
            (block.which[column], block.starts[column]) = (START, at.row as u32);
            let alone = self.l.lines.get(at.crossing).map_or(true, |line| *line as usize != at.row);
            block.lasts[column / 64] |= u64::from(alone) << (column % 64);
            block.columns += 1;
            at.row = self.inside_from(at.row + 1);
        }
    }

    /// The crossings of lines before the next start, as far as the block goes; gives the next one.
    fn plan_crossings(&self, block: &mut Block, at: Cursor) -> usize {
        let rest = &self.l.lines[at.crossing..];
        let rest = &rest[..rest.len().min(BLOCK - block.columns)];
        let run = if at.row == self.count { rest.len() } else { rest.iter().take_while(|line| (**line as usize) < at.row).count() };
        for (which, k) in block.which[block.columns..block.columns + run].iter_mut().zip(at.crossing - block.first..) {
            *which = k as u16;
        }
        let (mut k, end) = (at.crossing, at.crossing + run);
        while k < end {
            let (word, bit) = (block.columns / 64, block.columns % 64);
            let some = (64 - bit).min(end - k);
            block.lasts[word] |= ends(self.l.lines, k, some) << bit;
            block.columns += some;
            k += some;
        }
        end
    }

    /// Each shape's bits over a block: is it inside after each column, on that column's line?
    pub fn fill(&self, rows: &mut [Bits], block: &Block, goes_on: bool) {
        match goes_on {
            false => rows.fill([0; WORDS]),
            true => {
                let head = head(block.lasts[0]);
                for row in rows.iter_mut() {
                    *row = [spread(row[WORDS - 1]) & head, 0, 0, 0, 0, 0, 0, 0];
                }
            }
        }
        for word in 0..block.columns.div_ceil(64) {
            if word > 0 && block.lasts[word - 1] & TOP == 0 {
                self.go_on(rows, block, word);
            }
            self.lay(rows, block, word);
        }
    }

    /// The columns of a word, each turning its shapes from itself to its line's last column in the word.
    fn lay(&self, rows: &mut [Bits], block: &Block, word: usize) {
        let columns = 64 * word..block.columns.min(64 * word + 64);
        let (mut on, mut lasts) = (u64::MAX, block.lasts[word] | TOP);
        let (first, end) = (usize::from(block.which[columns.start]), usize::from(block.which[columns.end - 1]));
        if end < BLOCK && first + columns.len() == end + 1 {
            // no start among them
            for shape in &self.l.shapes[block.first + first..=block.first + end] {
                rows[usize::from(*shape)][word] ^= (lasts ^ (lasts - 1)) & on;
                on <<= 1;
                lasts &= on;
            }
            return;
        }
        for column in columns {
            self.turn(rows, block, column, word, (lasts ^ (lasts - 1)) & on);
            on <<= 1;
            lasts &= on;
        }
    }

    /// A line that goes on into a word: its columns are repeated if it begins in the word before, else the states there are carried, and
    /// always where the names are few.
    fn go_on(&self, rows: &mut [Bits], block: &Block, word: usize) {
        let (before, head) = (block.lasts[word - 1], head(block.lasts[word]));
        if rows.len() > 32 && before != 0 {
            for column in 64 * word - before.leading_zeros() as usize..64 * word {
                self.turn(rows, block, column, word, head);
            }
            return;
        }
        for row in rows {
            row[word] = spread(row[word - 1]) & head;
        }
    }

    /// What a column turns, turned at these bits of a word.
    fn turn(&self, rows: &mut [Bits], block: &Block, column: usize, word: usize, bits: u64) {
        if block.which[column] != START {
            let shape = self.l.shapes[block.first + usize::from(block.which[column])];
            rows[usize::from(shape)][word] ^= bits;
            return;
        }
        let from = block.starts[column] as usize * self.names;
        let row = &self.l.rows[from..from + self.names];
        for (rows, bytes) in rows.chunks_mut(32).zip(row.chunks(32)) {
            match woven(bytes) {
                Some(0) => {}
                Some(one) if one & (one - 1) == 0 => {
                    let bit = one.trailing_zeros() as usize;
                    rows[bit / 8 + bit % 8 * 8][word] ^= bits;
                }
                _ => {
                    for (row, byte) in rows.iter_mut().zip(bytes) {
                        row[word] ^= bits * u64::from(*byte);
                    }
                }
            }
        }
    }
}

/// Of so many crossings, which are their line's last: a bit each, eight at once.
fn ends(lines: &[u32], from: usize, count: usize) -> u64 {
    if from + count == lines.len() {
        return 1 << (count - 1) | if count > 1 { ends(lines, from, count - 1) } else { 0 };
    }
    let (here, next) = (&lines[from..from + count], &lines[from + 1..from + 1 + count]);
    let mut bits = 0;
    for (k, (here, next)) in here.chunks(8).zip(next.chunks(8)).enumerate() {
        let eight = match (<[u32; 8]>::try_from(here), <[u32; 8]>::try_from(next)) {
            (Ok(here), Ok(next)) => (0..8).fold(0, |eight, j| eight | u64::from(here[j] != next[j]) << j),
            _ => here.iter().zip(next).enumerate().fold(0, |some, (j, (here, next))| some | u64::from(here != next) << j),
        };
        bits |= eight << (8 * k);
    }
    bits
}

/// The columns of a word from its first to its first line's last, or to the word's end.
fn head(lasts: u64) -> u64 {
    let lasts = lasts | TOP;
    lasts ^ (lasts - 1)
}

/// 32 bytes, each 0 or 1, in one word: byte j + 8 i is bit 8 j + i.
fn woven(bytes: &[u8]) -> Option<u64> {
    let bytes = <&[u8; 32]>::try_from(bytes).ok()?;
    let eight = |i: usize| <[u8; 8]>::try_from(&bytes[8 * i..8 * i + 8]).map(u64::from_le_bytes).ok();
    Some(eight(0)? | eight(1)? << 1 | eight(2)? << 2 | eight(3)? << 3)
}

/// Throughout what the last bit is.
fn spread(word: u64) -> u64 {
    (word as i64 >> 63) as u64
}
