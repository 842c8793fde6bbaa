//! Sheets, toggle lists, start rows and crossing lists made from a seed: good, damaged, extreme and long ones.

use crate::lines::{Crossing, Crossings};
use crate::sheet::Sheets;

/// Numbers from a seed (splitmix64).
pub struct Dice(u64);

impl Dice {
    /// The dice of one case: each case has a seed of its own, so that one that fails is found again by itself.
    pub fn of(seed: u64, case: u64) -> Dice {
        let mut dice = Dice(seed.rotate_left(32) ^ case);
        dice.throw();
        dice
    }

    pub fn throw(&mut self) -> u64 {
        self.0 = self.0.wrapping_add(0x9E37_79B9_7F4A_7C15);
        let z = (self.0 ^ (self.0 >> 30)).wrapping_mul(0xBF58_476D_1CE4_E5B9);
        let z = (z ^ (z >> 27)).wrapping_mul(0x94D0_49BB_1331_11EB);
        z ^ (z >> 31)
    }

    /// A number below n, which is not 0.
    pub fn below(&mut self, n: usize) -> usize {
        (self.throw() % n as u64) as usize
    }

    /// Once in n times, on average.
    pub fn once_in(&mut self, n: usize) -> bool {
        self.below(n) == 0
    }

    pub fn of_these<T: Copy>(&mut self, choices: &[T]) -> T {
        choices[self.below(choices.len())]
    }

    /// From 1 to most: mostly small, now and then large, and sometimes exactly the most.
    pub fn size(&mut self, most: usize) -> usize {
        match self.below(16) {
            0 => most,
            1 => 1 + self.below(most),
            2..=5 => 1 + self.below(most.min(40)),
            _ => 1 + self.below(most.min(9)),
        }
    }
}

/// How the operations of a formula hang together.
#[derive(Debug, Clone, Copy, PartialEq, Eq)]
pub enum Form {
    /// Each operation's right operand is a leaf.
    LeftChain,
    /// Each operation's left operand is a leaf.
    RightChain,
    /// One operand of each operation is a leaf, now the left one and now the right one.
    ZigZag,
    Balanced,
    /// A chain, whose other operands are balanced trees of four leaves.
    Comb,
    /// Split anywhere.
    Any,
}

impl Form {
    pub const ALL: [Form; 6] = [Form::LeftChain, Form::RightChain, Form::ZigZag, Form::Balanced, Form::Comb, Form::Any];

    /// How many of some leaves, two at least, stand in the left operand.
    fn left(self, leaves: usize, dice: &mut Dice) -> usize {
        match self {
            Form::LeftChain => leaves - 1,
            Form::RightChain => 1,
            Form::ZigZag => [1, leaves - 1][leaves % 2],
            Form::Balanced => leaves / 2,
            Form::Comb if leaves > 4 => 4,
            Form::Comb => leaves / 2,
            Form::Any => 1 + dice.below(leaves - 1),
        }
    }
}

/// A formula's codes: so many leaves in that form, shapes and operations by the dice.
pub fn codes(dice: &mut Dice, names: usize, leaves: usize, form: Form) -> Vec<u16> {
    fn put(out: &mut Vec<u16>, dice: &mut Dice, names: usize, leaves: usize, form: Form) {
        if leaves == 1 {
            return out.push(dice.below(names) as u16);
        }
        let left = form.left(leaves, dice);
        put(out, dice, names, left, form);
        put(out, dice, names, leaves - left, form);
        out.push(0xFFF0 + dice.below(4) as u16);
    }
    let mut out = Vec::new();
    put(&mut out, dice, names, leaves, form);
    out
}

/// So many different names of at most so many bytes. Many are alike but for one letter, or for its case.
pub fn names(dice: &mut Dice, count: usize, longest: usize) -> Vec<Vec<u8>> {
    let length = if count > 94 { longest.max(2) } else { longest };
    let differs = dice.below(length.min(31));
    let common = 0x21 + dice.below(94) as u8;
    let name = |k: usize| {
        let mut name = vec![common; length];
        name[differs.min(length - 1)] = 0x21 + (k % 94) as u8;
        if count > 94 {
            name[length - 1 - usize::from(differs == length - 1)] = 0x21 + (k / 94) as u8;
        }
        name
    };
    (0..count).map(name).collect()
}

/// The bytes of a fittings sheet with these names.
pub fn fittings<N: AsRef<[u8]>>(names: &[N]) -> Vec<u8> {
    let mut bytes = vec![1, 0, 2, 0, 1];
    for name in names {
        let name = name.as_ref();
        bytes.push(2);
        bytes.extend((name.len() as u16).to_be_bytes());
        bytes.extend(name);
    }
    bytes
}

/// The bytes of a sheet with these names and these codes, whatever they are.
pub fn sheet<N: AsRef<[u8]>>(names: &[N], codes: &[u16]) -> Vec<u8> {
    let mut bytes = fittings(names);
    bytes.push(3);
    bytes.extend((2 * codes.len() as u16).to_be_bytes());
    bytes.extend(codes.iter().flat_map(|code| code.to_be_bytes()));
    bytes
}

/// The same of edition 2: header value 2, tag 4.
pub fn sheet_first<N: AsRef<[u8]>>(names: &[N], codes: &[u16]) -> Vec<u8> {
    let mut bytes = sheet(names, codes);
    let tag = bytes.len() - 2 * codes.len() - 3;
    bytes[4] = 2;
    bytes[tag] = 4;
    bytes
}

/// A good sheet, and how many names it has.
pub fn good_sheet(dice: &mut Dice) -> (Vec<u8>, usize) {
    let count = dice.size(256);
    let longest = dice.size(32);
    let leaves = dice.size(1024);
    let form = dice.of_these(&Form::ALL);
    let names = names(dice, count, longest);
    let own = sheet(&names, &codes(dice, count, leaves, form));
    (in_either(dice, None, own), count)
}

/// A good sheet of edition 1, now and then in edition 2, also with exclusive unions, which no move writes there.
fn in_either(dice: &mut Dice, fittings: Option<&[u8]>, own: Vec<u8>) -> Vec<u8> {
    match dice.once_in(3) {
        true => {
            let sheet = crate::read(Sheets { fittings, own: &own }).unwrap_or_else(|refused| panic!("a good sheet: {refused:?}"));
            crate::sheet::moved(&sheet, &own)
        }
        false => own,
    }
}

/// The codes with unions for exclusive unions: those of a sheet that moves to edition 2.
pub fn without_exclusive(codes: Vec<u16>) -> Vec<u16> {
    codes.into_iter().map(|code| if code == 0xFFF3 { 0xFFF0 } else { code }).collect()
}

/// A good fittings sheet, a good sheet beside it, and how many names they have together.
pub fn good_pair(dice: &mut Dice) -> (Vec<u8>, Vec<u8>, usize) {
    let count = 1 + dice.size(255);
    let longest = dice.size(32);
    let leaves = dice.size(1024);
    let form = dice.of_these(&Form::ALL);
    let all = names(dice, count, longest);
    let (first, second) = all.split_at(1 + dice.below(count - 1));
    let (beside, own) = (fittings(first), sheet(second, &codes(dice, count, leaves, form)));
    let own = in_either(dice, Some(&beside), own);
    (beside, own, count)
}

/// A pair of any kind: a good one, one of which one sheet or both are damaged, or one just past a rule of the pair.
pub fn any_pair(dice: &mut Dice) -> (Vec<u8>, Vec<u8>) {
    let (mut beside, mut own, _) = good_pair(dice);
    match dice.below(8) {
        0 => {}
        1 => return past_the_pair(dice),
        2..=4 => damage(dice, &mut beside),
        5 => beside = any_sheet(dice),
        _ => {}
    }
    for _ in 0..dice.below(3) {
        damage(dice, &mut own);
    }
    (beside, own)
}

/// Just past a rule of the pair: names of both sheets too many or equal, or both at one name; a fittings sheet with no name or too many;
/// a sheet with no name of its own.
fn past_the_pair(dice: &mut Dice) -> (Vec<u8>, Vec<u8>) {
    let mut all = names(dice, 257, 3);
    let formula = codes(dice, 256, 2, Form::Any);
    let split = 1 + dice.below(256);
    match dice.below(6) {
        // the 257th name, new or a fitting's
        0 => (fittings(&all[..split]), sheet(&all[split..], &formula)),
        1 => {
            all[256] = all[dice.below(split)].clone();
            (fittings(&all[..split]), sheet(&all[split..], &formula))
        }
        // a name of the customer's that is a fitting's, before the 257th
        2 => {
            let split = 1 + dice.below(254);
            let at = split + dice.below(255 - split);
            all[at] = all[dice.below(split)].clone();
            (fittings(&all[..split]), sheet(&all[split..], &formula))
        }
        3 => (fittings::<Vec<u8>>(&[]), sheet(&all[..2], &[0])),
        4 => (fittings(&all), sheet(&all[..2], &[0])),
        _ => (fittings(&all[..split.min(255)]), sheet::<Vec<u8>>(&[], &[0])),
    }
}

/// A sheet of any kind: a good one, a large one just past a limit, a good one damaged in one to three places, or noise.
pub fn any_sheet(dice: &mut Dice) -> Vec<u8> {
    match dice.below(16) {
        0 => noise(dice),
        1 => past_a_limit(dice),
        2..=5 => good_sheet(dice).0,
        _ => {
            let mut bytes = good_sheet(dice).0;
            for _ in 0..dice.of_these(&[1, 1, 1, 2, 3]) {
                damage(dice, &mut bytes);
            }
            bytes
        }
    }
}

/// Bytes that look like fields, behind a part of a header.
fn noise(dice: &mut Dice) -> Vec<u8> {
    let mut bytes = vec![1, 0, 2, 0, 1];
    bytes.truncate(dice.below(10));
    for _ in 0..dice.size(64) {
        bytes.push(dice.of_these(&[0, 1, 2, 3, 4, 0x20, 0x41, 0x7E, 0x7F, 0xF3, 0xFF]));
    }
    bytes
}

fn past_a_limit(dice: &mut Dice) -> Vec<u8> {
    let names_of = |dice: &mut Dice, count, longest| names(dice, count, longest);
    match dice.below(5) {
        0 => {
            let names = names_of(dice, 257, 3);
            sheet(&names, &codes(dice, 256, 2, Form::Any))
        }
        1 => {
            let names = names_of(dice, 3, 33);
            sheet(&names, &[0])
        }
        // one leaf too many
        2 => sheet(&["A", "B"], &codes(dice, 2, 1025, Form::Any)),
        // one code more than one formula has, and an end that leaves two operands
        3 => {
            let mut longest = codes(dice, 2, 1023, Form::Any);
            longest.extend([0, 1].iter().take(1 + dice.below(2)));
            sheet(&["A", "B"], &longest)
        }
        _ => {
            let mut bytes = sheet(&["A"], &codes(dice, 1, 1024, Form::Any));
            bytes[10..12].copy_from_slice(&dice.of_these(&[4093u16, 4095, 4096, 65535, 0, 1]).to_be_bytes());
            bytes.extend([0, 0]);
            bytes
        }
    }
}

/// Changes a sheet in one place.
fn damage(dice: &mut Dice, bytes: &mut Vec<u8>) {
    if bytes.is_empty() {
        return bytes.push(1);
    }
    // the end, where the formula is, as often as all the rest
    let near_end = bytes.len() - 1 - dice.below(bytes.len().min(24));
    let at = if dice.once_in(2) { near_end } else { dice.below(bytes.len()) };
    match dice.below(10) {
        0 => bytes.truncate(at),
        1 => bytes[at] = dice.throw() as u8,
        2 => bytes[at] ^= 1 << dice.below(8),
        3 => bytes.insert(at, dice.below(4) as u8),
        4 => drop(bytes.remove(at)),
        5 => bytes.push(dice.of_these(&[0, 2, 3])),
        6 => name_again(dice, bytes),
        7 if at + 1 < bytes.len() => {
            let code = dice.of_these(&[0xFFF0, 0xFFF2, 0xFFF3, 0xFFF4, 0xFFEF, 0xFFFF, 0, 1, 2, 256, 300]);
            bytes[at..at + 2].copy_from_slice(&u16::to_be_bytes(code));
        }
        8 => {
            let at = at % 5;
            bytes[at] = dice.below(4) as u8;
        }
        _ => bytes.swap(at, 0),
    }
}

/// Puts the first name in again, as it is or in the other case, behind some other name.
fn name_again(dice: &mut Dice, bytes: &mut Vec<u8>) {
    let field_end = |bytes: &[u8], at: usize| (bytes.get(at) == Some(&2)).then(|| at + 3 + usize::from(*bytes.get(at + 2).unwrap_or(&0)));
    let Some(end) = field_end(bytes, 5).filter(|end| *end <= bytes.len()) else { return };
    let mut field = bytes[5..end].to_vec();
    if dice.once_in(4) {
        field[3..].iter_mut().for_each(|letter| *letter = if letter.is_ascii_alphabetic() { *letter ^ 0x20 } else { *letter });
    }
    let mut at = end;
    for _ in 0..dice.below(20) {
        at = field_end(bytes, at).filter(|end| *end <= bytes.len()).unwrap_or(at);
    }
    bytes.splice(at..at, field);
}

/// Toggles of shapes below the number of names.
pub fn toggles(dice: &mut Dice, names: usize, most: usize) -> Vec<u16> {
    let count = dice.size(most + 1) - 1;
    let among = if dice.once_in(2) { names } else { names.min(3) };
    (0..count).map(|_| dice.below(among) as u16).collect()
}

/// Start rows for so many lines: all in air, mostly; or few lines that start inside few shapes; or every byte by the dice, or all 1.
pub fn rows(dice: &mut Dice, names: usize, lines: usize) -> Vec<u8> {
    let mut rows = vec![0; lines * names];
    match dice.below(8) {
        0..=2 => {}
        3 | 4 => {
            for row in rows.chunks_mut(names).filter(|_| dice.once_in(4)) {
                row[0] = 1;
                row[names - 1] = 1;
            }
        }
        5 => {
            for _ in 0..lines / 2 {
                rows[dice.below(lines * names)] = 1;
            }
        }
        6 => rows.iter_mut().for_each(|byte| *byte = dice.below(2) as u8),
        _ => rows.fill(1),
    }
    rows
}

/// Changes start rows in one place: a length that is no multiple, a byte that is neither 0 nor 1, a row that is missing, no rows at all.
pub fn damage_rows(dice: &mut Dice, names: usize, rows: &mut Vec<u8>) {
    match dice.below(6) {
        0 => drop(rows.pop()),
        1 => rows.push(dice.of_these(&[0, 0, 1, 2])),
        2 | 3 if !rows.is_empty() => {
            let at = dice.of_these(&[0, rows.len() - 1, rows.len() / 2]);
            rows[at] = dice.of_these(&[2, 2, 3, 128, 255]);
        }
        4 => rows.truncate(rows.len().saturating_sub(names)),
        _ => rows.clear(),
    }
}

/// Crossings that are good: some or none on each of so many lines, so many a line at most, of any shapes. On some lines every shape is
/// crossed evenly.
pub fn crossings(dice: &mut Dice, names: usize, lines: usize, most_a_line: usize) -> Vec<Crossing> {
    const ALL: i64 = (1 << 32) - 2;
    let lowest_of_all = i64::from(i32::MIN) + 1;
    let mut all = Vec::new();
    for line in 0..lines as u32 {
        if dice.once_in(5) {
            continue;
        }
        let spread = dice.of_these(&[1, 4, 4, 30, 30, 1000, ALL]);
        let lowest = if spread == ALL { lowest_of_all } else { dice.of_these(&[0, -15, lowest_of_all, i64::from(i32::MAX) - spread]) };
        let among = if dice.once_in(2) { names } else { names.min(4) };
        let times = 1 + dice.below(2);
        let mut here = Vec::new();
        for _ in 0..dice.size(most_a_line / times) {
            let shape = dice.below(among) as u16;
            for _ in 0..times {
                here.push(Crossing { line, position: (lowest + dice.below(spread as usize) as i64) as i32, shape });
            }
        }
        here.sort_by_key(|crossing| crossing.position);
        all.extend(here);
    }
    all
}

/// Start rows and crossings, their three lists not always of one length.
#[derive(Debug, Clone, Default)]
pub struct Lines {
    pub rows: Vec<u8>,
    pub lines: Vec<u32>,
    pub positions: Vec<i32>,
    pub shapes: Vec<u16>,
}

impl Lines {
    pub fn of(rows: Vec<u8>, all: &[Crossing]) -> Lines {
        let (lines, positions) = (all.iter().map(|c| c.line), all.iter().map(|c| c.position));
        Lines { rows, lines: lines.collect(), positions: positions.collect(), shapes: all.iter().map(|c| c.shape).collect() }
    }

    pub fn lists(&self) -> Crossings<'_> {
        Crossings { rows: &self.rows, lines: &self.lines, positions: &self.positions, shapes: &self.shapes }
    }
}

/// Start rows and crossings of any kind: good, damaged in a place or two, of unequal lengths.
pub fn any_lines(dice: &mut Dice, names: usize) -> Lines {
    let (most_lines, most_a_line) = dice.of_these(&[(0, 0), (12, 40), (12, 40), (60, 4), (2, 700), (600, 2)]);
    let count = if most_lines == 0 { 0 } else { dice.size(most_lines) };
    let mut all = crossings(dice, names, count, most_a_line);
    // rows after the last line too
    let more = dice.of_these(&[0, 0, 0, 1, 70]);
    let mut rows = rows(dice, names, count + more);
    for _ in 0..dice.of_these(&[0, 0, 1, 1, 2]) {
        damage_crossings(dice, names, count + more, &mut all);
    }
    if dice.once_in(6) {
        damage_rows(dice, names, &mut rows);
    }
    let mut given = Lines::of(rows, &all);
    if dice.once_in(12) {
        match dice.below(4) {
            0 => drop(given.lines.pop()),
            1 => drop(given.positions.pop()),
            2 => drop(given.shapes.pop()),
            _ => given.shapes.push(65535),
        }
    }
    given
}

/// Changes crossings in one place. There are so many start rows.
pub fn damage_crossings(dice: &mut Dice, names: usize, rows: usize, all: &mut Vec<Crossing>) {
    if all.is_empty() {
        return all.push(Crossing { line: 0, position: 5, shape: 0 });
    }
    let at = dice.below(all.len());
    match dice.below(7) {
        0 => all[at].shape = dice.of_these(&[names as u16, 255, 256, 65535]),
        1 => all[at].position = dice.of_these(&[i32::MIN, i32::MAX]),
        2 => all[at].line = dice.of_these(&[0, rows as u32, (rows as u32).saturating_sub(1), u32::MAX, all[0].line]),
        3 => drop(all.remove(at)),
        4 => {
            let other = dice.below(all.len());
            all.swap(at, other);
        }
        5 => all[at].position = dice.of_these(&[i32::MIN + 1, i32::MAX - 1, 0]),
        _ => all[at].shape = dice.below(names) as u16,
    }
}
