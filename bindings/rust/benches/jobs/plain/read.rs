//! Reading: each name is compared with the earlier ones by a key first, and letter by letter where the keys are equal.

use super::Refused;

fn two(bytes: &[u8]) -> usize {
    usize::from(bytes[0]) << 8 | usize::from(bytes[1])
}

/// The length and the first letters of a name.
fn key(name: &[u8]) -> u64 {
    let mut letters = [0; 8];
    let some = name.len().min(7);
    letters[..some].copy_from_slice(&name[..some]);
    letters[7] = name.len() as u8;
    u64::from_le_bytes(letters)
}

/// Names, leaves, the formula's first offset and the one past its end.
pub fn read(sheet: &[u8]) -> Result<(usize, usize, usize, usize), Refused> {
    own(&mut Names::none(), b"", sheet)
}

/// The same beside a fittings sheet; a refusal does not say which sheet.
pub fn read_pair(fittings: &[u8], sheet: &[u8]) -> Result<(usize, usize, usize, usize), Refused> {
    let mut names = Names::none();
    let at = names.of(b"", fittings)?;
    if at < fittings.len() {
        return Err((2, at));
    }
    if names.count == 0 {
        return Err((1, fittings.len()));
    }
    names.fitted = names.count;
    own(&mut names, fittings, sheet)
}

#[inline(always)]
fn own(names: &mut Names, fittings: &[u8], sheet: &[u8]) -> Result<(usize, usize, usize, usize), Refused> {
    let at = names.of(fittings, sheet)?;
    match sheet.get(at) {
        None => Err((1, sheet.len())),
        Some(3) if names.count > names.fitted => formula(sheet, at, names.count),
        Some(_) => Err((2, at)),
    }
}

fn header(sheet: &[u8]) -> Result<(), Refused> {
    let short = (1, sheet.len());
    match sheet {
        [] => Err(short),
        [1, 0, 2, 0, 1, ..] => Ok(()),
        [1] | [1, _] => Err(short),
        [1, 0, 2] | [1, 0, 2, _] => Err(short),
        [1, ..] => Err((3, 0)),
        _ => Err((2, 0)),
    }
}

/// The names read so far, the fittings' first: their keys, and where they start in their sheet.
struct Names {
    keys: [u64; 256],
    starts: [u16; 256],
    fitted: usize,
    count: usize,
}

impl Names {
    fn none() -> Names {
        Names { keys: [0; 256], starts: [0; 256], fitted: 0, count: 0 }
    }

    /// Reads a sheet's header and names, and gives the offset past them.
    #[inline(always)]
    fn of(&mut self, fittings: &[u8], sheet: &[u8]) -> Result<usize, Refused> {
        let short = (1, sheet.len());
        header(sheet)?;
        let (mut at, mut count) = (5, self.count);
        while let Some(2) = sheet.get(at) {
            if count == 256 {
                return Err((6, at));
            }
            let length = two(sheet.get(at + 1..at + 3).ok_or(short)?);
            if length == 0 || length > 32 {
                return Err((4, at));
            }
            let name = sheet.get(at + 3..at + 3 + length).ok_or(short)?;
            if !name.iter().all(|letter| (0x21..=0x7E).contains(letter)) {
                return Err((4, at));
            }
            let here = key(name);
            if self.keys[..count].contains(&here) {
                let taken = |sheet: &[u8], k: usize| self.keys[k] == here && &sheet[usize::from(self.starts[k])..][..length] == name;
                if (self.fitted..count).any(|k| taken(sheet, k)) {
                    return Err((5, at));
                }
                if (0..self.fitted).any(|k| taken(fittings, k)) {
                    return Err((17, at));
                }
            }
            (self.keys[count], self.starts[count]) = (here, at as u16 + 3);
            count += 1;
            at += 3 + length;
        }
        self.count = count;
        Ok(at)
    }
}

fn formula(sheet: &[u8], tag: usize, names: usize) -> Result<(usize, usize, usize, usize), Refused> {
    let short = (1, sheet.len());
    let length = two(sheet.get(tag + 1..tag + 3).ok_or(short)?);
    if length > 4094 {
        return Err((6, tag));
    }
    if length == 0 || length % 2 == 1 {
        return Err((7, tag));
    }
    let first = tag + 3;
    let (mut waiting, mut leaves) = (0usize, 0);
    for (k, code) in sheet.get(first..first + length).ok_or(short)?.chunks_exact(2).enumerate() {
        let code = two(code);
        if code < names {
            (waiting, leaves) = (waiting + 1, leaves + 1);
        } else if (0xFFF0..=0xFFF3).contains(&code) && waiting >= 2 {
            waiting -= 1;
        } else {
            return Err((7, first + 2 * k));
        }
    }
    if waiting != 1 {
        return Err((7, tag));
    }
    if sheet.len() > first + length {
        return Err((2, first + length));
    }
    Ok((names, leaves, first, first + length))
}
