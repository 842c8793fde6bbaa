//! "The sheet" and "Order of reading", K7's fittings sheet and K10's edition 2: refusals 1 to 7 and 17. And K10's move.

use crate::formula::{Formula, Op};
use crate::{refuse, Refused};
use std::collections::HashSet;

/// The sheets of a call: the customer's, and the fittings sheet where there is one.
#[derive(Debug, Clone, Copy, PartialEq, Eq)]
pub struct Sheets<'a> {
    pub fittings: Option<&'a [u8]>,
    pub own: &'a [u8],
}

impl<'a> Sheets<'a> {
    /// The customer's sheet alone.
    pub fn alone(own: &'a [u8]) -> Sheets<'a> {
        Sheets { fittings: None, own }
    }
}

#[derive(Debug, Clone, PartialEq, Eq)]
pub struct Sheet {
    /// The customer's edition, 1 or 2.
    pub edition: u8,
    /// The joined names: the fittings' first, the customer's after them.
    pub names: Vec<Vec<u8>>,
    pub formula: Formula,
    /// How many leaves the formula has.
    pub leaves: usize,
    /// The formula's first offset in the customer's sheet.
    pub first: usize,
    /// The offset past its end.
    pub past: usize,
}

/// A sheet and how far it is read.
struct Reader<'a> {
    bytes: &'a [u8],
    at: usize,
}

impl<'a> Reader<'a> {
    /// The next bytes: are they all there, else 1.
    fn take(&mut self, count: usize) -> Result<&'a [u8], Refused> {
        let there = self.bytes.get(self.at..self.at + count);
        self.at += count;
        there.map_or_else(|| refuse(1, self.bytes.len()), Ok)
    }

    /// The tag of the next field.
    fn tag(&mut self) -> Result<u8, Refused> {
        Ok(self.take(1)?[0])
    }

    /// The length of a field, high byte first.
    fn length(&mut self) -> Result<usize, Refused> {
        let two = self.take(2)?;
        Ok(usize::from(two[0]) << 8 | usize::from(two[1]))
    }
}

/// "The fittings sheet is judged first", then the customer's. "A place in 1 to 7 or 17 says which sheet."
pub fn read(sheets: Sheets) -> Result<Sheet, Refused> {
    let fittings = match sheets.fittings {
        Some(bytes) => fittings(bytes).map_err(|refused| Refused { sheet: 1, ..refused })?,
        None => Vec::new(),
    };
    own(fittings, sheets.own).map_err(|refused| Refused { sheet: 2, ..refused })
}

/// "A header and names, 1 to 256, with no formula": "it must end after its names; ending before the first name is 1". It "stays at
/// edition 1 beside either".
fn fittings(bytes: &[u8]) -> Result<Vec<Vec<u8>>, Refused> {
    let mut reader = Reader { bytes, at: 0 };
    header(&mut reader, &[1])?;
    let mut names: Vec<Vec<u8>> = Vec::new();
    while reader.at < bytes.len() || names.is_empty() {
        let tag = reader.at;
        if reader.tag()? != 2 {
            return refuse(2, tag);
        }
        if names.len() == 256 {
            return refuse(6, tag);
        }
        let name = name(&mut reader, tag)?;
        if names.iter().any(|other| other == name) {
            return refuse(5, tag);
        }
        names.push(name.to_vec());
    }
    Ok(names)
}

/// The customer's sheet. "17, a customer's name equal to a fitting's, stands directly after 5; 6 counts both sheets' names together."
fn own(mut names: Vec<Vec<u8>>, bytes: &[u8]) -> Result<Sheet, Refused> {
    let mut reader = Reader { bytes, at: 0 };
    let edition = header(&mut reader, &[1, 2])?;
    let fittings: HashSet<Vec<u8>> = names.iter().cloned().collect();
    let mut taken = HashSet::new();
    loop {
        let tag = reader.at;
        match reader.tag()? {
            2 if names.len() == 256 => return refuse(6, tag),
            2 => {
                let name = name(&mut reader, tag)?;
                if !taken.insert(name) {
                    return refuse(5, tag);
                }
                if fittings.contains(name) {
                    return refuse(17, tag);
                }
                names.push(name.to_vec());
            }
            // "Tag 4 under edition 1 or tag 3 under edition 2 is 2."
            kind if kind == formula_tag(edition) && !taken.is_empty() => {
                let codes = codes(&mut reader, tag)?;
                let formula = match edition {
                    1 => judge(&codes, names.len(), tag)?,
                    _ => judge_first(&codes, names.len(), tag)?,
                };
                if reader.at < bytes.len() {
                    return refuse(2, reader.at);
                }
                let leaves = formula.leaves().len();
                return Ok(Sheet { edition, names, formula, leaves, first: tag + 3, past: reader.at });
            }
            _ => return refuse(2, tag),
        }
    }
}

/// "For tag 3, tag 4."
fn formula_tag(edition: u8) -> u8 {
    match edition {
        1 => 3,
        _ => 4,
    }
}

/// "Tag 1, once and first: length 2, the edition", one of those that may stand there.
fn header(reader: &mut Reader, editions: &[u8]) -> Result<u8, Refused> {
    if reader.tag()? != 1 {
        return refuse(2, 0);
    }
    if reader.length()? != 2 {
        return refuse(3, 0);
    }
    match reader.take(2)? {
        [0, edition] if editions.contains(edition) => Ok(*edition),
        _ => refuse(3, 0),
    }
}

/// "A name of 1 to 32 bytes, each 0x21 to 0x7E."
fn name<'a>(reader: &mut Reader<'a>, tag: usize) -> Result<&'a [u8], Refused> {
    let length = reader.length()?;
    if length == 0 || length > 32 {
        return refuse(4, tag);
    }
    let name = reader.take(length)?;
    if name.iter().any(|byte| *byte < 0x21 || *byte > 0x7E) {
        return refuse(4, tag);
    }
    Ok(name)
}

/// The formula's codes. "Longer than 4094 is 6; of odd or no length is 7."
fn codes(reader: &mut Reader, tag: usize) -> Result<Vec<u16>, Refused> {
    let length = reader.length()?;
    if length > 4094 {
        return refuse(6, tag);
    }
    if length == 0 || length % 2 != 0 {
        return refuse(7, tag);
    }
    Ok(reader.take(length)?.chunks(2).map(|two| u16::from(two[0]) << 8 | u16::from(two[1])).collect())
}

/// "Codes are judged left to right", and the formula that they stand for.
fn judge(codes: &[u16], names: usize, tag: usize) -> Result<Formula, Refused> {
    let mut waiting = Vec::new();
    for (k, code) in codes.iter().enumerate() {
        if usize::from(*code) < names {
            waiting.push(Formula::Shape(*code));
            continue;
        }
        let (Some(op), Some(right), Some(left)) = (Op::of_code(*code), waiting.pop(), waiting.pop()) else {
            return refuse(7, tag + 3 + 2 * k);
        };
        waiting.push(Formula::node(op, left, right));
    }
    match <[Formula; 1]>::try_from(waiting) {
        Ok([formula]) => Ok(formula),
        Err(_) => refuse(7, tag),
    }
}

/// Edition 2: "7 for a code after the formula is complete (place that code) and for one that ends incomplete (place the tag)". An
/// unknown code, as in edition 1, is 7 at that code.
fn judge_first(codes: &[u16], names: usize, tag: usize) -> Result<Formula, Refused> {
    let place = |k: usize| tag + 3 + 2 * k;
    // Of each operation that waits for operands: itself, and its left operand once that is there.
    let mut waiting: Vec<(Op, Option<Formula>)> = Vec::new();
    let mut complete = None;
    for (k, code) in codes.iter().enumerate() {
        if complete.is_some() {
            return refuse(7, place(k));
        }
        if usize::from(*code) >= names {
            let Some(op) = Op::of_code(*code) else {
                return refuse(7, place(k));
            };
            waiting.push((op, None));
            continue;
        }
        let mut operand = Formula::Shape(*code);
        complete = loop {
            match waiting.pop() {
                None => break Some(operand),
                Some((op, None)) => {
                    waiting.push((op, Some(operand)));
                    break None;
                }
                Some((op, Some(left))) => operand = Formula::node(op, left, operand),
            }
        };
    }
    complete.map_or_else(|| refuse(7, tag), Ok)
}

/// A sheet in the other edition: the header's value, the formula's tag and the order of its codes change, and nothing else.
pub fn moved(sheet: &Sheet, bytes: &[u8]) -> Vec<u8> {
    let (edition, codes) = match sheet.edition {
        1 => (2, sheet.formula.codes_first()),
        _ => (1, sheet.formula.codes()),
    };
    let mut moved = bytes[..sheet.first].to_vec();
    moved[4] = edition;
    moved[sheet.first - 3] = formula_tag(edition);
    moved.extend(codes.into_iter().flat_map(u16::to_be_bytes));
    moved
}
