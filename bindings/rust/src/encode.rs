//! Sheets from names and a formula, and back. Whatever is written is read by the proved reader before it is given.

use crate::{read, Formula, Refusal, Sheets, Which};
use alloc::vec::Vec;

/// The edition of a sheet.
///
/// ```
/// use kressedach::{encode, formula, Edition, Formula};
/// let sheet = encode(&["A"], &Formula::shape(0), Edition::Two)?;
/// assert_eq!(formula(&sheet)?.0, Edition::Two);
/// # Ok::<(), kressedach::Refusal>(())
/// ```
#[derive(Debug, Clone, Copy, PartialEq, Eq, Hash)]
pub enum Edition {
    /// Edition 1, in which an operation stands after its operands.
    One = 1,
    /// Edition 2, in which it stands before them.
    Two = 2,
}

/// The sheet that has these names and this formula: the k-th name, from 0, names shape k.
///
/// ```
/// use kressedach::{encode, Edition, Formula};
/// let sheet = encode(&["Block", "Bore"], &Formula::shape(0).difference(Formula::shape(1)), Edition::One)?;
/// assert_eq!(sheet, b"\x01\0\x02\0\x01\x02\0\x05Block\x02\0\x04Bore\x03\0\x06\0\0\0\x01\xFF\xF2");
/// assert_eq!(kressedach::names(&sheet)?, ["Block", "Bore"]);
///
/// // shape 1 has no name; the place is in the sheet that would have been
/// let refusal = encode(&["Block"], &Formula::shape(1), Edition::One).unwrap_err();
/// assert_eq!(refusal.to_string(), "refused 7 at byte 16 of the customer's sheet: the formula is wrong");
/// # Ok::<(), kressedach::Refusal>(())
/// ```
///
/// # Errors
///
/// As [`read`](crate::read()), of the bytes that would have been given.
pub fn encode<N: AsRef<[u8]>>(names: &[N], formula: &Formula, edition: Edition) -> Result<Vec<u8>, Refusal> {
    encoded(None, names, formula, edition)
}

/// The same beside a fittings sheet: its shapes are numbered first, and the k-th name, from 0, is that many further on.
///
/// ```
/// use kressedach::{encode_beside, encode_fittings, Edition, Formula, Sheets};
/// let fittings = encode_fittings(&["Lug"])?;
/// let sheet = encode_beside(&fittings, &["Plate"], &Formula::shape(1).union(Formula::shape(0)), Edition::Two)?;
/// assert_eq!(kressedach::names(Sheets::beside(&fittings, &sheet))?, ["Lug", "Plate"]);
/// # Ok::<(), kressedach::Refusal>(())
/// ```
///
/// # Errors
///
/// As [`read`](crate::read()), of both sheets.
pub fn encode_beside<N: AsRef<[u8]>>(fittings: &[u8], names: &[N], formula: &Formula, edition: Edition) -> Result<Vec<u8>, Refusal> {
    encoded(Some(fittings), names, formula, edition)
}

/// The fittings sheet that has these names.
///
/// ```
/// assert_eq!(kressedach::encode_fittings(&["lug"])?, b"\x01\0\x02\0\x01\x02\0\x03lug");
/// # Ok::<(), kressedach::Refusal>(())
/// ```
///
/// # Errors
///
/// As [`read_fittings`], of the bytes that would have been given.
pub fn encode_fittings<N: AsRef<[u8]>>(names: &[N]) -> Result<Vec<u8>, Refusal> {
    let bytes = named(names, Edition::One);
    read_fittings(&bytes)?;
    Ok(bytes)
}

/// Reads a fittings sheet by itself, or says why it is none.
///
/// ```
/// assert_eq!(kressedach::read_fittings(b"\x01\0\x02\0\x01\x02\0\x03lug\x02\0\x04boss")?, ["lug", "boss"]);
/// let refusal = kressedach::read_fittings(b"\x01\0\x02\0\x01").unwrap_err();
/// assert_eq!(refusal.to_string(), "refused 1 at byte 5 of the fittings sheet: the sheet ends too soon");
/// # Ok::<(), kressedach::Refusal>(())
/// ```
///
/// # Errors
///
/// 1 to 6, in the fittings sheet.
pub fn read_fittings(fittings: &[u8]) -> Result<Vec<&str>, Refusal> {
    // the fittings sheet is judged first, so a refusal of the empty sheet beside it says that it is good
    match read(Sheets::beside(fittings, b"")) {
        Err(refusal) if refusal.sheet == Some(Which::Fittings) => Err(refusal),
        _ => Ok(names_from(fittings, 5)),
    }
}

/// The names of a good fittings sheet from a tag on.
fn names_from(fittings: &[u8], tag: usize) -> Vec<&str> {
    let mut rest = fittings.get(tag..).unwrap_or_default();
    let mut names = Vec::new();
    while let [2, high, low, after @ ..] = rest {
        let (name, others) = after.split_at(after.len().min(usize::from(u16::from_be_bytes([*high, *low]))));
        names.push(core::str::from_utf8(name).unwrap_or_default());
        rest = others;
    }
    names
}

/// The formula of a sheet, and its edition.
///
/// ```
/// use kressedach::{formula, Edition, Formula};
/// let sheet = b"\x01\0\x02\0\x02\x02\0\x01A\x02\0\x01B\x04\0\x06\xFF\xF2\0\0\0\x01";
/// assert_eq!(formula(sheet)?, (Edition::Two, Formula::shape(0).difference(Formula::shape(1))));
/// # Ok::<(), kressedach::Refusal>(())
/// ```
///
/// # Errors
///
/// As [`read`](crate::read()).
pub fn formula<'a>(sheets: impl Into<Sheets<'a>>) -> Result<(Edition, Formula), Refusal> {
    let sheets = sheets.into();
    let bytes = sheets.part(2, read(sheets)?.formula);
    let codes = bytes.chunks_exact(2).map(|two| u16::from_be_bytes([two[0], two[1]])).collect();
    // the header's last byte is the edition
    Ok(match sheets.customers.get(4) {
        Some(2) => (Edition::Two, Formula::of_codes_first(codes)),
        _ => (Edition::One, Formula::of_codes(codes)),
    })
}

fn encoded<N: AsRef<[u8]>>(fittings: Option<&[u8]>, names: &[N], formula: &Formula, edition: Edition) -> Result<Vec<u8>, Refusal> {
    let mut bytes = named(names, edition);
    let (tag, codes) = match edition {
        Edition::One => (3, formula.codes().to_vec()),
        Edition::Two => (4, formula.codes_first()),
    };
    field(&mut bytes, tag, &codes.iter().flat_map(|code| code.to_be_bytes()).collect::<Vec<u8>>());
    read(Sheets { fittings, customers: &bytes })?;
    Ok(bytes)
}

/// A header and names.
fn named<N: AsRef<[u8]>>(names: &[N], edition: Edition) -> Vec<u8> {
    let mut bytes = Vec::new();
    field(&mut bytes, 1, &[0, edition as u8]);
    names.iter().for_each(|name| field(&mut bytes, 2, name.as_ref()));
    bytes
}

/// A length that two bytes do not hold is written as the greatest that they do: that is too long for any field, and refused.
fn field(bytes: &mut Vec<u8>, tag: u8, content: &[u8]) {
    bytes.push(tag);
    bytes.extend(u16::try_from(content.len()).unwrap_or(u16::MAX).to_be_bytes());
    bytes.extend(content);
}
