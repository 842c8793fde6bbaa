//! Asking for names.

use crate::call::call;
use crate::{refusal, Refusal, Sheets};
#[cfg(feature = "alloc")]
use alloc::vec::Vec;

/// No sheets have more names than this, both together: room for so many entries is enough for any.
///
/// ```
/// let [mut firsts, mut pasts] = [[0; kressedach::MOST_NAMES]; 2];
/// let mut lists = kressedach::NameLists { sheets: &mut [0; kressedach::MOST_NAMES], firsts: &mut firsts, pasts: &mut pasts };
/// assert_eq!(kressedach::names_into(b"\x01\0\x02\0\x01\x02\0\x01A\x03\0\x02\0\0", &mut lists), Ok(1));
/// ```
pub const MOST_NAMES: usize = 256;

/// The names of the sheets' shapes, in the order of their numbers: the fittings' first. They are equal when all their letters are.
///
/// Where they stand is what the proved library says, which reads the sheets once.
///
/// ```
/// let sheet = b"\x01\0\x02\0\x01\x02\0\x04Port\x02\0\x04PORT\x03\0\x06\0\0\0\x01\xFF\xF2";
/// let names = kressedach::names(sheet)?;
/// assert_eq!(names, ["Port", "PORT"]);
/// assert_eq!(names.iter().position(|name| *name == "PORT"), Some(1));
///
/// let refusal = kressedach::names(b"\x01\0\x02\0\x01\x02\0\x04Port\x02\0\x04Port").unwrap_err();
/// assert_eq!(refusal.to_string(), "refused 5 at byte 12 of the customer's sheet: a name that is taken already");
/// # Ok::<(), kressedach::Refusal>(())
/// ```
///
/// # Errors
///
/// As [`read`](crate::read()).
#[cfg(feature = "alloc")]
pub fn names<'a>(sheets: impl Into<Sheets<'a>>) -> Result<Vec<&'a str>, Refusal> {
    let sheets = sheets.into();
    let (mut which, mut firsts, mut pasts) = ([0; MOST_NAMES], [0; MOST_NAMES], [0; MOST_NAMES]);
    let count = names_into(sheets, &mut NameLists { sheets: &mut which, firsts: &mut firsts, pasts: &mut pasts })?;
    let stands = which.into_iter().zip(firsts).zip(pasts).take(count);
    Ok(stands.map(|((which, first), past)| core::str::from_utf8(sheets.part(which, first..past)).unwrap_or_default()).collect())
}

/// Lists that say where names stand, an entry a name, lent to [`names_into`].
///
/// ```
/// use kressedach::{names_into, NameLists};
/// let mut lists = NameLists { sheets: &mut [0; 1], firsts: &mut [0; 1], pasts: &mut [0; 1] };
/// assert_eq!(names_into(b"\x01\0\x02\0\x01\x02\0\x03lug\x03\0\x02\0\0", &mut lists)?, 1);
/// assert_eq!((lists.sheets[0], lists.firsts[0], lists.pasts[0]), (2, 8, 11));
/// # Ok::<(), kressedach::Refusal>(())
/// ```
#[derive(Debug)]
pub struct NameLists<'a> {
    /// The sheet that holds the name: 1 the fittings sheet, 2 the customer's.
    pub sheets: &'a mut [u8],
    /// The offset of its first byte in that sheet.
    pub firsts: &'a mut [usize],
    /// The offset past its last.
    pub pasts: &'a mut [usize],
}

/// Where the names of the sheets' shapes stand, into three lists; gives their number.
///
/// [`MOST_NAMES`] entries are enough for any sheets.
///
/// ```
/// use kressedach::{names_into, NameLists, Sheets};
/// let fittings = b"\x01\0\x02\0\x01\x02\0\x03lug";
/// let sheet = b"\x01\0\x02\0\x01\x02\0\x05block\x03\0\x06\0\0\0\x01\xFF\xF0";
/// let (mut sheets, mut firsts, mut pasts) = ([9; 3], [9; 3], [9; 3]);
/// let mut lists = NameLists { sheets: &mut sheets, firsts: &mut firsts, pasts: &mut pasts };
/// assert_eq!(names_into(Sheets::beside(fittings, sheet), &mut lists), Ok(2));
/// assert_eq!((sheets, firsts, pasts), ([1, 2, 9], [8, 8, 9], [11, 13, 9]));
/// ```
///
/// # Errors
///
/// 1 to 7 and 17 as [`read`](crate::read()), then 9 for the lists in their order.
#[inline]
pub fn names_into<'a>(sheets: impl Into<Sheets<'a>>, lists: &mut NameLists) -> Result<usize, Refusal> {
    let r = call!(kressedach_names: sheets sheets.into(), writes lists.sheets, writes lists.firsts, writes lists.pasts);
    refusal::unless(r.number, r.sheet, r.place, r.names)
}

/// The name of a shape: its bytes as they stand in whichever of the two sheets holds it, by the proved look-up.
///
/// ```
/// use kressedach::{name, Sheets};
/// let fittings = b"\x01\0\x02\0\x01\x02\0\x03lug";
/// let sheet = b"\x01\0\x02\0\x01\x02\0\x05block\x03\0\x06\0\0\0\x01\xFF\xF0";
/// let sheets = Sheets::beside(fittings, sheet);
/// assert_eq!((name(sheets, 0)?, name(sheets, 1)?), (&b"lug"[..], &b"block"[..]));
/// assert_eq!(name(sheets, 2).unwrap_err().to_string(), "refused 10 at entry 0: a shape number that no name has");
/// # Ok::<(), kressedach::Refusal>(())
/// ```
///
/// # Errors
///
/// 1 to 7 and 17 as [`read`](crate::read()), then 10, place 0.
pub fn name<'a>(sheets: impl Into<Sheets<'a>>, shape: usize) -> Result<&'a [u8], Refusal> {
    let sheets = sheets.into();
    let r = call!(kressedach_name: sheets sheets, is shape);
    refusal::unless(r.number, r.sheet, r.place, sheets.part(r.sheet, r.first..r.past))
}
