//! The move to the other edition.

use crate::call::call;
use crate::{refusal, Refusal, Sheets};
#[cfg(feature = "alloc")]
use alloc::{vec, vec::Vec};

/// The customer's sheet in the edition that it has not, beside a fittings sheet where there is one. The header's edition, the formula's
/// tag and the order of its codes change, and no other byte. A sheet without exclusive unions, moved again, is the same bytes as before;
/// one with them moves to edition 1 alone.
///
/// ```
/// let sheet = b"\x01\0\x02\0\x01\x02\0\x01A\x02\0\x01B\x03\0\x06\0\0\0\x01\xFF\xF2";
/// let moved = kressedach::move_sheet(sheet)?;
/// assert_eq!(moved, b"\x01\0\x02\0\x02\x02\0\x01A\x02\0\x01B\x04\0\x06\xFF\xF2\0\0\0\x01");
/// assert_eq!(kressedach::move_sheet(&moved)?, sheet);
/// # Ok::<(), kressedach::Refusal>(())
/// ```
///
/// # Errors
///
/// 1 to 7 and 17 as [`read`](crate::read()), then 19, place the first 0xFFF3 of a sheet of edition 1.
#[cfg(feature = "alloc")]
pub fn move_sheet<'a>(sheets: impl Into<Sheets<'a>>) -> Result<Vec<u8>, Refusal> {
    let sheets = sheets.into();
    let mut moved = vec![0; sheets.customers.len()];
    move_into(sheets, &mut moved)?;
    Ok(moved)
}

/// Moves the customer's sheet to the other edition, into a list of bytes, which stays as it was past the sheet's length; gives that length.
///
/// ```
/// let sheet = b"\x01\0\x02\0\x01\x02\0\x01A\x03\0\x02\0\0";
/// let mut moved = [9; 15];
/// assert_eq!(kressedach::move_into(sheet, &mut moved), Ok(14));
/// assert_eq!(&moved, b"\x01\0\x02\0\x02\x02\0\x01A\x04\0\x02\0\0\x09");
/// ```
///
/// # Errors
///
/// 1 to 7 and 17 as [`read`](crate::read()), 19 at the first 0xFFF3 of a sheet of edition 1, then 9, place the sheet's length.
#[inline]
pub fn move_into<'a>(sheets: impl Into<Sheets<'a>>, moved: &mut [u8]) -> Result<usize, Refusal> {
    let r = call!(kressedach_move: sheets sheets.into(), writes moved);
    refusal::unless(r.number, r.sheet, r.place, r.length)
}
