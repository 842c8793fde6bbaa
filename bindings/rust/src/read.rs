//! Reading sheets.

use crate::call::call;
use crate::{refusal, Refusal, Sheets};
use core::ops::Range;

/// What the sheets hold.
///
/// ```
/// let sheet = b"\x01\0\x02\0\x01\x02\0\x01A\x03\0\x02\0\0";
/// assert_eq!(kressedach::read(sheet)?, kressedach::Read { names: 1, leaves: 1, formula: 12..14 });
/// # Ok::<(), kressedach::Refusal>(())
/// ```
#[derive(Debug, Clone, PartialEq, Eq, Hash)]
pub struct Read {
    /// How many shapes have a name, those of both sheets together. Shapes are numbered from 0, the fittings' first.
    pub names: usize,
    /// How many leaves the formula has.
    pub leaves: usize,
    /// Where the formula's codes stand in the customer's sheet.
    pub formula: Range<usize>,
}

/// Reads the sheets of a call, or says why one of them is none.
///
/// ```
/// // the names A, B, C, and the formula A B C union difference: A less (B or C)
/// let sheet = b"\x01\0\x02\0\x01\x02\0\x01A\x02\0\x01B\x02\0\x01C\x03\0\x0A\0\0\0\x01\0\x02\xFF\xF0\xFF\xF2";
/// let read = kressedach::read(sheet)?;
/// assert_eq!((read.names, read.leaves), (3, 3));
/// assert_eq!(&sheet[read.formula], b"\0\0\0\x01\0\x02\xFF\xF0\xFF\xF2");
/// # Ok::<(), kressedach::Refusal>(())
/// ```
///
/// # Errors
///
/// 1 to 7 and 17, the first that is met in the order of reading, in the fittings sheet first. The repository's page `docs/SHEET.md` has that
/// order, the sheet byte by byte, and every refusal.
#[inline]
pub fn read<'a>(sheets: impl Into<Sheets<'a>>) -> Result<Read, Refusal> {
    let r = call!(kressedach_read: sheets sheets.into());
    refusal::unless(r.number, r.sheet, r.place, Read { names: r.names, leaves: r.leaves, formula: r.first..r.past })
}
