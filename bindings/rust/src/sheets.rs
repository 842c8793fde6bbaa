//! The sheets of a call.

use core::ops::Range;

/// The sheets of a call: the customer's, alone or beside a fittings sheet.
///
/// A customer's sheet alone needs no more than a reference to its bytes: every job takes what turns into `Sheets`.
///
/// ```
/// use kressedach::Sheets;
/// let fittings = b"\x01\0\x02\0\x01\x02\0\x03lug"; // a header and names, no formula
/// let sheet = b"\x01\0\x02\0\x01\x02\0\x05block\x03\0\x06\0\0\0\x01\xFF\xF0"; // the lug is shape 0, the block shape 1
/// assert_eq!(kressedach::read(Sheets::beside(fittings, sheet))?.names, 2);
/// # Ok::<(), kressedach::Refusal>(())
/// ```
#[derive(Debug, Clone, Copy, PartialEq, Eq, Hash)]
pub struct Sheets<'a> {
    /// The fittings sheet, whose shapes are numbered first. An empty one is none of the absent ones: it is refused.
    pub fittings: Option<&'a [u8]>,
    /// The customer's sheet.
    pub customers: &'a [u8],
}

impl<'a> Sheets<'a> {
    /// A fittings sheet, and the customer's beside it.
    ///
    /// ```
    /// use kressedach::Sheets;
    /// assert_eq!(Sheets::beside(b"one", b"two"), Sheets { fittings: Some(b"one"), customers: b"two" });
    /// ```
    pub fn beside(fittings: &'a [u8], customers: &'a [u8]) -> Sheets<'a> {
        Sheets { fittings: Some(fittings), customers }
    }

    /// A part of one of them: 1 is the fittings sheet, 2 the customer's.
    pub(crate) fn part(self, sheet: u8, place: Range<usize>) -> &'a [u8] {
        let holds = if sheet == 1 { self.fittings.unwrap_or_default() } else { self.customers };
        holds.get(place).unwrap_or_default()
    }
}

impl<'a, T: AsRef<[u8]> + ?Sized> From<&'a T> for Sheets<'a> {
    fn from(customers: &'a T) -> Sheets<'a> {
        Sheets { fittings: None, customers: customers.as_ref() }
    }
}
