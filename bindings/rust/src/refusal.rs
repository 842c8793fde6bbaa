//! Why a job gives no answer.

use core::error::Error;
use core::fmt;

/// Which of a call's two sheets.
///
/// ```
/// use kressedach::{read, Sheets, Which};
/// assert_eq!(read(b"").unwrap_err().sheet, Some(Which::Customers));
/// assert_eq!(read(Sheets::beside(b"", b"")).unwrap_err().sheet, Some(Which::Fittings));
/// ```
#[derive(Debug, Clone, Copy, PartialEq, Eq, Hash)]
pub enum Which {
    /// The fittings sheet.
    Fittings,
    /// The customer's sheet, also where it is alone.
    Customers,
}

/// The reason of a refusal, by the name that the C header has for its number.
///
/// ```
/// use kressedach::{read, Reason};
/// match read(b"\x01\0\x02\0\x01").map_err(|refusal| refusal.reason) {
///     Err(Reason::EndsTooSoon) => {}
///     other => panic!("{other:?}"),
/// }
/// ```
#[derive(Debug, Clone, Copy, PartialEq, Eq, PartialOrd, Ord, Hash)]
#[repr(u8)]
pub enum Reason {
    /// 1, place the sheet's length.
    EndsTooSoon = 1,
    /// 2, place the tag's offset, as for 3 to 6.
    TagOutOfPlace = 2,
    /// 3: the header's length or edition.
    HeaderWrong = 3,
    /// 4: a name's length, or a byte of it.
    NameWrong = 4,
    /// 5: a name that is there already.
    NameTaken = 5,
    /// 6: more than 256 names, or a formula longer than 4094 bytes.
    TooLarge = 6,
    /// 7, place the code's offset; the tag's for a wrong length or a wrong end.
    FormulaWrong = 7,
    /// 8, place 0: proved never to come.
    TooHigh = 8,
    /// 9, place the length needed.
    ListTooShort = 9,
    /// 10, place the index in the list.
    NoSuchShape = 10,
    /// 11, place the index: a line number falls, or a position within its line.
    Falls = 11,
    /// 12, given no more: a line may end in metal.
    Odd = 12,
    /// 13, place 0: lists that go together; of two foundries, the order.
    LengthsDiffer = 13,
    /// 14, place 0: start rows, or too many lines.
    RowsWrong = 14,
    /// 15, place the index: a position at an end mark, or a line with no start row.
    Astray = 15,
    /// 16, place 256 for more than 256 shapes, 65535 for the line, else the first shape at fault.
    ShapeWrong = 16,
    /// 17, place the tag's offset: a customer's name that a fitting has.
    FittingsName = 17,
    /// 18, place 256 for more than 256 balls, else the first at fault.
    BallWrong = 18,
    /// 19, place the offset in the customer's sheet of its first exclusive union.
    OutOfUse = 19,
    /// 20, place the index of the edit.
    EditWrong = 20,
}

impl Reason {
    /// All of them, by rising number.
    ///
    /// ```
    /// use kressedach::Reason;
    /// assert!(Reason::ALL.iter().map(|reason| reason.number()).eq(1..=20));
    /// ```
    pub const ALL: [Reason; 20] = [
        Reason::EndsTooSoon,
        Reason::TagOutOfPlace,
        Reason::HeaderWrong,
        Reason::NameWrong,
        Reason::NameTaken,
        Reason::TooLarge,
        Reason::FormulaWrong,
        Reason::TooHigh,
        Reason::ListTooShort,
        Reason::NoSuchShape,
        Reason::Falls,
        Reason::Odd,
        Reason::LengthsDiffer,
        Reason::RowsWrong,
        Reason::Astray,
        Reason::ShapeWrong,
        Reason::FittingsName,
        Reason::BallWrong,
        Reason::OutOfUse,
        Reason::EditWrong,
    ];

    /// Its number: 1 to 20.
    ///
    /// ```
    /// assert_eq!(kressedach::Reason::ListTooShort.number(), 9);
    /// ```
    pub const fn number(self) -> u8 {
        self as u8
    }

    /// The reason of a number, or none.
    ///
    /// ```
    /// use kressedach::Reason;
    /// assert_eq!(Reason::of_number(20), Some(Reason::EditWrong));
    /// assert_eq!((Reason::of_number(0), Reason::of_number(21)), (None, None));
    /// ```
    pub fn of_number(number: u8) -> Option<Reason> {
        Reason::ALL.get(usize::from(number).checked_sub(1)?).copied()
    }

    /// What it means, whatever its place is: the words of the column 'given when' of the table in `docs/SHEET.md`.
    ///
    /// ```
    /// assert_eq!(kressedach::Reason::NoSuchShape.meaning(), "a shape number that no name has");
    /// ```
    pub fn meaning(self) -> &'static str {
        match self {
            Reason::EndsTooSoon => "the sheet ends too soon",
            Reason::TagOutOfPlace => "a tag that is unknown or out of place",
            Reason::HeaderWrong => "the header's length or edition is wrong",
            Reason::NameWrong => "a name has a wrong length, or a byte that is not 0x21 to 0x7E",
            Reason::NameTaken => "a name that is taken already",
            Reason::TooLarge => "more than 256 names, or a formula longer than 4094 bytes",
            Reason::FormulaWrong => "the formula is wrong",
            Reason::TooHigh => "the contracted tree is higher than 57: proved never to come",
            Reason::ListTooShort => "an answer list is too short",
            Reason::NoSuchShape => "a shape number that no name has",
            Reason::Falls => "a line number falls, or a position falls within its line",
            Reason::Odd => "given no more: a shape crossed an odd number of times on a line",
            Reason::LengthsDiffer => {
                "lists that go together differ in length (crossings, another's walls, edits), or an order does not mix the lists of \
                 two foundries"
            }
            Reason::RowsWrong => {
                "the start rows' length is no multiple of the number of names, they are more than 4294967296, or a byte is neither 0 \
                 nor 1; of lines to cross: they are more than 4294967296"
            }
            Reason::Astray => "a position at an end mark, -2147483648 or 2147483647, or a line with no start row",
            Reason::ShapeWrong => {
                "half-spaces and boxes: more than 256, the line (a number that is not finite, or a direction all zero), or a shape \
                 (an axis above 2, a number that is not finite, a low not below its high, a position that is not finite or outside \
                 -2147483647 to 2147483646)"
            }
            Reason::FittingsName => "a customer's name that a fitting has",
            Reason::BallWrong => "balls: more than 256, or an offset, a radius or a centre out of its range",
            Reason::OutOfUse => "a move to edition 2 of a sheet with an exclusive union",
            Reason::EditWrong => {
                "an edit of a node that is no operation, to a code that is none, or at a moment that falls or exceeds the toggles"
            }
        }
    }
}

/// Why a job gave no answer: a reason, and the place that it fixes. The repository's page `docs/SHEET.md` has the table, and the order in
/// which each job asks.
///
/// A refusal prints as a sentence that a person can act on:
///
/// ```
/// use kressedach::Reason;
/// let refusal = kressedach::read(b"\x01\x00\x02\x00\x07").unwrap_err();
/// assert_eq!((refusal.reason, refusal.place), (Reason::HeaderWrong, 0));
/// assert_eq!(refusal.to_string(), "refused 3 at byte 0 of the customer's sheet: the header's length or edition is wrong");
/// ```
#[derive(Debug, Clone, Copy, PartialEq, Eq, Hash)]
pub struct Refusal {
    /// The reason.
    pub reason: Reason,
    /// The sheet that the place is in, for 1 to 7 and 17.
    pub sheet: Option<Which>,
    /// Where: a byte of that sheet for 1 to 7 and 17, the length needed for 9, an entry of the list for 10, 11, 15 and 20, 0 for 8,
    /// 13 and 14. For 16 and 18 the first shape or ball at fault, or 256 for more than 256 of them; for 16 also 65535 for the line.
    /// For 19, which is of a move alone, a byte of the customer's sheet.
    pub place: usize,
}

impl Refusal {
    /// The reason's number.
    ///
    /// ```
    /// assert_eq!(kressedach::read(b"").unwrap_err().number(), 1);
    /// ```
    pub fn number(&self) -> u8 {
        self.reason.number()
    }

    /// What it means: the reason's meaning, told closer by the place for 16 and 18.
    ///
    /// ```
    /// use kressedach::{Reason, Refusal};
    /// assert_eq!(kressedach::read(b"").unwrap_err().meaning(), "the sheet ends too soon");
    /// assert_eq!(Refusal { reason: Reason::BallWrong, sheet: None, place: 256 }.meaning(), "more than 256 balls");
    /// ```
    pub fn meaning(&self) -> &'static str {
        match (self.reason, self.place) {
            (Reason::ShapeWrong, 256) => "more than 256 shapes",
            (Reason::ShapeWrong, 65535) => "a number of the line is not finite, or its direction is all zero",
            (Reason::ShapeWrong, _) => "an axis above 2, a number that is not finite, a low not below its high, or a position out of range",
            (Reason::BallWrong, 256) => "more than 256 balls",
            (Reason::BallWrong, _) => "an offset, a radius or a centre out of its range",
            (reason, _) => reason.meaning(),
        }
    }

    /// The place in words, or nothing where the reason has no place.
    ///
    /// ```
    /// use kressedach::{Reason, Refusal, Which};
    /// let of = |reason, sheet, place| Refusal { reason, sheet, place }.place_in_words().map(|words| words.to_string());
    /// assert_eq!(of(Reason::NameTaken, Some(Which::Customers), 23).unwrap(), "at byte 23 of the customer's sheet");
    /// assert_eq!(of(Reason::NameTaken, Some(Which::Fittings), 23).unwrap(), "at byte 23 of the fittings sheet");
    /// assert_eq!(of(Reason::ListTooShort, None, 6).unwrap(), "for want of 6 entries");
    /// assert_eq!(of(Reason::NoSuchShape, None, 4).unwrap(), "at entry 4");
    /// assert_eq!(of(Reason::Astray, None, 4).unwrap(), "at entry 4");
    /// assert_eq!(of(Reason::LengthsDiffer, None, 0), None);
    /// assert_eq!(of(Reason::RowsWrong, None, 0), None);
    /// assert_eq!(of(Reason::ShapeWrong, None, 3).unwrap(), "at shape 3");
    /// assert_eq!(of(Reason::ShapeWrong, None, 65535).unwrap(), "for the line");
    /// assert_eq!(of(Reason::BallWrong, None, 3).unwrap(), "at ball 3");
    /// assert_eq!(of(Reason::OutOfUse, None, 24).unwrap(), "at byte 24 of the customer's sheet");
    /// assert_eq!(of(Reason::EditWrong, None, 3).unwrap(), "at entry 3");
    /// ```
    pub fn place_in_words(&self) -> Option<impl fmt::Display> {
        let place = Some(self.place);
        match (self.sheet, self.reason) {
            (Some(Which::Fittings), _) => Some(Place("at byte ", place, " of the fittings sheet")),
            (Some(Which::Customers), _) | (None, Reason::OutOfUse) => Some(Place("at byte ", place, " of the customer's sheet")),
            (None, Reason::ListTooShort) => Some(Place("for want of ", place, " entries")),
            (None, Reason::NoSuchShape | Reason::Falls | Reason::Odd | Reason::Astray | Reason::EditWrong) => {
                Some(Place("at entry ", place, ""))
            }
            (None, Reason::ShapeWrong) if self.place == 65535 => Some(Place("for the line", None, "")),
            (None, Reason::ShapeWrong) if self.place != 256 => Some(Place("at shape ", place, "")),
            (None, Reason::BallWrong) if self.place != 256 => Some(Place("at ball ", place, "")),
            _ => None,
        }
    }
}

/// Words, a number among them.
struct Place(&'static str, Option<usize>, &'static str);

impl fmt::Display for Place {
    fn fmt(&self, f: &mut fmt::Formatter<'_>) -> fmt::Result {
        f.write_str(self.0)?;
        self.1.map_or(Ok(()), |number| number.fmt(f))?;
        f.write_str(self.2)
    }
}

impl fmt::Display for Refusal {
    fn fmt(&self, f: &mut fmt::Formatter<'_>) -> fmt::Result {
        write!(f, "refused {}", self.number())?;
        if let Some(place) = self.place_in_words() {
            write!(f, " {place}")?;
        }
        write!(f, ": {}", self.meaning())
    }
}

impl Error for Refusal {}

/// An answer, unless there is a number of a refusal.
#[inline]
pub(crate) fn unless<T>(number: u8, sheet: u8, place: usize, answer: T) -> Result<T, Refusal> {
    match number {
        0 => Ok(answer),
        number => Err(refused(number, sheet, place)),
    }
}

#[cold]
fn refused(number: u8, sheet: u8, place: usize) -> Refusal {
    let reason = Reason::of_number(number).unwrap_or_else(|| unknown("refusal", number.into()));
    let sheet = match sheet {
        1 => Some(Which::Fittings),
        2 => Some(Which::Customers),
        _ => None,
    };
    Refusal { reason, sheet, place }
}

/// A number that the library is proved not to give: one of another version is linked.
#[cold]
pub(crate) fn unknown(what: &str, number: u16) -> ! {
    panic!("the linked library gives {what} {number}, which this crate does not know: it is of another version")
}
