//! Kinds of dwarf nodes.

use crate::Operation;

/// An operand of an operation.
///
/// ```
/// use kressedach::{Kind, Operation, Side};
/// assert_ne!(Kind::R(Operation::Difference, Side::Left).number(), Kind::R(Operation::Difference, Side::Right).number());
/// ```
#[derive(Debug, Clone, Copy, PartialEq, Eq, Hash)]
pub enum Side {
    /// The left one, which is the earlier in a sheet.
    Left,
    /// The right one.
    Right,
}

/// What kind of node a dwarf node is.
///
/// ```
/// use kressedach::{Kind, Operation, Side};
/// assert_eq!(Kind::of_number(0), Some(Kind::Leaf));
/// assert_eq!(Kind::of_number(3), Some(Kind::E(Operation::Difference)));
/// assert_eq!(Kind::of_number(9), Some(Kind::R(Operation::Union, Side::Right)));
/// assert_eq!((Kind::S.number(), Kind::C.number()), (13, 14));
/// ```
#[derive(Debug, Clone, Copy, PartialEq, Eq, Hash)]
pub enum Kind {
    /// A leaf of the formula. Its label is a bit.
    Leaf,
    /// An operation over two leaves. Its label is a bit.
    E(Operation),
    /// An operation of which one operand, a leaf, is raked. Its label is a pair.
    R(Operation, Side),
    /// A pair applied to a value. Its label is a bit.
    S,
    /// A pair over a pair. Its label is a pair.
    C,
}

impl Kind {
    /// Its number in a list of kinds: 0 to 14.
    ///
    /// ```
    /// use kressedach::Kind;
    /// assert!((0..=14).all(|number| Kind::of_number(number).is_some_and(|kind| kind.number() == number)));
    /// ```
    pub fn number(self) -> u16 {
        match self {
            Kind::Leaf => 0,
            Kind::E(operation) => 1 + operation as u16,
            Kind::R(operation, Side::Left) => 5 + operation as u16,
            Kind::R(operation, Side::Right) => 9 + operation as u16,
            Kind::S => 13,
            Kind::C => 14,
        }
    }

    /// The kind of a number, or none.
    ///
    /// ```
    /// use kressedach::{Kind, Operation};
    /// assert_eq!(Kind::of_number(1), Some(Kind::E(Operation::Union)));
    /// assert_eq!(Kind::of_number(15), None);
    /// ```
    pub fn of_number(number: u16) -> Option<Kind> {
        let operation = |lowest: u16| Operation::ALL[usize::from(number - lowest)];
        match number {
            0 => Some(Kind::Leaf),
            1..=4 => Some(Kind::E(operation(1))),
            5..=8 => Some(Kind::R(operation(5), Side::Left)),
            9..=12 => Some(Kind::R(operation(9), Side::Right)),
            13 => Some(Kind::S),
            14 => Some(Kind::C),
            _ => None,
        }
    }

    /// The kind that the library gives.
    #[cfg(feature = "alloc")]
    pub(crate) fn given(number: u16) -> Kind {
        Kind::of_number(number).unwrap_or_else(|| crate::refusal::unknown("kind", number))
    }
}
