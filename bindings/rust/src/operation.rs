//! The operations of a formula.

/// An operation of a formula.
///
/// ```
/// use kressedach::{Formula, Operation};
/// let (left, right) = (Formula::shape(0), Formula::shape(1));
/// assert_eq!(left.clone().with(Operation::Difference, right.clone()), left.difference(right));
/// ```
#[derive(Debug, Clone, Copy, PartialEq, Eq, Hash)]
pub enum Operation {
    /// Inside the left operand, the right one, or both.
    Union,
    /// Inside both.
    Intersection,
    /// Inside the left operand and not the right one.
    Difference,
    /// Inside one of them, and not both. No move to edition 2 writes it any more.
    Exclusive,
}

impl Operation {
    /// All four, by rising code.
    ///
    /// ```
    /// use kressedach::Operation;
    /// assert!(Operation::ALL.into_iter().map(Operation::code).eq(0xFFF0..=0xFFF3));
    /// ```
    pub const ALL: [Operation; 4] = [Operation::Union, Operation::Intersection, Operation::Difference, Operation::Exclusive];

    /// Its code in a sheet: 0xFFF0 to 0xFFF3.
    ///
    /// ```
    /// assert_eq!(kressedach::Operation::Difference.code(), 0xFFF2);
    /// ```
    pub fn code(self) -> u16 {
        0xFFF0 + self as u16
    }

    /// The operation of a code, or none.
    ///
    /// ```
    /// use kressedach::Operation;
    /// assert_eq!(Operation::of_code(0xFFF1), Some(Operation::Intersection));
    /// assert_eq!((Operation::of_code(0), Operation::of_code(0xFFF4)), (None, None));
    /// ```
    pub fn of_code(code: u16) -> Option<Operation> {
        Operation::ALL.get(usize::from(code.checked_sub(0xFFF0)?)).copied()
    }
}
