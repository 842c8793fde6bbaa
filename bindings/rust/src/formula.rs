//! A formula in Rust, and its codes in both orders.

use crate::Operation;
use alloc::{vec, vec::Vec};

/// A formula: a shape, or an operation on two formulas.
///
/// ```
/// use kressedach::Formula;
/// // (Body union Flange) difference Port, where these are shapes 0, 1 and 2
/// let formula = Formula::shape(0).union(Formula::shape(1)).difference(Formula::shape(2));
/// assert_eq!(formula.codes(), [0, 1, 0xFFF0, 2, 0xFFF2]);
/// assert_eq!(formula.codes_first(), [0xFFF2, 0xFFF0, 0, 1, 2]);
/// ```
#[derive(Debug, Clone, PartialEq, Eq, Hash)]
pub struct Formula {
    /// In postfix order: flat, so that no depth of a formula is a depth of the stack.
    codes: Vec<u16>,
}

impl Formula {
    /// A shape, by its number. No sheets have more than 256 names.
    ///
    /// ```
    /// assert_eq!(kressedach::Formula::shape(7).codes(), [7]);
    /// ```
    pub fn shape(number: u8) -> Formula {
        Formula { codes: vec![number.into()] }
    }

    /// An operation: this formula is its left operand.
    ///
    /// ```
    /// use kressedach::{Formula, Operation};
    /// assert_eq!(Formula::shape(0).with(Operation::Union, Formula::shape(1)).codes(), [0, 1, 0xFFF0]);
    /// ```
    pub fn with(mut self, operation: Operation, right: Formula) -> Formula {
        self.codes.extend(right.codes);
        self.codes.push(operation.code());
        self
    }

    /// Inside this formula, the other, or both.
    ///
    /// ```
    /// use kressedach::Formula;
    /// assert_eq!(Formula::shape(0).union(Formula::shape(1)).codes(), [0, 1, 0xFFF0]);
    /// ```
    pub fn union(self, right: Formula) -> Formula {
        self.with(Operation::Union, right)
    }

    /// Inside both.
    ///
    /// ```
    /// use kressedach::Formula;
    /// assert_eq!(Formula::shape(0).intersection(Formula::shape(1)).codes(), [0, 1, 0xFFF1]);
    /// ```
    pub fn intersection(self, right: Formula) -> Formula {
        self.with(Operation::Intersection, right)
    }

    /// Inside this formula and not the other.
    ///
    /// ```
    /// use kressedach::Formula;
    /// assert_eq!(Formula::shape(0).difference(Formula::shape(1)).codes(), [0, 1, 0xFFF2]);
    /// ```
    pub fn difference(self, right: Formula) -> Formula {
        self.with(Operation::Difference, right)
    }

    /// Inside one of them, and not both.
    ///
    /// ```
    /// use kressedach::Formula;
    /// assert_eq!(Formula::shape(0).exclusive(Formula::shape(1)).codes(), [0, 1, 0xFFF3]);
    /// ```
    pub fn exclusive(self, right: Formula) -> Formula {
        self.with(Operation::Exclusive, right)
    }

    /// Its codes in postfix order, as edition 1 has them.
    ///
    /// ```
    /// use kressedach::Formula;
    /// assert_eq!(Formula::shape(0).difference(Formula::shape(1)).codes(), [0, 1, 0xFFF2]);
    /// ```
    pub fn codes(&self) -> &[u16] {
        &self.codes
    }

    /// Its codes with the operation first, as edition 2 has them.
    ///
    /// ```
    /// use kressedach::Formula;
    /// assert_eq!(Formula::shape(0).difference(Formula::shape(1)).codes_first(), [0xFFF2, 0, 1]);
    /// ```
    pub fn codes_first(&self) -> Vec<u16> {
        turned(&self.codes)
    }

    /// The formula of codes in postfix order that the proved reader has accepted.
    pub(crate) fn of_codes(codes: Vec<u16>) -> Formula {
        Formula { codes }
    }

    /// The same with the operation first. Read backwards, such codes are the mirrored formula in postfix order.
    pub(crate) fn of_codes_first(mut codes: Vec<u16>) -> Formula {
        codes.reverse();
        let mut codes = turned(&codes);
        codes.reverse();
        Formula { codes }
    }
}

/// Codes in postfix order with the operation first. Where each operand begins is worked out from left to right.
fn turned(codes: &[u16]) -> Vec<u16> {
    let is_operation = |at: usize| Operation::of_code(codes[at]).is_some();
    let (mut begins, mut waiting) = (Vec::with_capacity(codes.len()), Vec::new());
    for at in 0..codes.len() {
        let mut begin = at;
        if is_operation(at) {
            waiting.pop();
            begin = waiting.pop().unwrap_or(at);
        }
        begins.push(begin);
        waiting.push(begin);
    }
    let (mut first, mut due) = (Vec::with_capacity(codes.len()), codes.len().checked_sub(1).into_iter().collect::<Vec<usize>>());
    while let Some(at) = due.pop() {
        first.push(codes[at]);
        if is_operation(at) && at > 0 && begins[at - 1] > 0 {
            due.extend([at - 1, begins[at - 1] - 1]);
        }
    }
    first
}

#[cfg(test)]
mod tests {
    use super::*;

    #[test]
    fn both_orders() {
        let leaf = Formula::shape;
        // A less (B or C)
        let worked = leaf(0).difference(leaf(1).union(leaf(2)));
        assert_eq!(worked.codes(), [0, 1, 2, 0xFFF0, 0xFFF2]);
        assert_eq!(worked.codes_first(), [0xFFF2, 0, 0xFFF0, 1, 2]);
        let both = leaf(0).exclusive(leaf(1)).intersection(leaf(2).difference(leaf(3)).union(leaf(255)));
        for formula in [leaf(9), worked, both.clone(), both.clone().union(both)] {
            assert_eq!(Formula::of_codes_first(formula.codes_first()), formula);
        }
    }

    /// A chain to either side is as deep as it is long.
    #[test]
    fn long_chains() {
        let leaves = || (1..=1023).map(|k| Formula::shape(k as u8));
        let left = leaves().fold(Formula::shape(0), Formula::difference);
        let right = leaves().fold(Formula::shape(0), |chain, leaf| leaf.difference(chain));
        for formula in [left, right] {
            assert_eq!(formula.codes().len(), 2047);
            assert_eq!(Formula::of_codes_first(formula.codes_first()), formula);
        }
    }
}
