//! The operations and the formula's tree.

/// An operation; the number is its code less 0xFFF0.
#[derive(Debug, Clone, Copy, PartialEq, Eq)]
pub enum Op {
    Union,
    Intersection,
    Difference,
    Exclusive,
}

impl Op {
    pub const ALL: [Op; 4] = [Op::Union, Op::Intersection, Op::Difference, Op::Exclusive];

    /// The operation that a code stands for.
    pub fn of_code(code: u16) -> Option<Op> {
        Op::ALL.get(usize::from(code.checked_sub(0xFFF0)?)).copied()
    }

    pub fn code(self) -> u16 {
        0xFFF0 + self as u16
    }

    /// "Difference is left and not right."
    pub fn of(self, left: bool, right: bool) -> bool {
        match self {
            Op::Union => left || right,
            Op::Intersection => left && right,
            Op::Difference => left && !right,
            Op::Exclusive => left != right,
        }
    }
}

#[derive(Debug, Clone, PartialEq, Eq)]
pub enum Formula {
    Shape(u16),
    Node(Op, Box<Formula>, Box<Formula>),
}

impl Formula {
    pub fn node(op: Op, left: Formula, right: Formula) -> Formula {
        Formula::Node(op, Box::new(left), Box::new(right))
    }

    /// Whether a point is inside the solid, by the shapes that it is inside of.
    pub fn inside(&self, shapes: &[bool]) -> bool {
        match self {
            Formula::Shape(shape) => shapes[usize::from(*shape)],
            Formula::Node(op, left, right) => op.of(left.inside(shapes), right.inside(shapes)),
        }
    }

    /// Puts another operation at a postfix position, which counts from 0.
    pub fn put(&mut self, position: usize, op: Op) {
        self.put_from(0, position, op);
    }

    /// The same where this formula's positions begin at `first`; gives the position past its last.
    fn put_from(&mut self, first: usize, position: usize, op: Op) -> usize {
        match self {
            Formula::Shape(_) => first + 1,
            Formula::Node(here, left, right) => {
                let middle = left.put_from(first, position, op);
                let own = right.put_from(middle, position, op);
                if own == position {
                    *here = op;
                }
                own + 1
            }
        }
    }

    /// The shapes at the leaves, from left to right.
    pub fn leaves(&self) -> Vec<u16> {
        match self {
            Formula::Shape(shape) => vec![*shape],
            Formula::Node(_, left, right) => [left.leaves(), right.leaves()].concat(),
        }
    }

    /// The longest path in steps.
    pub fn height(&self) -> usize {
        match self {
            Formula::Shape(_) => 0,
            Formula::Node(_, left, right) => 1 + left.height().max(right.height()),
        }
    }

    /// The codes in postfix order.
    pub fn codes(&self) -> Vec<u16> {
        match self {
            Formula::Shape(shape) => vec![*shape],
            Formula::Node(op, left, right) => [left.codes(), right.codes(), vec![op.code()]].concat(),
        }
    }
    /// The codes with the operation first: "operation, left operand, right operand".
    pub fn codes_first(&self) -> Vec<u16> {
        match self {
            Formula::Shape(shape) => vec![*shape],
            Formula::Node(op, left, right) => [vec![op.code()], left.codes_first(), right.codes_first()].concat(),
        }
    }
}
