//! "Labels" and the toggle run.

use crate::dwarf::Dwarf;

/// "Leaf, E and S carry a bit. R and C carry a pair (a, b)": a if the value from below is 1, else b.
#[derive(Debug, Clone, Copy, PartialEq, Eq)]
pub enum Label {
    Bit(bool),
    Pair(bool, bool),
}

impl Label {
    /// "Listed as 2a + b."
    pub fn listed(self) -> u8 {
        match self {
            Label::Bit(bit) => u8::from(bit),
            Label::Pair(a, b) => 2 * u8::from(a) + u8::from(b),
        }
    }

    fn bit(self) -> bool {
        match self {
            Label::Bit(bit) => bit,
            Label::Pair(..) => panic!("a pair where a bit was due"),
        }
    }

    fn at(self, below: bool) -> bool {
        match self {
            Label::Pair(a, b) => {
                if below {
                    a
                } else {
                    b
                }
            }
            Label::Bit(_) => panic!("a bit where a pair was due"),
        }
    }
}

/// The document's table: the pair of an R node by its kind, for the raked values 0 and 1.
const RAKED: [(u16, [(u8, u8); 2]); 8] = [
    (5, [(1, 0), (1, 1)]),
    (6, [(0, 0), (1, 0)]),
    (7, [(0, 0), (0, 1)]),
    (8, [(1, 0), (0, 1)]),
    (9, [(1, 0), (1, 1)]),
    (10, [(0, 0), (1, 0)]),
    (11, [(1, 0), (0, 0)]),
    (12, [(1, 0), (0, 1)]),
];

/// The label of a dwarf node that is no leaf, worked out from those below it.
pub fn label(dwarf: &Dwarf, labels: &[Label], node: usize) -> Label {
    let record = dwarf.records[node];
    let first = || labels[usize::from(record.first)];
    let second = || labels[usize::from(record.second)];
    match record.kind {
        1 => Label::Bit(first().bit() || second().bit()),
        2 => Label::Bit(first().bit() && second().bit()),
        3 => Label::Bit(first().bit() && !second().bit()),
        4 => Label::Bit(first().bit() != second().bit()),
        5..=12 => {
            let (_, pairs) = RAKED[usize::from(record.kind) - 5];
            let (a, b) = pairs[usize::from(first().bit())];
            Label::Pair(a == 1, b == 1)
        }
        13 => Label::Bit(first().at(second().bit())),
        14 => Label::Pair(first().at(second().at(true)), first().at(second().at(false))),
        kind => panic!("kind {kind} has no children"),
    }
}

/// The labels worked out afresh from the shapes that are inside.
pub fn afresh(dwarf: &Dwarf, inside: &[bool]) -> Vec<Label> {
    let mut labels = Vec::new();
    for (node, record) in dwarf.records.iter().enumerate() {
        let here = match record.kind {
            0 => Label::Bit(inside[usize::from(record.first)]),
            _ => label(dwarf, &labels, node),
        };
        labels.push(here);
    }
    labels
}

/// What a toggle run answers.
#[derive(Debug, Clone, PartialEq, Eq)]
pub struct Ran {
    pub roots: Vec<u8>,
    pub counts: Vec<u32>,
    pub labels: Vec<u8>,
}

/// A run that goes on toggle by toggle, with labels of its own.
pub struct Run<'a> {
    dwarf: &'a Dwarf,
    labels: Vec<Label>,
    roots: Vec<u8>,
    counts: Vec<u32>,
}

impl<'a> Run<'a> {
    /// "With every shape outside at first."
    pub fn new(dwarf: &'a Dwarf) -> Run<'a> {
        Run { dwarf, labels: afresh(dwarf, &[false; 256]), roots: vec![], counts: vec![] }
    }

    pub fn toggle(&mut self, shape: u16) {
        self.counts.push(toggle(self.dwarf, &mut self.labels, shape));
        self.roots.push(self.labels.last().unwrap().listed());
    }

    pub fn answers(self) -> Ran {
        Ran { roots: self.roots, counts: self.counts, labels: self.labels.into_iter().map(Label::listed).collect() }
    }
}

/// "Flips all leaves of its shape first, then goes through the dwarf nodes in rising number and reworks a node exactly when a child's
/// label has changed. The count is the number of nodes so reworked."
fn toggle(dwarf: &Dwarf, labels: &mut [Label], shape: u16) -> u32 {
    let before = labels.to_vec();
    for (node, record) in dwarf.records.iter().enumerate() {
        if record.kind == 0 && record.first == shape {
            labels[node] = Label::Bit(!labels[node].bit());
        }
    }
    let mut count = 0;
    for (node, record) in dwarf.records.iter().enumerate() {
        if record.children().into_iter().any(|child| labels[child] != before[child]) {
            labels[node] = label(dwarf, labels, node);
            count += 1;
        }
    }
    count
}
