//! "Rounds of contraction": the dwarf tree of a formula.

use crate::formula::{Formula, Op};

/// Where a record has no number.
pub const NONE: u16 = 65535;

/// A dwarf node.
#[derive(Debug, Clone, Copy, PartialEq, Eq)]
pub struct Record {
    pub kind: u16,
    pub first: u16,
    pub second: u16,
}

impl Record {
    /// The dwarf nodes below this one.
    pub fn children(&self) -> Vec<usize> {
        if self.kind == 0 {
            return vec![];
        }
        [self.first, self.second].into_iter().filter(|k| *k != NONE).map(usize::from).collect()
    }
}

#[derive(Debug, Clone, PartialEq, Eq)]
pub struct Dwarf {
    pub records: Vec<Record>,
    pub leaves: usize,
    pub rounds: usize,
}

impl Dwarf {
    /// "Height is the longest path in steps; a single node has height 0."
    pub fn height(&self) -> usize {
        let mut heights: Vec<usize> = Vec::new();
        for record in &self.records {
            heights.push(record.children().into_iter().map(|k| heights[k] + 1).max().unwrap_or(0));
        }
        *heights.last().unwrap()
    }

    fn add(&mut self, kind: u16, first: u16, second: u16) -> u16 {
        self.records.push(Record { kind, first, second });
        self.records.len() as u16 - 1
    }
}

/// What is left of a formula node. A child is given by its postfix position; a leaf or a one-child node has a dwarf root.
#[derive(Debug, Clone, Copy, PartialEq, Eq)]
enum Node {
    Leaf { root: u16 },
    One { root: u16, child: usize },
    Two { op: Op, left: usize, right: usize },
}

/// The tree that is contracted: what stands at each postfix position, if anything does still.
struct Tree {
    nodes: Vec<Option<Node>>,
    /// The positions where something stands, rising; the last is the top.
    left: Vec<usize>,
}

pub fn contract(formula: &Formula) -> Dwarf {
    let mut dwarf = Dwarf { records: vec![], leaves: 0, rounds: 0 };
    let mut nodes = Vec::new();
    plant(formula, &mut nodes, &mut dwarf);
    let mut tree = Tree { left: (0..nodes.len()).collect(), nodes };
    while tree.left.len() > 1 {
        rake(&mut tree, &mut dwarf);
        compress(&mut tree, &mut dwarf);
        dwarf.rounds += 1;
    }
    dwarf
}

/// "Leaves get dwarf nodes 0, 1, .. from left to right." Gives the top's position.
fn plant(formula: &Formula, nodes: &mut Vec<Option<Node>>, dwarf: &mut Dwarf) -> usize {
    let node = match formula {
        Formula::Shape(shape) => {
            dwarf.leaves += 1;
            Node::Leaf { root: dwarf.add(0, *shape, NONE) }
        }
        Formula::Node(op, left, right) => {
            let left = plant(left, nodes, dwarf);
            let right = plant(right, nodes, dwarf);
            Node::Two { op: *op, left, right }
        }
    };
    nodes.push(Some(node));
    nodes.len() - 1
}

/// "Rake, judged on the tree as the round found it."
fn rake(tree: &mut Tree, dwarf: &mut Dwarf) {
    let mut raked = tree.nodes.clone();
    let leaf = |at: usize| match tree.nodes[at] {
        Some(Node::Leaf { root }) => Some(root),
        _ => None,
    };
    for at in &tree.left {
        match tree.nodes[*at].unwrap() {
            Node::Leaf { .. } => {}
            Node::Two { op, left, right } => match (leaf(left), leaf(right)) {
                (Some(l), Some(r)) => {
                    raked[*at] = Some(Node::Leaf { root: dwarf.add(1 + op as u16, l, r) });
                    (raked[left], raked[right]) = (None, None);
                }
                (Some(l), None) => {
                    raked[*at] = Some(Node::One { root: dwarf.add(5 + op as u16, l, NONE), child: right });
                    raked[left] = None;
                }
                (None, Some(r)) => {
                    raked[*at] = Some(Node::One { root: dwarf.add(9 + op as u16, r, NONE), child: left });
                    raked[right] = None;
                }
                (None, None) => {}
            },
            Node::One { root, child } => {
                if let Some(value) = leaf(child) {
                    raked[*at] = Some(Node::Leaf { root: dwarf.add(13, root, value) });
                    raked[child] = None;
                }
            }
        }
    }
    tree.left.retain(|at| raked[*at].is_some());
    tree.nodes = raked;
}

/// "In each longest chain of one-child nodes, pair from the top: first with second, third with fourth; an odd last one waits."
fn compress(tree: &mut Tree, dwarf: &mut Dwarf) {
    let one = |at: usize| match tree.nodes[at] {
        Some(Node::One { root, child }) => Some((root, child)),
        _ => None,
    };
    // From the top down, a node that is not the lower one of a pair is the upper one of the next.
    let mut is_lower = vec![false; tree.nodes.len()];
    let mut pairs = Vec::new();
    for upper in tree.left.iter().rev().copied() {
        let Some((upper_root, lower)) = one(upper) else { continue };
        if let (false, Some((lower_root, child))) = (is_lower[upper], one(lower)) {
            is_lower[lower] = true;
            pairs.push((upper, lower, upper_root, lower_root, child));
        }
    }
    pairs.sort();
    for (upper, lower, upper_root, lower_root, child) in pairs {
        tree.nodes[upper] = Some(Node::One { root: dwarf.add(14, upper_root, lower_root), child });
        tree.nodes[lower] = None;
    }
    let nodes = &tree.nodes;
    tree.left.retain(|at| nodes[*at].is_some());
}
