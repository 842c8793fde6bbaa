//! Walking, what the line job is measured against: labels worked out by kind, a walk up from a single leaf, and marks for the nodes that are
//! due above several.

use super::Dwarf;

const NONE: u16 = 65535;
const NODES: usize = 3069;

/// A dwarf tree with its labels, ready for toggles.
pub struct Labels {
    dwarf: Dwarf,
    labels: [u8; NODES],
    parents: [u16; NODES],
    /// The first leaf of each shape, and the next leaf of the same shape after each leaf.
    first_leaf: [u16; 256],
    next_leaf: [u16; 1024],
}

impl Labels {
    /// All shapes outside.
    pub fn outside(dwarf: Dwarf) -> Labels {
        let mut all = Labels { dwarf, labels: [0; NODES], parents: [NONE; NODES], first_leaf: [NONE; 256], next_leaf: [NONE; 1024] };
        for leaf in (0..all.dwarf.leaves).rev() {
            let shape = usize::from(all.dwarf.firsts[leaf]);
            all.next_leaf[leaf] = all.first_leaf[shape];
            all.first_leaf[shape] = leaf as u16;
        }
        for node in all.dwarf.leaves..all.dwarf.nodes {
            all.parents[usize::from(all.dwarf.firsts[node])] = node as u16;
            if all.dwarf.seconds[node] != NONE {
                all.parents[usize::from(all.dwarf.seconds[node])] = node as u16;
            }
            all.labels[node] = all.label(node);
        }
        all
    }

    pub fn root(&self) -> u8 {
        self.labels[self.dwarf.nodes - 1]
    }

    /// Flips the leaves of a shape and reworks each node with a changed child, in rising number; gives how many.
    pub fn toggle(&mut self, shape: u16) -> u32 {
        let mut leaf = self.first_leaf[usize::from(shape)];
        if leaf == NONE {
            return 0;
        }
        if self.next_leaf[usize::from(leaf)] == NONE {
            self.labels[usize::from(leaf)] ^= 1;
            return self.walk(leaf);
        }
        let mut marks = Marks([0; 48]);
        while leaf != NONE {
            self.labels[usize::from(leaf)] ^= 1;
            marks.put(self.parents[usize::from(leaf)]);
            leaf = self.next_leaf[usize::from(leaf)];
        }
        self.settle(&mut marks)
    }

    /// Reworks the marked nodes, and those above a node whose label changes.
    fn settle(&mut self, marks: &mut Marks) -> u32 {
        let mut count = 0;
        for word in 0..marks.0.len() {
            while marks.0[word] != 0 {
                let node = word * 64 + marks.0[word].trailing_zeros() as usize;
                marks.0[word] &= marks.0[word] - 1;
                let label = self.label(node);
                count += 1;
                if label != self.labels[node] {
                    self.labels[node] = label;
                    marks.put(self.parents[node]);
                }
            }
        }
        count
    }

    /// Straight up from a leaf, one node at a time.
    fn walk(&mut self, leaf: u16) -> u32 {
        let (mut count, mut up) = (0, self.parents[usize::from(leaf)]);
        while up != NONE {
            let node = usize::from(up);
            let label = self.label(node);
            count += 1;
            if label == self.labels[node] {
                break;
            }
            self.labels[node] = label;
            up = self.parents[node];
        }
        count
    }

    /// A pair (a, b) is 2a + b.
    fn label(&self, node: usize) -> u8 {
        let first = self.labels[usize::from(self.dwarf.firsts[node])];
        let second = || self.labels[usize::from(self.dwarf.seconds[node])];
        match self.dwarf.kinds[node] {
            1 => first | second(),
            2 => first & second(),
            3 => first & !second() & 1,
            4 => first ^ second(),
            5 | 9 => 2 | first,
            6 | 10 => first << 1,
            7 => first,
            8 | 12 => 2 - first,
            11 => (1 - first) << 1,
            13 => first >> second() & 1,
            _ => (first >> (second() >> 1) & 1) << 1 | first >> (second() & 1) & 1,
        }
    }
}

/// A set of nodes, a bit each.
struct Marks([u64; 48]);

impl Marks {
    fn put(&mut self, node: u16) {
        if node != NONE {
            self.0[usize::from(node) / 64] |= 1 << (node % 64);
        }
    }
}
