//! Running: parents and the leaves of each shape are lists of numbers, labels are looked up by kind and children, a walk goes up from a
//! single leaf, and marks say which nodes are due above several.

use super::{contracted, enough, Dwarf, Refused};

const NONE: u16 = 65535;
const NODES: usize = 3069;

/// A dwarf tree with its labels, ready for toggles.
struct Labels {
    dwarf: Dwarf,
    labels: [u8; NODES],
    parents: [u16; NODES],
    /// What each kind makes of two labels.
    rules: [u8; 256],
    /// The first leaf of each shape, and the next leaf of the same shape after each leaf.
    first_leaf: [u16; 256],
    next_leaf: [u16; 1024],
}

impl Labels {
    /// All shapes outside.
    fn outside(dwarf: Dwarf) -> Labels {
        let (parents, rules) = ([NONE; NODES], std::array::from_fn(|i| rule(i / 16, (i / 4 % 4) as u8, (i % 4) as u8)));
        let mut all = Labels { dwarf, labels: [0; NODES], parents, rules, first_leaf: [NONE; 256], next_leaf: [NONE; 1024] };
        for leaf in (0..all.dwarf.leaves).rev() {
            let shape = usize::from(all.dwarf.firsts[leaf]);
            all.next_leaf[leaf] = all.first_leaf[shape];
            all.first_leaf[shape] = leaf as u16;
        }
        for node in all.dwarf.leaves..all.dwarf.nodes {
            all.parents[usize::from(all.dwarf.firsts[node])] = node as u16;
            if all.dwarf.seconds[node] != NONE {
                all.parents[usize::from(all.dwarf.seconds[node])] = node as u16;
            }
            all.labels[node] = all.label(node);
        }
        all
    }

    fn root(&self) -> u8 {
        self.labels[self.dwarf.nodes - 1]
    }

    /// Flips the leaves of a shape and reworks each node with a changed child, in rising number; gives how many.
    fn toggle(&mut self, shape: u16) -> u32 {
        let mut leaf = self.first_leaf[usize::from(shape)];
        if leaf == NONE {
            return 0;
        }
        if self.next_leaf[usize::from(leaf)] == NONE {
            self.labels[usize::from(leaf)] ^= 1;
            return self.walk(leaf);
        }
        let mut marks = Marks { words: [0; 48], held: 0 };
        while leaf != NONE {
            self.labels[usize::from(leaf)] ^= 1;
            marks.put(self.parents[usize::from(leaf)]);
            leaf = self.next_leaf[usize::from(leaf)];
        }
        self.settle(&mut marks)
    }

    /// Reworks the marked nodes, and those above a node whose label changes.
    fn settle(&mut self, marks: &mut Marks) -> u32 {
        let mut count = 0;
        while marks.held != 0 {
            let at = marks.held.trailing_zeros() as usize;
            marks.held &= marks.held - 1;
            let mut word = std::mem::take(&mut marks.words[at]);
            while word != 0 {
                let node = at * 64 + word.trailing_zeros() as usize;
                word &= word - 1;
                let label = self.label(node);
                count += 1;
                if label != self.labels[node] {
                    self.labels[node] = label;
                    let up = self.parents[node];
                    if usize::from(up) / 64 == at {
                        word |= 1 << (up % 64);
                    } else {
                        marks.put(up);
                    }
                }
            }
        }
        count
    }

    /// Straight up from a leaf, one node at a time.
    fn walk(&mut self, leaf: u16) -> u32 {
        let (mut count, mut up) = (0, self.parents[usize::from(leaf)]);
        while up != NONE {
            let node = usize::from(up);
            let label = self.label(node);
            count += 1;
            if label == self.labels[node] {
                break;
            }
            self.labels[node] = label;
            up = self.parents[node];
        }
        count
    }

    fn label(&self, node: usize) -> u8 {
        let label = |child: u16| self.labels.get(usize::from(child)).map_or(0, |label| usize::from(*label));
        let at = usize::from(self.dwarf.kinds[node]) * 16 + label(self.dwarf.firsts[node]) * 4 + label(self.dwarf.seconds[node]);
        self.rules[at]
    }
}

/// The label of a kind above the labels of first and second. A pair (a, b) is 2a + b.
fn rule(kind: usize, first: u8, second: u8) -> u8 {
    let bit = first & 1;
    match kind {
        1 => first | second,
        2 => first & second,
        3 => first & !second & 1,
        4 => first ^ second,
        5 | 9 => 2 | bit,
        6 | 10 => bit << 1,
        7 => bit,
        8 | 12 => 2 - bit,
        11 => (1 - bit) << 1,
        13 => first >> (second & 1) & 1,
        _ => (first >> (second >> 1) & 1) << 1 | first >> (second & 1) & 1,
    }
}

/// A set of nodes, a bit each, and a bit for each word that has one.
struct Marks {
    words: [u64; 48],
    held: u64,
}

impl Marks {
    fn put(&mut self, node: u16) {
        if node != NONE {
            self.words[usize::from(node) / 64] |= 1 << (node % 64);
            self.held |= 1 << (node / 64);
        }
    }
}

/// Runs toggles; gives the number of labels.
pub fn run(sheet: &[u8], toggles: &[u16], roots: &mut [u8], counts: &mut [u32], labels: &mut [u8]) -> Result<usize, Refused> {
    let mut dwarf = Dwarf::default();
    let (names, _, _) = contracted(sheet, &mut dwarf)?;
    if let Some(index) = toggles.iter().position(|shape| usize::from(*shape) >= names) {
        return Err((10, index));
    }
    enough([roots.len(), counts.len(), labels.len()], [toggles.len(), toggles.len(), dwarf.nodes])?;
    let mut all = Labels::outside(dwarf);
    for ((shape, root), count) in toggles.iter().zip(roots).zip(counts) {
        *count = all.toggle(*shape);
        *root = all.root();
    }
    labels[..all.dwarf.nodes].copy_from_slice(&all.labels[..all.dwarf.nodes]);
    Ok(all.dwarf.nodes)
}
