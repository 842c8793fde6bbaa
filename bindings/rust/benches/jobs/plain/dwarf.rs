//! Building: the working tree in postfix order, a token a node, and one pass over the tokens for each step of a round.

use super::{enough, read, Refused};

const NONE: u16 = 65535;
const NODES: usize = 3069;
const TOKENS: usize = 2047;

/// A dwarf tree, in lists of fixed size.
pub struct Dwarf {
    pub kinds: [u16; NODES],
    pub firsts: [u16; NODES],
    pub seconds: [u16; NODES],
    pub nodes: usize,
    pub leaves: usize,
    rounds: usize,
    height: usize,
}

impl Default for Dwarf {
    fn default() -> Dwarf {
        Dwarf { kinds: [0; NODES], firsts: [0; NODES], seconds: [0; NODES], nodes: 0, leaves: 0, rounds: 0, height: 0 }
    }
}

impl Dwarf {
    fn add(&mut self, kind: u16, first: u16, second: u16) -> u16 {
        let node = self.nodes;
        (self.kinds[node], self.firsts[node], self.seconds[node]) = (kind, first, second);
        self.nodes += 1;
        node as u16
    }

    fn highest(&self) -> usize {
        let mut heights = [0u8; NODES];
        for node in self.leaves..self.nodes {
            let first = heights[usize::from(self.firsts[node])];
            let second = if self.seconds[node] == NONE { 0 } else { heights[usize::from(self.seconds[node])] };
            heights[node] = 1 + first.max(second);
        }
        usize::from(heights[self.nodes - 1])
    }
}

const LEAF: u16 = 0;
const ONE: u16 = 1;
const TWO: u16 = 2;

/// The working tree: what each token is (an operation's number is added to `TWO`), and its dwarf root.
struct Tokens {
    what: [u16; TOKENS],
    root: [u16; TOKENS],
    count: usize,
}

impl Tokens {
    fn put(&mut self, at: &mut usize, what: u16, root: u16) {
        (self.what[*at], self.root[*at]) = (what, root);
        *at += 1;
    }
}

/// Builds the dwarf tree into three lists; gives leaves, nodes, rounds and height.
pub fn build(sheet: &[u8], kinds: &mut [u16], firsts: &mut [u16], seconds: &mut [u16]) -> Result<[usize; 4], Refused> {
    let mut dwarf = Dwarf::default();
    contracted(sheet, &mut dwarf)?;
    let nodes = dwarf.nodes;
    enough([kinds.len(), firsts.len(), seconds.len()], [nodes; 3])?;
    kinds[..nodes].copy_from_slice(&dwarf.kinds[..nodes]);
    firsts[..nodes].copy_from_slice(&dwarf.firsts[..nodes]);
    seconds[..nodes].copy_from_slice(&dwarf.seconds[..nodes]);
    Ok([dwarf.leaves, nodes, dwarf.rounds, dwarf.height])
}

/// Reads a sheet and contracts its formula; gives the number of names, the formula's first offset and the one past its end.
pub fn contracted(sheet: &[u8], dwarf: &mut Dwarf) -> Result<(usize, usize, usize), Refused> {
    let (names, leaves, first, past) = read(sheet)?;
    (dwarf.nodes, dwarf.leaves, dwarf.rounds) = (0, leaves, 0);
    let mut tokens = Tokens { what: [0; TOKENS], root: [0; TOKENS], count: (past - first) / 2 };
    for (k, code) in sheet[first..past].chunks_exact(2).enumerate() {
        let code = u16::from_be_bytes([code[0], code[1]]);
        if code < 0xFFF0 {
            (tokens.what[k], tokens.root[k]) = (LEAF, dwarf.add(0, code, NONE));
        } else {
            tokens.what[k] = TWO + (code - 0xFFF0);
        }
    }
    while tokens.count > 1 {
        rake(&mut tokens, dwarf);
        compress(&mut tokens, dwarf);
        dwarf.rounds += 1;
    }
    dwarf.height = dwarf.highest();
    if dwarf.height > 57 {
        return Err((8, 0));
    }
    Ok((names, first, past))
}

/// Every leaf goes, since the tree has more than one node. The stack has the operands' dwarf roots, or none where an operand is no leaf.
fn rake(tokens: &mut Tokens, dwarf: &mut Dwarf) {
    let mut stack = [NONE; 1024];
    let (mut depth, mut out) = (0, 0);
    for k in 0..tokens.count {
        let (what, root) = (tokens.what[k], tokens.root[k]);
        match what {
            LEAF => {
                stack[depth] = root;
                depth += 1;
                continue;
            }
            ONE => match stack[depth - 1] {
                NONE => tokens.put(&mut out, ONE, root),
                value => tokens.put(&mut out, LEAF, dwarf.add(13, root, value)),
            },
            two => {
                depth -= 1;
                match (stack[depth - 1], stack[depth]) {
                    (NONE, NONE) => tokens.put(&mut out, two, 0),
                    (NONE, right) => tokens.put(&mut out, ONE, dwarf.add(9 + two - TWO, right, NONE)),
                    (left, NONE) => tokens.put(&mut out, ONE, dwarf.add(5 + two - TWO, left, NONE)),
                    (left, right) => tokens.put(&mut out, LEAF, dwarf.add(1 + two - TWO, left, right)),
                }
            }
        }
        stack[depth - 1] = NONE;
    }
    tokens.count = out;
}

/// A chain is a run of one-child tokens, the lowest first: with an odd number, the first of the run waits.
fn compress(tokens: &mut Tokens, dwarf: &mut Dwarf) {
    let (mut k, mut out) = (0, 0);
    while k < tokens.count {
        let mut past = k;
        while past < tokens.count && tokens.what[past] == ONE {
            past += 1;
        }
        if (past - k) % 2 == 1 || past == k {
            let (what, root) = (tokens.what[k], tokens.root[k]);
            tokens.put(&mut out, what, root);
            k += 1;
        }
        while k < past {
            let node = dwarf.add(14, tokens.root[k + 1], tokens.root[k]);
            tokens.put(&mut out, ONE, node);
            k += 2;
        }
    }
    tokens.count = out;
}
