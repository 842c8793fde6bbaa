//! "Change one operation without a new build": runs of toggles and edits. Here every edit is a new build.

use crate::dwarf::{contract, Dwarf};
use crate::formula::{Formula, Op};
use crate::toggles::{afresh, Label, Ran};

/// The three lists of edits as they come, of any lengths: "after how many toggles, postfix position from 0, new code".
#[derive(Debug, Clone, Copy)]
pub struct Edits<'a> {
    pub moments: &'a [u64],
    pub positions: &'a [u16],
    pub codes: &'a [u16],
}

/// What a run with edits answers: "an edit counts the labels it reworks, in a list of its own".
#[derive(Debug, Clone, PartialEq, Eq)]
pub struct Edited {
    pub ran: Ran,
    pub edit_counts: Vec<u32>,
}

impl Edits<'_> {
    pub fn same_length(&self) -> bool {
        self.positions.len() == self.moments.len() && self.codes.len() == self.moments.len()
    }

    /// "A node that isn't an operation, a code that isn't one, or a moment that falls or exceeds the toggles": the first index at fault.
    pub fn first_wrong(&self, formula: &Formula, toggles: usize) -> Option<usize> {
        let codes = formula.codes();
        let operation = |code: u16| Op::of_code(code).is_some();
        (0..self.moments.len()).find(|index| {
            let node = codes.get(usize::from(self.positions[*index]));
            let falls = *index > 0 && self.moments[*index] < self.moments[*index - 1];
            !node.is_some_and(|code| operation(*code)) || !operation(self.codes[*index]) || falls || self.moments[*index] > toggles as u64
        })
    }
}

/// The sheet as edited by then, the shapes then inside, and the labels that a build of it has with them.
struct Now {
    formula: Formula,
    dwarf: Dwarf,
    inside: [bool; 256],
    labels: Vec<Label>,
}

impl Now {
    fn of(formula: Formula) -> Now {
        let (dwarf, inside) = (contract(&formula), [false; 256]);
        Now { labels: afresh(&dwarf, &inside), formula, dwarf, inside }
    }

    /// K2's rule: "reworks a node exactly when a child's label has changed". Gives how many nodes that is.
    fn work_out(&mut self) -> u32 {
        let before = std::mem::replace(&mut self.labels, afresh(&self.dwarf, &self.inside));
        let changed = |child: usize| self.labels[child] != before[child];
        self.dwarf.records.iter().filter(|record| record.children().into_iter().any(changed)).count() as u32
    }

    fn toggle(&mut self, shape: u16) -> u32 {
        self.inside[usize::from(shape)] ^= true;
        self.work_out()
    }

    /// "Its own node included": below it nothing changes, so that none of its children is changed and it is counted here alone.
    fn edit(&mut self, position: u16, code: u16) -> u32 {
        self.formula.put(usize::from(position), Op::of_code(code).unwrap());
        self.dwarf = contract(&self.formula);
        1 + self.work_out()
    }

    fn root(&self) -> u8 {
        self.labels.last().unwrap().listed()
    }
}

/// "Edits with equal moments act in list order, after the root of the toggle before them is given."
pub fn run(formula: Formula, toggles: &[u16], edits: Edits) -> Edited {
    let mut now = Now::of(formula);
    let (mut roots, mut counts, mut edit_counts) = (vec![], vec![], vec![]);
    let mut waiting = (0..edits.moments.len()).peekable();
    for moment in 0..=toggles.len() {
        if moment > 0 {
            counts.push(now.toggle(toggles[moment - 1]));
            roots.push(now.root());
        }
        while let Some(index) = waiting.next_if(|index| edits.moments[*index] == moment as u64) {
            edit_counts.push(now.edit(edits.positions[index], edits.codes[index]));
        }
    }
    Edited { ran: Ran { roots, counts, labels: now.labels.into_iter().map(Label::listed).collect() }, edit_counts }
}
