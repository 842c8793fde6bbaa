//! Edits made from a seed: good ones, and ones that are wrong in a place.

use crate::edits::Edits;
use crate::formula::Op;
use crate::make::Dice;

/// Three lists of edits, not always of one length.
#[derive(Debug, Clone, Default)]
pub struct Design {
    pub moments: Vec<u64>,
    pub positions: Vec<u16>,
    pub codes: Vec<u16>,
}

impl Design {
    pub fn lists(&self) -> Edits<'_> {
        Edits { moments: &self.moments, positions: &self.positions, codes: &self.codes }
    }

    pub fn put(&mut self, moment: u64, position: u16, code: u16) {
        self.moments.push(moment);
        self.positions.push(position);
        self.codes.push(code);
    }
}

/// Good edits of a formula with these codes, so many at most: anywhere among the toggles, all before them, all after them, or few moments
/// for all. A formula of one leaf has none.
pub fn good(dice: &mut Dice, codes: &[u16], toggles: usize, most: usize) -> Design {
    let operations: Vec<u16> = (0..codes.len() as u16).filter(|at| Op::of_code(codes[usize::from(*at)]).is_some()).collect();
    let mut design = Design::default();
    if operations.is_empty() {
        return design;
    }
    let among = dice.of_these(&[operations.len(), operations.len(), 2.min(operations.len())]);
    let (first, steps) = dice.of_these(&[(0, toggles), (0, toggles), (0, 0), (toggles, 0), (toggles / 2, toggles.min(1))]);
    for _ in 0..dice.size(most + 1) - 1 {
        let moment = (first + dice.below(steps + 1)).min(toggles) as u64;
        design.put(moment, operations[dice.below(among)], Op::ALL[dice.below(4)].code());
    }
    design.moments.sort();
    design
}

/// How many ways there are to change an edit.
pub const WAYS: usize = 10;

/// Changes an edit that is there. The formula has these codes, and there are so many toggles. Some ways leave it good at times.
pub fn change(way: usize, at: usize, codes: &[u16], toggles: usize, design: &mut Design) {
    match way {
        0 => design.positions[at] = codes.iter().position(|code| Op::of_code(*code).is_none()).unwrap_or_default() as u16,
        1 => design.positions[at] = codes.len() as u16,
        2 => design.positions[at] = 65535,
        3 => design.codes[at] = 0xFFEF,
        4 => design.codes[at] = 0xFFF4,
        5 => design.codes[at] = 0,
        6 => design.moments[at] = toggles as u64 + 1,
        7 => design.moments[at] = u64::MAX,
        8 => design.moments[at] = 0,
        _ => design.moments[at] = toggles as u64,
    }
}

/// Edits of any kind: good, wrong in a place or two, of unequal lengths.
pub fn any(dice: &mut Dice, codes: &[u16], toggles: usize) -> Design {
    let mut design = good(dice, codes, toggles, 8 + 2000 / codes.len().max(20));
    if dice.once_in(8) {
        let (moment, position) = (dice.below(toggles + 1) as u64, dice.below(codes.len() + 1) as u16);
        design.put(moment, position, Op::ALL[dice.below(4)].code());
    }
    for _ in 0..dice.of_these(&[0, 0, 0, 1, 2]) {
        if !design.moments.is_empty() {
            change(dice.below(WAYS), dice.below(design.moments.len()), codes, toggles, &mut design);
        }
    }
    if dice.once_in(20) {
        match dice.below(4) {
            0 => design.moments.push(0),
            1 => design.positions.push(0),
            2 => design.codes.push(0xFFF0),
            _ => drop(design.moments.pop()),
        }
    }
    design
}
