//! What a call is made of, from a seed: its sheets, toggles and their order, and the lengths of its answer lists.

use crate::make::{self, Dice};
use crate::sheet::Sheets;
use std::fmt::{self, Debug};

/// The bytes of a call's sheets: a customer's, and a fittings sheet where there is one.
#[derive(Clone)]
pub struct Given {
    pub fittings: Option<Vec<u8>>,
    pub own: Vec<u8>,
}

impl Given {
    pub fn alone(own: Vec<u8>) -> Given {
        Given { fittings: None, own }
    }

    pub fn theirs(&self) -> Sheets<'_> {
        Sheets { fittings: self.fittings.as_deref(), own: &self.own }
    }
}

/// Printed in hexadecimal.
impl Debug for Given {
    fn fmt(&self, f: &mut fmt::Formatter) -> fmt::Result {
        let digits = |sheet: &[u8]| sheet.iter().map(|byte| format!("{byte:02X}")).collect::<String>();
        write!(f, "{}", digits(&self.own))?;
        self.fittings.iter().try_for_each(|fittings| write!(f, " beside {}", digits(fittings)))
    }
}

/// The sheets of a call, one time in three with a fittings sheet.
pub fn any_given(dice: &mut Dice) -> Given {
    if dice.once_in(3) {
        let (fittings, own) = make::any_pair(dice);
        return Given { fittings: Some(fittings), own };
    }
    Given::alone(make::any_sheet(dice))
}

/// Mostly good sheets, and their number of names.
pub fn mostly_good(dice: &mut Dice) -> (Given, usize) {
    if dice.once_in(6) {
        let sheet = any_given(dice);
        let names = crate::read(sheet.theirs()).map_or(1, |sheet| sheet.names.len());
        return (sheet, names);
    }
    if dice.once_in(3) {
        let (fittings, own, names) = make::good_pair(dice);
        return (Given { fittings: Some(fittings), own }, names);
    }
    let (own, names) = make::good_sheet(dice);
    (Given::alone(own), names)
}

/// Toggles, at times with one that is no shape of the sheet.
pub fn any_toggles(dice: &mut Dice, names: usize, most: usize) -> Vec<u16> {
    let mut toggles = make::toggles(dice, names, most);
    if dice.once_in(10) && !toggles.is_empty() {
        let at = dice.below(toggles.len());
        toggles[at] = dice.of_these(&[names as u16, 256, 65535]);
    }
    toggles
}

/// An order of so many turns for each foundry.
pub fn any_mix(dice: &mut Dice, turns: [usize; 2]) -> Vec<u8> {
    let mut left = turns;
    let next = |_| {
        let turn = usize::from(dice.below(left[0] + left[1]) >= left[0]);
        left[turn] -= 1;
        turn as u8
    };
    (0..turns[0] + turns[1]).map(next).collect()
}

/// The same, at times damaged.
pub fn any_order(dice: &mut Dice, turns: [usize; 2]) -> Vec<u8> {
    let mut order = any_mix(dice, turns);
    if dice.once_in(5) {
        let at = dice.below(order.len() + 1);
        match (dice.below(4), order.get_mut(at)) {
            (0, Some(turn)) => *turn = dice.of_these(&[2, 3, 255]),
            (1, Some(turn)) => *turn = 1 - *turn,
            (2, _) => drop(order.pop()),
            _ => order.insert(at, dice.of_these(&[0, 1, 2])),
        }
    }
    order
}

/// The lengths of answer lists that need so much room: mostly enough, sometimes too short.
pub fn rooms<const LISTS: usize>(dice: &mut Dice, needed: [usize; LISTS]) -> [usize; LISTS] {
    let often_good = dice.below(4) > 0;
    needed.map(|need| match dice.below(if often_good { 3 } else { 6 }) {
        0 => need,
        1 => need + 1,
        2 => need + dice.below(70),
        3 => need.saturating_sub(1),
        4 => 0,
        _ => dice.below(need + 1),
    })
}
