//! Another ray caster's wall lists: right ones made from a seed, and every way to make one wrong at an entry.

use crate::judging::{Entry, TheirLists};
use crate::lines::Wall;
use crate::make::Dice;

/// Three lists, not always of one length.
#[derive(Debug, Clone, Default)]
pub struct Theirs {
    pub lines: Vec<u32>,
    pub starts: Vec<i32>,
    pub ends: Vec<i32>,
}

impl Theirs {
    pub fn of(all: &[Entry]) -> Theirs {
        let (lines, starts) = (all.iter().map(|entry| entry.line), all.iter().map(|entry| entry.start));
        Theirs { lines: lines.collect(), starts: starts.collect(), ends: all.iter().map(|entry| entry.end).collect() }
    }

    pub fn lists(&self) -> TheirLists<'_> {
        TheirLists { lines: &self.lines, starts: &self.starts, ends: &self.ends }
    }
}

/// The walls as entries, one after the other.
pub fn whole(walls: &[Wall]) -> Vec<Entry> {
    walls.iter().map(|wall| Entry { line: wall.line, start: wall.start, end: wall.end }).collect()
}

/// A right list: some walls are split, at their first or last micrometre or anywhere, once or often.
pub fn right(dice: &mut Dice, walls: &[Wall]) -> Vec<Entry> {
    let often = dice.of_these(&[1, 2, 20]);
    let mut all = Vec::new();
    for mut rest in whole(walls) {
        for _ in 0..dice.below(4) {
            let length = i64::from(rest.end) - i64::from(rest.start);
            if !dice.once_in(often) || length < 2 {
                continue;
            }
            let anywhere = 1 + dice.below(length as usize - 1) as i64;
            let within = dice.of_these(&[1, length - 1, anywhere]);
            let split = (i64::from(rest.start) + within) as i32;
            all.push(Entry { end: split, ..rest });
            rest.start = split;
        }
        all.push(rest);
    }
    all
}

/// How many ways there are to change a list at an entry.
pub const WAYS: usize = 22;

/// Changes a list at an entry that it has. Some ways leave it right: an entry split, or two that touch made one.
pub fn change(way: usize, at: usize, all: &mut Vec<Entry>) {
    let here = all[at];
    let next = all.get(at + 1).copied().unwrap_or(Entry { line: here.line.saturating_add(1), start: 0, end: 1 });
    match way {
        0 => all[at].start = here.start.saturating_sub(1),
        1 => all[at].start = here.start.saturating_add(1),
        2 => all[at].end = here.end.saturating_sub(1),
        3 => all[at].end = here.end.saturating_add(1),
        4 => all[at].line = here.line.saturating_sub(1),
        5 => all[at].line = here.line.saturating_add(1),
        6 => all[at].line = u32::MAX,
        7 => all[at].line = 0,
        8 => all[at].start = i32::MIN,
        9 => all[at].end = i32::MAX,
        10 => all[at].end = here.start,
        11 => (all[at].start, all[at].end) = (here.end, here.start),
        12 => all[at].end = next.end,
        13 => all[at].end = next.start,
        14 => drop(all.remove(at)),
        15 => all.insert(at, here),
        16 => all.insert(at + 1, Entry { start: here.end, end: here.end, ..here }),
        17 => all.insert(at + 1, Entry { start: here.end, end: here.end.saturating_add(1), ..here }),
        18 => all.insert(at, Entry { start: here.start.saturating_sub(1), end: here.start, ..here }),
        19 => all.insert(at + 1, Entry { start: here.start, ..next }),
        20 => all.truncate(at),
        _ => {
            let middle = ((i64::from(here.start) + i64::from(here.end)) / 2) as i32;
            all[at].end = middle;
            all.insert(at + 1, Entry { start: middle, ..here });
        }
    }
}

/// Changes a list anywhere: an entry of it in any way, two of them taken for each other, an entry too many at its end.
pub fn damage(dice: &mut Dice, all: &mut Vec<Entry>) {
    if all.is_empty() || dice.once_in(12) {
        let last = all.last().copied().unwrap_or(Entry { line: 0, start: -5, end: -5 });
        let line = last.line.saturating_add(dice.below(2) as u32);
        return all.push(Entry { line, start: last.end, end: last.end.saturating_add(3) });
    }
    let at = dice.below(all.len());
    match dice.below(WAYS + 1) {
        WAYS => {
            let other = dice.below(all.len());
            all.swap(at, other);
        }
        way => change(way, at, all),
    }
}

/// A list of any kind on these walls: right, wrong in one place or in two, at times of unequal lengths.
pub fn any(dice: &mut Dice, walls: &[Wall]) -> Theirs {
    let mut all = right(dice, walls);
    for _ in 0..dice.of_these(&[0, 0, 1, 1, 1, 2]) {
        damage(dice, &mut all);
    }
    let mut theirs = Theirs::of(&all);
    if dice.once_in(20) {
        match dice.below(4) {
            0 => theirs.lines.push(0),
            1 => theirs.starts.push(0),
            2 => theirs.ends.push(0),
            _ => drop(theirs.ends.pop()),
        }
    }
    theirs
}
