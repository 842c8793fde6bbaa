//! Another ray caster's wall list, judged: when it is right, and the index where it goes wrong.

use crate::lines::Wall;

/// Their three lists as they come, of any lengths.
#[derive(Debug, Clone, Copy)]
pub struct TheirLists<'a> {
    pub lines: &'a [u32],
    pub starts: &'a [i32],
    pub ends: &'a [i32],
}

/// An entry of a list: "line, start, end".
#[derive(Debug, Clone, Copy, PartialEq, Eq)]
pub struct Entry {
    pub line: u32,
    pub start: i32,
    pub end: i32,
}

/// "Say whether it is right. Otherwise give the index"; of a right list the index is its length.
#[derive(Debug, Clone, Copy, PartialEq, Eq)]
pub struct Opinion {
    pub right: bool,
    pub index: usize,
}

impl TheirLists<'_> {
    pub fn same_length(&self) -> bool {
        self.starts.len() == self.lines.len() && self.ends.len() == self.lines.len()
    }

    pub fn entries(&self) -> Vec<Entry> {
        (0..self.lines.len()).map(|k| Entry { line: self.lines[k], start: self.starts[k], end: self.ends[k] }).collect()
    }
}

/// "Exactly if lines never fall, each start is below its end, no entry begins before the one before it on that line has ended, and
/// joining entries that touch gives our list."
pub fn is_right(ours: &[Entry], theirs: &[Entry]) -> bool {
    theirs.windows(2).all(|two| two[0].line <= two[1].line)
        && theirs.iter().all(|entry| entry.start < entry.end)
        && theirs.windows(2).all(|two| two[0].line != two[1].line || two[0].end <= two[1].start)
        && joined(theirs) == ours
}

/// Entries that touch, joined.
fn joined(entries: &[Entry]) -> Vec<Entry> {
    let mut all: Vec<Entry> = Vec::new();
    for entry in entries {
        match all.last_mut() {
            Some(before) if before.line == entry.line && before.end == entry.start => before.end = entry.end,
            _ => all.push(*entry),
        }
    }
    all
}

/// Whether some right list begins with these entries. What may follow them begins no sooner than the last of them has ended, so if any
/// list does, the one does that goes on with all of ours from there.
fn begins_a_right_list(ours: &[Entry], first: &[Entry]) -> bool {
    let mut whole = first.to_vec();
    match first.last() {
        None => whole.extend(ours),
        Some(last) => whole.extend(
            ours.iter()
                .filter(|wall| (wall.line, wall.end) > (last.line, last.end))
                .map(|wall| Entry { start: if wall.line == last.line { wall.start.max(last.end) } else { wall.start }, ..*wall }),
        ),
    }
    is_right(ours, &whole)
}

/// "The index of the first entry after which no right list could begin that way, or the list's length if it only lacks entries." A list
/// that begins a right one does so with fewer entries too, so the first of them is found by halving.
pub fn opinion(walls: &[Wall], theirs: &[Entry]) -> Opinion {
    let ours: Vec<Entry> = walls.iter().map(|wall| Entry { line: wall.line, start: wall.start, end: wall.end }).collect();
    if is_right(&ours, theirs) {
        return Opinion { right: true, index: theirs.len() };
    }
    let (mut good, mut past) = (0, theirs.len() + 1);
    while past - good > 1 {
        let middle = good + (past - good) / 2;
        if begins_a_right_list(&ours, &theirs[..middle]) {
            good = middle;
        } else {
            past = middle;
        }
    }
    Opinion { right: false, index: good }
}
