//! Toggle, crossing and start lists, and the order of two toggle lists, from CSV.

use crate::csv::{self, Heading};
use crate::faults::Faults;
use crate::shown;
use kressedach::{Crossing, Start};
use std::str::FromStr;

/// The number that stands for a name the sheet does not have: no sheet has so many names, so the library refuses it in its turn.
const NO_SHAPE: u16 = u16::MAX;

/// The numbers of a sheet's names. A table has each at a place that its letters are mixed into, or at the next one that is free.
pub struct Shapes<'a> {
    names: Vec<&'a str>,
    table: Vec<Slot>,
}

/// A name in the table: its letters mixed, how many they are, and its number.
#[derive(Clone, Copy)]
struct Slot {
    mixed: u64,
    letters: usize,
    number: u16,
}

impl<'a> Shapes<'a> {
    pub fn of(names: &[&'a str]) -> Shapes<'a> {
        let free = Slot { mixed: 0, letters: 0, number: NO_SHAPE };
        // at most a quarter is taken, and there are 256 names at most, so that no choice of them makes it slow
        let mut shapes = Shapes { names: names.to_vec(), table: vec![free; (4 * names.len()).next_power_of_two()] };
        for (number, name) in (0..).zip(names) {
            let (at, mixed) = shapes.place(name);
            shapes.table[at] = Slot { mixed, letters: name.len(), number };
        }
        shapes
    }

    /// The number of a name; 65535 where no shape has it.
    fn number(&self, name: &str) -> u16 {
        self.table[self.place(name).0].number
    }

    /// Where a name stands, or would, and its letters mixed.
    #[inline]
    fn place(&self, name: &str) -> (usize, u64) {
        let (mixed, last) = (mixed(name.as_bytes()), self.table.len() - 1);
        // fewer than eight letters are one number, and mixing it loses nothing
        let is_it = |slot: &Slot| {
            slot.mixed == mixed && slot.letters == name.len() && (name.len() < 8 || self.names[usize::from(slot.number)] == name)
        };
        let mut at = mixed as usize & last;
        while self.table[at].number != NO_SHAPE && !is_it(&self.table[at]) {
            at = (at + 1) & last;
        }
        (at, mixed)
    }
}

/// All letters in one number, eight at a time.
fn mixed(letters: &[u8]) -> u64 {
    let mix = |mixed: u64, number: u64| (mixed ^ number).wrapping_mul(0x9E37_79B9_7F4A_7C15).rotate_left(29);
    let (mut all, mut rest) = (0, letters);
    while let Some((eight, after)) = rest.split_first_chunk() {
        (all, rest) = (mix(all, u64::from_le_bytes(*eight)), after);
    }
    // of what is left the first and the last four, some of them twice; or all, where they are fewer
    let left = match (rest.first_chunk(), rest.last_chunk()) {
        (Some(first), Some(last)) => u64::from(u32::from_le_bytes(*first)) << 32 | u64::from(u32::from_le_bytes(*last)),
        _ => rest.iter().fold(0, |number, letter| number << 8 | u64::from(*letter)),
    };
    mix(all, left)
}

/// More words are said of no list.
const MOST_STRANGERS: usize = 16;

/// A list, with what is needed to say where an entry comes from.
pub struct List<'a, T> {
    pub entries: Vec<T>,
    /// Words that are none that there is, with their entries: the first ones, as many as are said.
    strangers: Vec<(usize, String)>,
    text: &'a str,
}

impl<'a, T> List<'a, T> {
    pub fn none(text: &'a str) -> List<'a, T> {
        List { entries: vec![], strangers: vec![], text }
    }

    /// Says of the entry that comes next that its word is none that there is.
    pub fn estrange(&mut self, word: &str) {
        if self.strangers.len() < MOST_STRANGERS {
            self.strangers.push((self.entries.len(), word.into()));
        }
    }

    /// The word of an entry that is none that there is.
    pub fn stranger(&self, index: usize) -> Option<&str> {
        self.strangers.iter().find(|(entry, _)| *entry == index).map(|(_, word)| word.as_str())
    }

    /// The row of an entry in the file, from 1.
    pub fn row(&self, index: usize) -> usize {
        csv::row_of_entry(self.text, index)
    }
}

pub fn toggles<'a>(text: &'a str, shapes: &Shapes) -> Result<List<'a, u16>, Faults> {
    list(text, [], shapes, |_, shape| Ok(shape))
}

pub fn crossings<'a>(text: &'a str, shapes: &Shapes) -> Result<List<'a, Crossing>, Faults> {
    list(text, ["line", "position"], shapes, |[line, position], shape| {
        Ok(Crossing { line: number(line, "line")?, position: number(position, "position")?, shape })
    })
}

/// The shapes in which lines start.
pub fn starts<'a>(text: &'a str, shapes: &Shapes) -> Result<List<'a, Start>, Faults> {
    list(text, ["line"], shapes, |[line], shape| Ok(Start { line: number(line, "line")?, shape }))
}

/// An order: one column, `foundry`, with an entry a turn.
pub fn order(text: &str) -> Result<Vec<u8>, Faults> {
    let (heading, rows) = csv::headed(text, "foundry")?;
    if heading.fields != ["foundry"] {
        return Err(heading.wrong("foundry").into());
    }
    let mut order = Vec::new();
    rows.each(&heading, |_, fields| {
        order.push(number(&fields[0], "foundry")?);
        Ok(())
    })?;
    Ok(order)
}

/// A list whose heading has these columns and one for the shape, in any order. The fields of an entry come in the order of `columns`.
fn list<'a, T, const N: usize>(
    text: &'a str,
    columns: [&str; N],
    shapes: &Shapes,
    entry: impl Fn([&str; N], u16) -> Result<T, String>,
) -> Result<List<'a, T>, Faults> {
    let (heading, rows) = csv::headed(text, &due(&columns))?;
    let Columns { places, shape, by_name } = judged(&heading, columns)?;
    let mut list = List::none(text);
    rows.each(&heading, |_, fields| {
        let text = fields[shape].as_ref();
        let shape = match by_name {
            true => shapes.number(text),
            false => number(text, "shape").map_err(|wrong| format!("{wrong}; names stand below the heading 'name'"))?,
        };
        let entry = entry(places.map(|at| fields[at].as_ref()), shape)?;
        if by_name && shape == NO_SHAPE {
            list.estrange(text);
        }
        list.entries.push(entry);
        Ok(())
    })?;
    Ok(list)
}

/// Where each column stands, where the shape does, and whether shapes are given by name.
struct Columns<const N: usize> {
    places: [usize; N],
    shape: usize,
    by_name: bool,
}

fn judged<const N: usize>(heading: &Heading, columns: [&str; N]) -> Result<Columns<N>, String> {
    let wrong = || heading.wrong(&due(&columns));
    let places = columns.map(|column| heading.place(column));
    let (shape, by_name) = match (heading.place("name"), heading.place("shape")) {
        (Some(at), None) => (at, true),
        (None, Some(at)) => (at, false),
        _ => return Err(wrong()),
    };
    if heading.fields.len() != N + 1 || places.contains(&None) {
        return Err(wrong());
    }
    Ok(Columns { places: places.map(Option::unwrap_or_default), shape, by_name })
}

fn due(columns: &[&str]) -> String {
    let with = |last: &str| [columns, &[last]].concat().join(",");
    format!("{} or {}", with("name"), with("shape"))
}

#[inline]
pub fn number<T: FromStr>(text: &str, column: &str) -> Result<T, String> {
    text.parse().map_err(|_| no_number(text, column))
}

#[cold]
fn no_number(text: &str, column: &str) -> String {
    let range = match column {
        "foundry" => "0 to 255",
        "line" => "0 to 4294967295",
        "position" | "start" | "end" => "-2147483648 to 2147483647",
        _ => "0 to 65535",
    };
    format!("{column} {} is no whole number from {range}", shown::quoted(text))
}

#[cfg(test)]
mod tests {
    use super::*;

    /// Names of every length, many that differ in one letter alone, and words that are no name.
    #[test]
    fn numbers_of_names() {
        let longest = "abcdefghijklmnopqrstuvwxyzABCDEF";
        let cut = (1..=32).map(|letters| longest[..letters].to_string());
        let changed = (0..32).map(|at| format!("{}{}{}", &longest[..at], "_", &longest[at + 1..]));
        let repeated = (1..=32).map(|letters| "a".repeat(letters)).skip(1);
        let all: Vec<String> = cut.chain(changed).chain(repeated).chain((0..150).map(|k| format!("rib{k:03}"))).collect();
        let (names, others): (Vec<&str>, Vec<&str>) =
            (all.iter().step_by(2).map(|name| &name[..]).collect(), all.iter().skip(1).step_by(2).map(|name| &name[..]).collect());
        let shapes = Shapes::of(&names);
        names.iter().zip(0..).for_each(|(name, number)| assert_eq!(shapes.number(name), number, "{name}"));
        others.iter().chain(&[""]).for_each(|name| assert_eq!(shapes.number(name), NO_SHAPE, "{name}"));
        assert_eq!(Shapes::of(&[]).number("a"), NO_SHAPE);
    }
}
